"""Reads sheets as engines do, each form from its public definition, which docs/PACK.md names. A reader takes the path of the file
that an engine is given, and gives the pictures by name, each of the size that it had in its own file."""
import json
import os
import plistlib
import re
import xml.etree.ElementTree

from PIL import Image


def opened(beside, name):
    """The picture of a sheet, which lies beside the file that names it."""
    with Image.open(os.path.join(os.path.dirname(beside), name)) as picture:
        return picture.convert('RGBA')


def put(part, size, corner):
    """What the engine draws: the part of the sheet, at its place in an empty picture."""
    whole = Image.new('RGBA', size)
    whole.paste(part, corner)
    return whole


def from_json(sheet, told):
    """One frame of TexturePacker's JSON: the sides of `frame` are those before turning, and a turned sprite lies clockwise."""
    box, source = told['frame'], told['sourceSize']
    wide, high = (box['h'], box['w']) if told['rotated'] else (box['w'], box['h'])
    part = sheet.crop((box['x'], box['y'], box['x'] + wide, box['y'] + high))
    if told['rotated']:
        part = part.transpose(Image.ROTATE_90)
    at = told['spriteSourceSize']
    assert (at['w'], at['h']) == (box['w'], box['h'])
    if not told['trimmed']:
        assert (source['w'], source['h'], at['x'], at['y']) == (box['w'], box['h'], 0, 0)
    return put(part, (source['w'], source['h']), (at['x'], at['y']))


def read_json(path):
    with open(path, encoding='utf-8') as file:
        return json.load(file)


def json_sheets(path):
    """The first file, and those that its `related_multi_packs` names; each with its picture."""
    first = read_json(path)
    paths = [path] + [os.path.join(os.path.dirname(path), name) for name in first['meta'].get('related_multi_packs', [])]
    for each in paths:
        data = read_json(each)
        sheet = opened(each, data['meta']['image'])
        assert sheet.size == (data['meta']['size']['w'], data['meta']['size']['h'])
        yield data, sheet


def json_hash(path):
    return {name: from_json(sheet, told) for data, sheet in json_sheets(path) for name, told in data['frames'].items()}


def json_array(path):
    return {told['filename']: from_json(sheet, told) for data, sheet in json_sheets(path) for told in data['frames']}


def phaser(path):
    found = {}
    for texture in read_json(path)['textures']:
        sheet = opened(path, texture['image'])
        assert sheet.size == (texture['size']['w'], texture['size']['h'])
        assert isinstance(texture['scale'], (int, float))
        found.update({told['filename']: from_json(sheet, told) for told in texture['frames']})
    return found


def fields(lines, place):
    """The lines `key: value, value` from a place on, as libGDX reads them, and the place after them."""
    found = {}
    while place < len(lines) and ':' in lines[place]:
        key, values = lines[place].split(':', 1)
        found[key.strip()] = [value.strip() for value in values.split(',')]
        place += 1
    return found, place


def libgdx(path):
    """An empty line ends a page; the first line of a page is its picture, and each line without a colon after it a region."""
    with open(path, encoding='utf-8') as file:
        lines = file.read().split('\n')
    found, sheet, place = {}, None, 0
    while place < len(lines):
        line = lines[place]
        place += 1
        if not line.strip():
            sheet = None
        elif sheet is None:
            told, place = fields(lines, place)
            sheet = opened(path, line)
            assert [str(side) for side in sheet.size] == told['size'] and told['format'] == ['RGBA8888']
        else:
            told, place = fields(lines, place)
            index = int(told.get('index', ['-1'])[0])
            found[line.strip() if index == -1 else (line.strip(), index)] = gdx_region(sheet, told)
    return found


def gdx_nines(path):
    """The sides `left, right, top, bottom` of `split` and `pad` of each region that has them."""
    with open(path, encoding='utf-8') as file:
        lines = file.read().split('\n')
    found = {}
    for line in lines:
        if line and ':' not in line:
            name = line
        elif line.strip().startswith(('split:', 'pad:')):
            found.setdefault(name, {})[line.split(':')[0].strip()] = [int(value) for value in line.split(':')[1].split(',')]
    return found


def gdx_region(sheet, told):
    """The sides are those before turning; a turned region lies counter-clockwise; offsets are from the lower left corner. The new form
    has `bounds` and `offsets`, and leaves out what is usual."""
    told = {key: values if key == 'rotate' else [int(value) for value in values] for key, values in told.items()}
    x, y, wide, high = told.get('bounds') or told['xy'] + told['size']
    left, bottom, whole_wide, whole_high = told.get('offsets') or told.get('offset', [0, 0]) + told.get('orig', [wide, high])
    if told.get('rotate') in (['true'], ['90']):
        part = sheet.crop((x, y, x + high, y + wide)).transpose(Image.ROTATE_270)
    else:
        part = sheet.crop((x, y, x + wide, y + high))
    return put(part, (whole_wide, whole_high), (left, whole_high - bottom - high))


TOKEN = re.compile(r'\s*(?:(&?"(?:[^"\\]|\\.)*")|(-?[0-9.]+)|([A-Za-z_0-9]+)|(.))', re.S)


class Values:
    """The values of Godot's text: numbers, strings, lists, dictionaries and calls as Rect2(1, 2, 3, 4)."""

    def __init__(self, text):
        self.tokens = [match.groups() for match in TOKEN.finditer(text) if match.group(0).strip()]
        self.place = 0

    def sign(self):
        return self.tokens[self.place][3]

    def until(self, end, read):
        items = []
        while self.sign() != end:
            items.append(read())
            if self.sign() == ',':
                self.place += 1
        self.place += 1
        return items

    def pair(self):
        key = self.value()
        assert self.sign() == ':'
        self.place += 1
        return key, self.value()

    def value(self):
        text, number, word, sign = self.tokens[self.place]
        self.place += 1
        if text is not None:
            return re.sub(r'\\(.)', r'\1', text[text.index('"') + 1:-1])
        if number is not None:
            return float(number)
        if sign == '[':
            return self.until(']', self.value)
        if sign == '{':
            return dict(self.until('}', self.pair))
        if self.place < len(self.tokens) and self.sign() == '(':
            self.place += 1
            return (word, self.until(')', self.value))
        return word


def sections(text):
    """The sections `[kind key=value ..]` of Godot's text, each with the lines `key = value` below it."""
    parts = re.split(r'^\[([a-z_]+)([^\n]*)\]\n', text, flags=re.M)
    for kind, words, body in zip(parts[1::3], parts[2::3], parts[3::3]):
        heads = {key: Values(value).value() for key, value in re.findall(r'(\w+)=((?:"(?:[^"\\]|\\.)*")|\S+)', words)}
        starts = [match.start() for match in re.finditer(r'^[a-z_]+ = ', body, re.M)] + [len(body)]
        lines = [body[start:end].split(' = ', 1) for start, end in zip(starts, starts[1:])]
        yield kind, heads, {key: Values(value).value() for key, value in lines}


def godot(path):
    """Of each animation the texture of its first frame."""
    return {name: frames[0] for name, (_, frames) in godot_animations(path).items()}


def godot_animations(path):
    """SpriteFrames: of each animation its speed and the textures of its frames, each an AtlasTexture: `region` of `atlas`, put at the
    position of `margin` into a picture that the size of `margin` makes larger."""
    sheets, textures, found = {}, {}, {}
    with open(path, encoding='utf-8') as file:
        parts = list(sections(file.read()))
    assert parts[0][0] == 'gd_resource' and parts[0][1]['type'] == 'SpriteFrames' and parts[0][1]['format'] in (2, 3)
    is_three = parts[0][1]['format'] == 2
    assert parts[0][1]['load_steps'] == len(parts) - 1
    for kind, heads, body in parts[1:]:
        if kind == 'ext_resource':
            sheets[heads['id']] = opened(path, heads['path'])
        elif kind == 'sub_resource':
            assert heads['type'] == 'AtlasTexture'
            x, y, wide, high = (int(value) for value in body['region'][1])
            left, top, wider, higher = (int(value) for value in body.get('margin', ('Rect2', [0, 0, 0, 0]))[1])
            part = sheets[body['atlas'][1][0]].crop((x, y, x + wide, y + high))
            textures[heads['id']] = put(part, (wide + wider, high + higher), (left, top))
        else:
            for animation in body['animations']:
                assert animation['name'] not in found and animation['loop'] in ('true', 'false')
                assert is_three or all(frame['duration'] == 1 for frame in animation['frames'])
                shown = [textures[(frame if is_three else frame['texture'])[1][0]] for frame in animation['frames']]
                found[animation['name']] = (animation['speed'], shown)
    return found


def starling(path):
    """The files OUT.xml or OUT-0.xml, OUT-1.xml ..: a region of the sheet as it lies; turned it lies clockwise; `frame` is the
    whole picture seen from the corner of the region."""
    found = {}
    for each in numbered(path):
        root = xml.etree.ElementTree.parse(each).getroot()
        sheet = opened(each, root.get('imagePath'))
        for told in root.findall('SubTexture'):
            x, y, wide, high = (int(told.get(key)) for key in ('x', 'y', 'width', 'height'))
            part = sheet.crop((x, y, x + wide, y + high))
            if told.get('rotated') == 'true':
                part = part.transpose(Image.ROTATE_90)
            left, top, wide, high = (int(told.get(key, other)) for key, other in
                                     zip(('frameX', 'frameY', 'frameWidth', 'frameHeight'), (0, 0) + part.size))
            found[told.get('name')] = put(part, (wide, high), (-left, -top))
    return found


def plists(path, version):
    """Of each property list, which has this format, the frames and the sheet."""
    for each in numbered(path):
        with open(each, 'rb') as file:
            data = plistlib.load(file)
        sheet = opened(each, data['metadata']['textureFileName'])
        assert data['metadata']['format'] == version and numbers(data['metadata']['size']) == list(sheet.size)
        yield data['frames'], sheet


def cocos(path):
    """The property lists OUT.plist or OUT-0.plist ..: the sides are those before turning clockwise; `sourceColorRect` is where the rest
    lies in the picture, and `offset` how far its middle is from the picture's, upwards."""
    found = {}
    for frames, sheet in plists(path, 2):
        for name, told in frames.items():
            (x, y, wide, high), (left, top, wide_, high_) = numbers(told['frame']), numbers(told['sourceColorRect'])
            size = numbers(told['sourceSize'])
            assert (wide, high) == (wide_, high_)
            assert numbers(told['offset']) == [left + wide / 2 - size[0] / 2, -(top + high / 2 - size[1] / 2)]
            part = sheet.crop((x, y, x + (high if told['rotated'] else wide), y + (wide if told['rotated'] else high)))
            found[name] = put(part.transpose(Image.ROTATE_90) if told['rotated'] else part, tuple(map(int, size)), (int(left), int(top)))
    return found


def cocos3(path):
    """The same of format 3: where the rest lies in the picture is told by `spriteOffset` alone, the way of its middle from the picture's,
    upwards."""
    found = {}
    for frames, sheet in plists(path, 3):
        for name, told in frames.items():
            x, y = numbers(told['textureRect'])[:2]
            (wide, high), size, offset = (numbers(told[key]) for key in ('spriteSize', 'spriteSourceSize', 'spriteOffset'))
            assert told['aliases'] == [] and numbers(told['textureRect'])[2:] == [wide, high]
            left, top = offset[0] - wide / 2 + size[0] / 2, size[1] / 2 - high / 2 - offset[1]
            assert left == int(left) and top == int(top)
            part = sheet.crop((x, y, x + (high if told['textureRotated'] else wide), y + (wide if told['textureRotated'] else high)))
            part = part.transpose(Image.ROTATE_90) if told['textureRotated'] else part
            found[name] = put(part, tuple(map(int, size)), (int(left), int(top)))
    return found


def cocos3_anchors(path):
    """Of each frame that has one: in parts of the picture, from its lower left corner."""
    return {name: tuple(numbers(told['anchor'])) for frames, _ in plists(path, 3) for name, told in frames.items() if 'anchor' in told}


def numbers(text):
    """Those of {1,2} or {{1,2},{3,4}}."""
    return [float(number) for number in re.findall(r'-?[0-9.]+', text)]


def numbered(path):
    """The file itself, or where it is -0 of several, all of them."""
    if '-0' not in os.path.basename(path):
        return [path]
    head, tail = path.rsplit('-0', 1)
    found = [path]
    while os.path.exists('%s-%d%s' % (head, len(found), tail)):
        found.append('%s-%d%s' % (head, len(found), tail))
    return found


READERS = {'json-hash': (json_hash, '.json', True), 'json-array': (json_array, '.json', True), 'phaser': (phaser, '.json', False),
           'libgdx': (libgdx, '.atlas', False), 'libgdx-new': (libgdx, '.atlas', False), 'godot': (godot, '.tres', False),
           'godot3': (godot, '.tres', False), 'starling': (starling, '.xml', True), 'cocos': (cocos, '.plist', True),
           'cocos3': (cocos3, '.plist', True)}


def read(form, out, suffix=''):
    """What the engine of a form finds under OUT."""
    reader, ending, is_for_each = READERS[form]
    path = out + suffix + ending
    if is_for_each and not os.path.exists(path):
        path = out + '-0' + suffix + ending
    return reader(path)
