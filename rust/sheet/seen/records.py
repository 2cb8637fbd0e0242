#!/usr/bin/env python3
"""What the records of guillotiere-sheet tell beside places: animations, anchors, nine-patches, filters, and what templates make of it.
Godot 3 loads a set, where it is installed.

    rust/sheet/seen/records.py PROGRAM

The last line is 'N passed, M failed'. It needs Pillow."""
import json
import os
import re
import shutil
import subprocess
import sys
import xml.etree.ElementTree

sys.dont_write_bytecode = True
HERE = os.path.dirname(os.path.abspath(__file__))
import icons  # noqa: E402
import readers  # noqa: E402
from common import frames, main, read, run, test, write  # noqa: E402
from PIL import Image  # noqa: E402

ANCHORED = ['json-hash', 'json-array', 'phaser', 'starling', 'cocos3']


def walking(room):
    """A figure that walks, in each form: its pictures come in the order of their numbers, with the anchors that a file tells."""
    folder = os.path.join(room, 'walking')
    count = 12
    for number in range(1, count + 1):
        icons.save(folder, 'hero/walk_%d.png' % number, Image.new('RGBA', (20 + number, 10), (number, 1, 2, 255)))
    for number in (16, 32):
        icons.save(folder, 'icon%d.png' % number, Image.new('RGBA', (number, number), (9, number, 2, 255)))
    write(os.path.join(folder, 'anchors.txt'), '# feet\nhero/* 0.5 1\n\nwalk_12.png 0.25 -1.5\n')
    names = ['hero/walk_%d.png' % number for number in range(1, count + 1)]
    originals = {name: picture for name, picture in icons.originals(folder, '.png').items()}
    for more in ([], ['--trim', '--size', '72', '72', '--pages', '9', '--group']):
        for name in readers.READERS:
            out = os.path.join(room, ' '.join(['walking', name, *more]))
            told = run(folder, out, '--form', name, '--frame-rate', '12.5', *more).stderr
            assert told == ('' if name in ANCHORED else 'guillotiere-sheet: this form has no place for anchors\n'), told
            played(name, out, originals, names)
    out = os.path.join(room, 'split')
    told = run(folder, out, '--size', '64', '40', '--pages', '99').stderr
    assert told.startswith("guillotiere-sheet: animation hero/walk is split: it doesn't fit on one sheet of 64x40; "), told
    icons.compare(readers.read('json-hash', out), originals, False)
    for name in ('json-hash', 'libgdx', 'libgdx-new', 'godot', 'godot3'):
        out = os.path.join(room, 'single ' + name)
        run(folder, out, '--form', name, '--no-animations')
        icons.compare(readers.read(name, out), originals, False)
    run(folder, out, '--anchor', '0.5,0.5')
    anchors = {name: told['anchor'] for name, told in frames(out).items()}
    assert anchors['icon16.png'] == {'x': 0.5, 'y': 0.5} and anchors[names[0]] == {'x': 0.5, 'y': 1}
    with open(os.path.join(folder, 'anchors.txt'), 'a') as file:
        file.write('walk_13.png 1 1\n')
    assert run(folder, out).stderr.endswith('anchors.txt: line 5: no picture is like it\n')
    with open(os.path.join(folder, 'anchors.txt'), 'a') as file:
        file.write('walk_1.png 1\n')
    assert run(folder, out, status=1).stderr.endswith("anchors.txt: line 6: it isn't PATTERN X Y\n")


def played(form, out, originals, names):
    """What the record of a form tells of the figure."""
    singles = [name for name in originals if name not in names]
    if form in ('libgdx', 'libgdx-new'):
        found = readers.read(form, out)
        indexed = {names[number - 1]: found.pop(('hero/walk.png', number)) for number in range(1, len(names) + 1)}
        icons.compare({**found, **indexed}, originals, False)
        assert [int(index) for index in re.findall(r'index: (\d+)', read(out + '.atlas'))] == list(range(1, len(names) + 1))
        return
    if form in ('godot', 'godot3'):
        found = readers.godot_animations(out + '.tres')
        assert sorted(found) == sorted(['hero/walk', *singles]) and {speed for speed, _ in found.values()} == {12.5}
        icons.compare({**dict(zip(names, found['hero/walk'][1])), **{name: found[name][1][0] for name in singles}}, originals, False)
        return
    icons.compare(readers.read(form, out), originals, False)
    if form == 'cocos':
        return
    if form == 'cocos3':
        path = out + '.plist' if os.path.exists(out + '.plist') else out + '-0.plist'
        assert readers.cocos3_anchors(path) == {name: (0.25, 2.5) if name == names[11] else (0.5, 0) for name in names}
        return
    if form == 'starling':
        path = out + '.xml' if os.path.exists(out + '.xml') else out + '-0.xml'
        pivots = {told.get('name'): (told.get('pivotX'), told.get('pivotY')) for each in readers.numbered(path)
                  for told in xml.etree.ElementTree.parse(each).getroot()}
        assert pivots[names[1]] == ('11', '10') and pivots[names[11]] == ('8', '-15') and pivots['icon16.png'] == (None, None)
        return
    path = out + '.json' if os.path.exists(out + '.json') else out + '-0.json'
    data = readers.read_json(path)
    parts = data['textures'] if form == 'phaser' else [part for part, _ in readers.json_sheets(path)]
    if form == 'json-array' and '-0' in path:
        parts = [readers.read_json(each) for each in readers.numbered(path)]
    listed = [list(part['frames']) if form == 'json-hash' else [told['filename'] for told in part['frames']] for part in parts]
    part, order = next((part, order) for part, order in zip(parts, listed) if names[0] in order)
    first = order.index(names[0])
    assert order[first:first + len(names)] == names
    told = part['frames'] if form == 'json-hash' else {told['filename']: told for told in part['frames']}
    assert told[names[0]]['anchor'] == {'x': 0.5, 'y': 1} and told[names[11]]['anchor'] == {'x': 0.25, 'y': -1.5}
    assert {name: each.get('duration') for name, each in told.items()} == {name: 80 if name in names else None for name in told}
    if form != 'phaser':
        assert part['animations'] == {'hero/walk': names}
        assert part['meta']['frameTags'] == [{'name': 'hero/walk', 'from': first, 'to': first + len(names) - 1, 'direction': 'forward'}]


def filters(folder, room):
    """How an engine reads between pixels, and beyond the border."""
    out = os.path.join(room, 'filters')
    for form in ('libgdx', 'libgdx-new'):
        for words, lines in (([], 'filter: Linear,Linear\nrepeat: none\n'),
                             (['--filter', 'nearest'], 'filter: Nearest,Nearest\nrepeat: none\n'),
                             (['--filter', 'mipmap', '--wrap', 'x'], 'filter: MipMapLinearLinear,Linear\nrepeat: x\n')):
            run(folder, out, '--form', form, *words)
            assert lines in read(out + '.atlas')


GODOT = """extends SceneTree

func _init():
	var pages = 0
	var images = {}
	while File.new().file_exists("res://sheet-%d.png" % pages):
		var image = Image.new()
		image.load("res://sheet-%d.png" % pages)
		var texture = ImageTexture.new()
		texture.create_from_image(image, 0)
		texture.take_over_path("res://sheet-%d.png" % pages)
		# Without a screen textures have no pixels to ask for.
		images[texture.resource_path] = image
		pages += 1
	var frames = load("res://sheet.tres")
	var count = 0
	for name in frames.get_animation_names():
		for number in range(frames.get_frame_count(name)):
			var one = frames.get_frame(name, number)
			var whole = Image.new()
			whole.create(one.get_width(), one.get_height(), false, Image.FORMAT_RGBA8)
			whole.blit_rect(images[one.atlas.resource_path], one.region, one.margin.position)
			whole.save_png("res://shown/%d.png" % count)
			print("FRAME ", to_json([name, number, frames.get_animation_speed(name), count]))
			count += 1
	quit()
"""


def by_godot(folder, room):
    """Godot 3 loads a generated set: its names, its speeds, and the pixels that it has of each frame."""
    program = shutil.which('godot3-server') or shutil.which('godot3')
    if program is None:
        print('skipped Godot: there is no godot3-server')
        return
    project = os.path.join(room, 'project')
    os.makedirs(os.path.join(project, 'shown'))
    walk = os.path.join(room, 'godot walk')
    shutil.copytree(folder, walk)
    for number in range(1, 12):
        icons.save(walk, 'hero/walk_%d.png' % number, Image.new('RGBA', (20 + number, 10), (number, 1, 2, 255)))
    run(walk, os.path.join(project, 'sheet'), '--form', 'godot3', '--trim', '--size', '256', '256', '--pages', '9', '--frame-rate', '7.5')
    for name, text in (('project.godot', 'config_version=4\n'), ('show.gd', GODOT)):
        write(os.path.join(project, name), text)
    words = [program, '--path', project, '-s', 'show.gd'] + ([] if program.endswith('-server') else ['--no-window'])
    done = subprocess.run(words, stdout=subprocess.PIPE, stderr=subprocess.STDOUT, text=True, timeout=200,
                          env=dict(os.environ, HOME=project))
    told = [json.loads(line[6:]) for line in done.stdout.splitlines() if line.startswith('FRAME ')]
    originals = icons.originals(walk)
    assert len(told) == len(originals), done.stdout[-3000:]
    found = {}
    for name, number, speed, place in told:
        assert speed == 7.5
        with Image.open(os.path.join(project, 'shown', '%d.png' % place)) as picture:
            found['hero/walk_%d.png' % (number + 1) if name == 'hero/walk' else name] = picture.convert('RGBA')
    icons.compare(found, originals, True)


def templates(folder, room):
    """The forms that are templates, and templates that a user brings: those beside the program, one file for all sheets or one for each."""
    originals = icons.originals(folder)
    for more in ([], ['--size', '256', '256', '--pages', '9']):
        out = os.path.join(room, ' '.join(['unity', *more]))
        run(folder, out, '--form', 'unity', *more)
        data = readers.read_json(out + '.json')
        found = {}
        for texture in data['textures']:
            sheet = readers.opened(out, texture['texture'])
            assert sheet.size == (texture['width'], texture['height'])
            for told in texture['sprites']:
                # From the lower left corner.
                x, y, wide, high = (told['rect'][key] for key in ('x', 'y', 'width', 'height'))
                assert (told['pivot'], told['border']) == ({'x': 0.5, 'y': 0.5}, dict.fromkeys('xyzw', 0))
                found[told['name']] = sheet.crop((x, sheet.height - y - high, x + wide, sheet.height - y))
        icons.compare(found, originals, False)
    by_hand = os.path.join(HERE, '..', 'templates')
    assert sorted(os.listdir(by_hand)) == ['cocos.each.plist.tera', 'cocos3.each.plist.tera', 'godot_texture.sprite.tres.tera',
                                           'love.lua.tera', 'unity.json.tera']
    out = os.path.join(room, 'own')
    for name, form, ending in (('cocos.each.plist.tera', 'cocos', '-0.plist'), ('cocos3.each.plist.tera', 'cocos3', '-0.plist'),
                               ('unity.json.tera', 'unity', '.json')):
        texts = []
        for words in (['--form', form], ['--template', os.path.join(by_hand, name)]):
            run(folder, out, '--size', '256', '256', '--pages', '9', *words)
            texts.append(read(out + ending))
        assert texts[0] == texts[1]
    run(folder, out, '--template', os.path.join(by_hand, 'love.lua.tera'))
    with open(out + '.lua', encoding='utf-8') as file:
        entries = re.findall(r'^  \[("(?:[^"\\]|\\.)*")\] = {\n    image = "own\.png", x = (\d+), y = (\d+), w = (\d+), h = (\d+),\n'
                             r'    left = (\d+), top = (\d+) },\n', file.read(), re.M)
    sheet = readers.opened(out, 'own.png')
    found = {}
    for name, *box in entries:
        x, y, wide, high, left, top = map(int, box)
        assert (left, top) == (0, 0)
        found[json.loads(name)] = sheet.crop((x, y, x + wide, y + high))
    icons.compare(found, originals, False)


def small_files(room):
    """A file for each sprite, as Godot's AtlasTexture, and for each animation, of all sheets."""
    folder, out = os.path.join(room, 'small'), os.path.join(room, 'small out', 'sheet')
    icons.fill(folder, count=40)
    for number in (1, 2, 3):
        icons.save(folder, 'hero/walk_%d.png' % number, Image.new('RGBA', (20 + number, 10), (number, 1, 2, 255)))
    os.mkdir(os.path.dirname(out))
    words = ['--trim', '--size', '128', '128', '--pages', '20', '--drop-extension']
    done = run(folder, out, *words, '--template', os.path.join(HERE, '..', 'templates', 'godot_texture.sprite.tres.tera'))
    originals = {name[:-4]: picture for name, picture in icons.originals(folder).items()}
    found = {}
    for name in originals:
        path = '%s-%s.tres' % (out, name.replace('/', '-'))
        parts = {kind: (heads, body) for kind, heads, body in readers.sections(read(path))}
        assert parts['gd_resource'][0] == {'type': 'AtlasTexture', 'load_steps': 2, 'format': 3}
        body, page = parts['resource'][1], parts['ext_resource'][0]
        x, y, wide, high = (int(value) for value in body['region'][1])
        left, top, wider, higher = (int(value) for value in body.get('margin', ('Rect2', [0, 0, 0, 0]))[1])
        assert body['atlas'] == ('ExtResource', [page['id']])
        part = readers.opened(path, page['path']).crop((x, y, x + wide, y + high))
        found[name] = readers.put(part, (wide + wider, high + higher), (left, top))
    icons.compare(found, originals, True)
    written = [name for name in os.listdir(os.path.dirname(out)) if name.endswith('.tres')]
    assert len(done.stdout.splitlines()) > 1 and len(written) == len(found), written
    template = os.path.join(room, 'own.animation.txt.tera')
    with open(template, 'w') as file:
        file.write('{{ animation.name }} {{ animation.loop }}{% for one in animation.frames %} {{ one.image }}:{{ one.name }}:'
                   '{{ one.source.width }}{% endfor %}')
    run(folder, out, *words, '--template', template)
    told = read(out + '-hero-walk.txt').split(' ')
    sheet = told[2].split(':')[0]
    assert told == ['hero/walk', 'true', *('%s:hero/walk_%d:%d' % (sheet, number, 20 + number) for number in (1, 2, 3))], told
    icons.save(folder, 'hero-walk_1.png', Image.new('RGBA', (9, 9)))
    template = os.path.join(HERE, '..', 'templates', 'godot_texture.sprite.tres.tera')
    told = run(folder, out, *words, '--template', template, status=2).stderr
    assert told == 'guillotiere-sheet: sheet-hero-walk_1.tres: two files would have this name\n', told


def pivots(room):
    """Unity's pivot is a part of what is kept, from below: that of an anchor, or the middle of the whole picture."""
    folder, out = os.path.join(room, 'pivots'), os.path.join(room, 'pivots sheet')
    picture = Image.new('RGBA', (20, 10))
    picture.paste((9, 9, 9, 255), (2, 1, 12, 9))
    icons.save(folder, 'a.png', picture)
    for words, pivot in (([], {'x': 0.8, 'y': 0.5}), (['--anchor', '0.1,0.9'], {'x': 0, 'y': 0}),
                         (['--anchor', '0.6,0.1'], {'x': 1, 'y': 1})):
        run(folder, out, '--form', 'unity', '--trim', *words)
        told, = readers.read_json(out + '.json')['textures'][0]['sprites']
        assert all(abs(told['pivot'][key] - pivot[key]) < 1e-9 for key in 'xy'), told
        assert (told['rect']['width'], told['rect']['height']) == (10, 8)


def trimmed(room):
    """A border of an alpha up to the threshold is left out, and nothing else."""
    folder = os.path.join(room, 'trimmed')
    square = Image.new('RGBA', (100, 100), (9, 9, 9, 1))
    square.paste((200, 9, 9, 3), (30, 40, 60, 70))
    square.paste((0, 0, 0, 0), (35, 45, 40, 50))
    icons.save(folder, 'a.png', square)
    inner = {side: Image.new('RGBA', (100, 100)) for side in (0, 1, 2, 3)}
    inner[0].paste(square)
    for most in (1, 2):
        inner[most].paste(square.crop((30, 40, 60, 70)), (30, 40))
    for most, kept in ((0, (0, 0, 100, 100)), (1, (30, 40, 30, 30)), (2, (30, 40, 30, 30)), (3, (0, 0, 1, 1))):
        for form in readers.READERS:
            out = os.path.join(room, 'trimmed %d %s' % (most, form))
            run(folder, out, '--trim', '--trim-threshold', str(most), '--form', form, '--bleed', '0')
            if most < 3:
                icons.compare(readers.read(form, out), {'a.png': inner[most]}, False)
            if form == 'json-hash':
                assert tuple(frames(out)['a.png']['spriteSourceSize'].values()) == kept
    run(folder, out, '--trim-threshold', '1', status=2)
    run(folder, out, '--trim', '--trim-threshold', '256', status=2)


def nine_patches(room):
    """The lines of a nine-patch are told and taken away, at each scale; it is neither trimmed nor turned."""
    folder = os.path.join(room, 'nine')
    inner = Image.new('RGBA', (20, 12), (200, 10, 10, 255))
    inner.paste((0, 0, 0, 0), (0, 0, 20, 2))
    whole = Image.new('RGBA', (22, 14))
    whole.paste(inner, (1, 1))
    for box in ((5, 0, 15, 1), (0, 3, 1, 11), (7, 13, 21, 14)):
        whole.paste((0, 0, 0, 255), box)
    icons.save(folder, 'button.9.png', whole)
    icons.save(folder, 'plain.png', Image.new('RGBA', (9, 9), (1, 2, 3, 255)))
    wanted = {'button.png': inner, 'plain.png': icons.originals(folder)['plain.png']}
    # Left, right, top and bottom: 4 pixels before the mark and 6 after it, and so on.
    split, pad = [4, 6, 2, 2], [6, 0, 2, 2]
    for name in readers.READERS:
        out = os.path.join(room, 'nine ' + name)
        told = run(folder, out, '--form', name, '--trim', '--scale', '1,0.5').stderr
        is_lost = name in ('godot', 'godot3', 'starling', 'cocos', 'cocos3')
        assert told == ('guillotiere-sheet: button.png: this form has no place for what a nine-patch tells\n' if is_lost else ''), told
        icons.compare(readers.read(name, out), wanted, True)
    assert readers.gdx_nines(os.path.join(room, 'nine libgdx-new.atlas')) == {'button.png': {'split': split, 'pad': pad}}
    out = os.path.join(room, 'nine libgdx')
    assert readers.gdx_nines(out + '.atlas') == {'button.png': {'split': split, 'pad': pad}}
    assert readers.gdx_nines(out + '@0.5x.atlas') == {'button.png': {'split': [2, 3, 1, 1], 'pad': [3, 0, 1, 1]}}
    button = frames(os.path.join(room, 'nine json-hash'))['button.png']
    assert button['borders'] == {'left': 4, 'right': 6, 'top': 2, 'bottom': 2}
    assert button['scale9Borders'] == {'x': 4, 'y': 2, 'w': 10, 'h': 8}
    told = run(folder, out, '--turn', status=2).stderr
    assert told.endswith("button.9.png: --turn can't be used with a nine-patch: engines don't turn it\n")
    icons.save(folder, 'bad.9.png', inner)
    told = run(folder, out, status=1).stderr
    assert told.endswith('bad.9.png: its lines have a pixel that is neither black nor transparent\n') and told.count('\n') == 1
    os.remove(os.path.join(folder, 'bad.9.png'))
    icons.save(folder, 'button.png', inner)
    assert 'have the same name' in run(folder, out, status=1).stderr


def all_tests(room):
    folder = os.path.join(room, 'icons')
    icons.fill(folder)
    test('walking', walking, room)
    test('nine-patches', nine_patches, room)
    test('trimmed', trimmed, room)
    test('filters', filters, folder, room)
    test('Godot 3', by_godot, folder, room)
    test('templates', templates, folder, room)
    test('small files', small_files, room)
    test('pivots', pivots, room)


main(all_tests)
