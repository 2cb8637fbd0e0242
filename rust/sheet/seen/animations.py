#!/usr/bin/env python3
"""Animations of guillotiere-sheet: their frames lie together, in natural order, in each form.

    rust/sheet/seen/animations.py PROGRAM

The last line is 'N passed, M failed'. It needs Pillow."""
import os
import plistlib
import re
import sys
import xml.etree.ElementTree

sys.dont_write_bytecode = True
import icons  # noqa: E402
import readers  # noqa: E402
from common import ROOT, frames, main, read, run, test, write  # noqa: E402
from PIL import Image  # noqa: E402


def draw(folder, names, side=lambda number: (20, 20)):
    """Pictures of which each has a colour of its own."""
    for number, name in enumerate(names):
        colour = (number % 251, 40 + number % 199, 1 + number // 251, 255)
        icons.save(folder, name, Image.new('RGBA', side(number), colour))
    return names


def listed(form, out):
    """The names of each sheet, in the order of the records."""
    ending = readers.READERS[form][1]
    path = out + ending if os.path.exists(out + ending) else out + '-0' + ending
    if form in ('json-hash', 'json-array'):
        parts = [readers.read_json(each)['frames'] for each in readers.numbered(path)]
        return [[each if form == 'json-hash' else each['filename'] for each in part] for part in parts]
    if form == 'phaser':
        return [[told['filename'] for told in part['frames']] for part in readers.read_json(path)['textures']]
    if form == 'starling':
        return [[told.get('name') for told in xml.etree.ElementTree.parse(each).getroot()] for each in readers.numbered(path)]
    if form in ('cocos', 'cocos3'):
        return [re.findall('<key>(.*\\.png)</key>', open(each).read()) for each in readers.numbered(path)
                if plistlib.load(open(each, 'rb'))]
    text = read(path)
    names = re.findall(r'^([^\s:]+)\n(?:  rotate.*\n(?:  .*\n)*?  index: (-?\d+)|(?:index: (\d+)\n)?bounds)', text, re.M)
    inside = [re.sub(r'\.png$', '_%s.png' % (old or new), name) if (old or new or '-1') != '-1' else name for name, old, new in names]
    return [inside]


def in_order(room):
    """Twelve frames that three sheets take, and pictures beside them, in each form: 1, 2 .. 12 over all sheets, also of several sizes."""
    for kind, side in (('equal', lambda number: (20, 20)), ('unequal', lambda number: (14 + 7 * number % 11, 15 + 5 * number % 9))):
        folder = os.path.join(room, 'in order ' + kind)
        walk = draw(folder, ['hero/walk_%d.png' % number for number in range(1, 13)], side)
        draw(folder, ['tools/%s.png' % letter for letter in 'abcdefghijklm'], lambda number: (9 + number, 20 - number))
        originals = icons.originals(folder)
        for form in readers.READERS:
            out = os.path.join(room, ' '.join(['order', kind, form]))
            done = run(folder, out, '--form', form, '--size', '50', '50', '--pages', '99')
            names = [name for sheet in listed(form, out) for name in sheet] if 'godot' not in form else walk
            assert len(done.stdout.splitlines()) > 2 and [name for name in names if name in walk] == walk, (form, names)
            line = "guillotiere-sheet: animation hero/walk is split: it doesn't fit on one sheet of 50x50"
            more = '; meta.animations of %s-0.json has its frames' % os.path.basename(out) if form in ('json-hash', 'json-array') else ''
            assert done.stderr == line + more + '\n', done.stderr
            if more:
                first, second = (readers.read_json('%s-%d.json' % (out, number)) for number in range(2))
                assert first['meta']['animations'] == {'hero/walk': walk} and 'animations' not in second['meta']
                assert 'animations' not in first
            if 'godot' in form:
                shown = readers.godot_animations(out + '.tres')['hero/walk'][1]
                icons.compare(dict(zip(walk, shown)), {name: originals[name] for name in walk}, False)
            elif 'gdx' not in form:
                icons.compare(readers.read(form, out), originals, False)


def in_order_elsewhere(room):
    """The same of the forms that have no reader here."""
    folder = os.path.join(room, 'elsewhere')
    walk = draw(folder, ['hero/walk_%d.png' % number for number in range(1, 13)])
    draw(folder, ['tools/%s.png' % letter for letter in 'abcdefghijklm'], lambda number: (9 + number, 20 - number))
    for form, pattern in (('unity', r'"name": "(hero/walk_\d+\.png)",\s+"rect"'), ('css', r'^\.elsewhere-css-hero-walk_(\d+)-png \{')):
        out = os.path.join(room, 'elsewhere ' + form)
        run(folder, out, '--form', form, '--size', '50', '50', '--pages', '99')
        text = read(out + ('.json' if form == 'unity' else '.css'))
        found = re.findall(pattern, text, re.M)
        assert (found if form == 'unity' else ['hero/walk_%s.png' % number for number in found]) == walk, (form, found, text[:3000])


def together(room):
    """Two animations of a folder that no sheet takes whole, and pictures of others: each lies on one sheet, with --group or without it."""
    folder = os.path.join(room, 'together')
    walk = draw(folder, ['hero/walk_%d.png' % number for number in range(1, 7)])
    steps = draw(folder, ['hero/run_%d.png' % number for number in range(1, 7)], lambda number: (20, 19))
    draw(folder, ['hero/%s.png' % letter for letter in 'abcdef'] + ['tools/%s.png' % letter for letter in 'abcdefgh'],
         lambda number: (20, 10 + number))
    for more in ([], ['--group'], ['--dense'], ['--turn', '--border', '0']):
        out = os.path.join(room, ' '.join(['kept', *more]))
        done = run(folder, out, '--size', '64', '64', '--pages', '99', *more)
        for names in (walk, steps):
            sheets = [number for number, sheet in enumerate(listed('json-hash', out)) if set(names) & set(sheet)]
            assert len(sheets) == 1, (more, names, sheets)
        told = ["guillotiere-sheet: folder hero is split: it doesn't fit on one sheet of 64x64"] if '--group' in more else []
        assert done.stderr.splitlines() == told, done.stderr
        data = [readers.read_json(each) for each in readers.numbered(out + '-0.json')]
        played = {name: list(names) for part in data for name, names in part.get('animations', {}).items()}
        assert played == {'hero/walk': walk, 'hero/run': steps}, played
        icons.compare(readers.read('json-hash', out), icons.originals(folder), False)


def common_frames(room):
    """Animations with frames in common: on one sheet each picture has one place, on several each animation has all its own."""
    folder = os.path.join(room, 'common')
    for name, own in (('walk', 90), ('turn', 91)):
        names = ['%s_%d.png' % (name, number) for number in range(6)]
        draw(folder, names[:5])
        icons.save(folder, names[5], Image.new('RGBA', (20, 20), (own, 1, 2, 255)))
    draw(folder, ['still.png'])
    for more, count, sheet_count in ((['--size', '64', '64'], 7, 1), (['--size', '43', '64'], 12, 2)):
        out = os.path.join(room, 'common %d' % count)
        run(folder, out, '--pages', '9', *more)
        sheets = listed('json-hash', out)
        boxes = {(number, *told['frame'].values()) for number in range(len(sheets)) for told in frames('%s-%d' % (out, number)).values()}
        assert (len(boxes), len(sheets)) == (count, sheet_count), (more, boxes)
        icons.compare(readers.read('json-hash', out), icons.originals(folder), False)


def as_on_the_page(room):
    """What docs/PACK.md tells of names that are near an animation, row by row."""
    table = re.search(r'^\| files \| line \|\n\|---\|---\|\n((?:\|.*\n)+)', read(os.path.join(ROOT, 'docs', 'PACK.md')), re.M).group(1)
    rows = [row.strip('| ').split(' | ') for row in table.splitlines()]
    assert len(rows) >= 6, rows
    for number, (files, told) in enumerate(rows):
        for names in files.split('; '):
            names = [name.strip('`') for name in names.split(', ')]
            folder, out = os.path.join(room, 'row %d %s' % (number, names[0])), os.path.join(room, 'out row %d' % number)
            draw(folder, names)
            lines = [] if told.startswith('none') else ['guillotiere-sheet: ' + re.match('`(.*?)`', told).group(1)]
            assert run(folder, out).stderr.splitlines() == lines, (names, lines)
            assert 'animations' not in readers.read_json(out + '.json'), names
    # Names that make one: what may stand before a number, one width of several numbers, and numbers without a name.
    for number, (names, name) in enumerate(((['hero/walk/01.png', 'hero/walk/02.png'], 'hero/walk'), (['walk1.png', 'walk2.png'], 'walk'),
                                            (['walk (1).png', 'walk (2).png'], 'walk'), (['a-0.png', 'a-1.png'], 'a'),
                                            (['a.1.png', 'a.2.png'], 'a'), (['a 1.png', 'a 2.png'], 'a'),
                                            (['w_%02d.png' % each for each in range(1, 12)], 'w'), (['1.png', '2.png'], 'whole'))):
        folder, out = os.path.join(room, 'names of one %d' % number), os.path.join(room, 'out of one %d' % number, 'whole')
        os.mkdir(os.path.dirname(out))
        draw(folder, names)
        assert run(folder, out).stderr == '' and readers.read_json(out + '.json')['animations'] == {name: names}, names


def timed(room):
    """Frames a second and looping of single animations, where the form has a place for them."""
    folder = os.path.join(room, 'timed')
    draw(folder, ['hero/die_1.png', 'hero/die_2.png', 'hero/walk_1.png', 'hero/walk_2.png', 'coin_1.png', 'coin_2.png', 'a.png'])

    def tell(text):
        write(os.path.join(folder, 'animations.txt'), text)
    tell('# how they are played\nhero/* 12.5\n\nhero/die 4 once\ncoin 20 loop\n')
    wanted = {'hero/walk': (12.5, True), 'hero/die': (4, False), 'coin': (20, True)}
    for form in [*readers.READERS, 'unity', 'css']:
        out = os.path.join(room, 'timed ' + form)
        told = run(folder, out, '--form', form, '--frame-rate', '7').stderr
        is_lost = form in ('libgdx', 'libgdx-new', 'starling', 'cocos', 'cocos3', 'css')
        assert told == ('guillotiere-sheet: this form has no place for what animations.txt tells\n' if is_lost else ''), (form, told)
        if form in ('json-hash', 'json-array'):
            data = readers.read_json(out + '.json')
            listed = data['frames'].items() if form == 'json-hash' else [(each['filename'], each) for each in data['frames']]
            times = {name: each.get('duration') for name, each in listed}
            assert (times['hero/walk_2.png'], times['hero/die_1.png'], times['coin_1.png'], times['a.png']) == (80, 250, 50, None)
            repeats = {tag['name']: tag.get('repeat') for tag in data['meta']['frameTags']}
            assert repeats == {'coin': None, 'hero/walk': None, 'hero/die': '1'}, repeats
        if form == 'unity':
            found = {each['name']: (each['frameRate'], each['loop']) for each in readers.read_json(out + '.json')['animations']}
            assert found == wanted, found
        if 'godot' in form:
            found = re.findall(r'"loop": (\w+),\n"name": &?"(.*)",\n"speed": (.*)\n', read(out + '.tres'))
            assert {name: (float(speed), loop == 'true') for loop, name, speed in found} == {**wanted, 'a.png': (7, True)}, found
    tell('run 5\n')
    assert run(folder, out).stderr.endswith('/animations.txt: line 1: no animation is like it\n')
    for text in ('coin', 'coin x', 'coin 0', 'coin 5 twice', 'co[in 5'):
        tell('\n' + text)
        told = run(folder, out, status=1).stderr
        assert told.endswith("animations.txt: line 2: it isn't PATTERN RATE, PATTERN RATE loop or PATTERN RATE once\n"), told


def all_tests(room):
    for each in (in_order, in_order_elsewhere, together, common_frames, as_on_the_page, timed):
        test('animations: ' + each.__name__, each, room)


main(all_tests)
