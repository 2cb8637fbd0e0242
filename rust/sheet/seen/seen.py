#!/usr/bin/env python3
"""Runs guillotiere-sheet over folders of icons, reads what it wrote as engines do, and compares each picture with its file.

    rust/sheet/seen/seen.py PROGRAM

The last line is 'N passed, M failed'. It needs Pillow; the test of CSS needs Chromium."""
import html
import json
import os
import random
import re
import shutil
import subprocess
import sys
import tempfile
import urllib.parse
import zlib

sys.dont_write_bytecode = True
from common import ROOT, frames, main, png, put, read, run, test, write  # noqa: E402
from PIL import Image  # noqa: E402

sys.path.append(os.path.join(ROOT, 'web'))
import browsers  # noqa: E402
import icons  # noqa: E402
import readers  # noqa: E402

THEMES = ['/usr/share/icons/Tango', '/usr/share/icons/Adwaita/24x24', '/usr/share/icons/Adwaita/48x48']
GAMMA = (b'gAMA', (45455).to_bytes(4, 'big'))
PRIMARIES = (b'cHRM', b''.join(number.to_bytes(4, 'big') for number in (31270, 32900, 64000, 33000, 30000, 60000, 15000, 6000)))


WAYS = {'plain': [], 'full': ['--trim', '--extrude', '2', '--turn', '--effort', '50'],
        'pages': ['--trim', '--size', '256', '256', '--pages', '9', '--turn', '--padding', '2'],
        'powers': ['--power-of-two', '--padding', '0']}


def form(name, way, folder, originals, room):
    out = os.path.join(room, '%s %s' % (name, way))
    words = [word for word in WAYS[way] if name not in ('godot', 'godot3') or word != '--turn']
    done = run(folder, out, '--form', name, *words)
    lines = done.stderr.splitlines()
    assert bool(lines) == ('--effort' in words)
    assert all(re.fullmatch(r'guillotiere-sheet: \S+ full: so far a sheet of \d+x\d+ takes all pictures', line) for line in lines), lines
    icons.compare(readers.read(name, out), originals, '--trim' in words)
    if way == 'pages':
        assert len(done.stdout.splitlines()) > 1
    if way == 'full' and name == 'json-hash':
        with open(out + '.json') as file:
            assert any(told['rotated'] for told in json.load(file)['frames'].values())


def equal_once(folder, room):
    """Equal pictures have one place, different ones lie apart by the padding."""
    out = os.path.join(room, 'once')
    run(folder, out, '--padding', '3')
    places = {}
    for name, told in frames(out).items():
        box = told['frame']
        places.setdefault((box['x'], box['y'], box['w'], box['h']), set()).add(name)
    assert {'icons/b025.png', 'again/icons/b025.png'} in places.values(), sorted(map(sorted, places.values()))[:9]
    assert sum(len(names) > 1 for names in places.values()) == 10
    boxes = sorted(places)
    for place, (x, y, wide, high) in enumerate(boxes):
        assert x >= 3 and y >= 3
        for left, top, wide_, high_ in boxes[place + 1:]:
            assert x + wide + 3 <= left or left + wide_ + 3 <= x or y + high + 3 <= top or top + high_ + 3 <= y


def extruded(folder, room):
    """Around each sprite lie its outermost pixels; around them nothing that belongs to another one."""
    out = os.path.join(room, 'extruded')
    run(folder, out, '--extrude', '2')
    sheet = readers.opened(out + '.json', 'extruded.png')
    for told in frames(out).values():
        x, y, wide, high = (told['frame'][key] for key in 'xywh')
        for row in range(-2, high + 2):
            for column in range(-2, wide + 2):
                inside = (x + min(max(column, 0), wide - 1), y + min(max(row, 0), high - 1))
                assert sheet.getpixel((x + column, y + row)) == sheet.getpixel(inside)


def sizes_told(done):
    """The sides of the sheets, as the program tells them."""
    return [tuple(map(int, re.search(r': (\d+)x(\d+), (?:1 sprite|\d+ sprites)$', line).groups())) for line in done.stdout.splitlines()]


def dense(folder, originals, room):
    """A smaller sheet than without it; of several sheets all but the last are as large as allowed, and there are no more of them."""
    for more in ([], ['--effort', '50'], ['--greatest', '200', '--pages', '99'], ['--greatest', '160', '--pages', '99', '--turn']):
        out = os.path.join(room, ' '.join(['dense', *more]))
        (*_, plain), (*full, last) = both = [sizes_told(run(folder, out, '--trim', *more, *words)) for words in ([], ['--dense'])]
        icons.compare(readers.read('json-hash', out), originals, True)
        greatest = int(more[1]) if '--greatest' in more else 4096
        assert full == [(greatest, greatest)] * len(full), full
        assert len(both[1]) < len(both[0]) or len(both[1]) == len(both[0]) and last[0] <= plain[0], both
        assert more or last[0] < plain[0], both


def grouped(folder, room):
    """Six folders of icons, of which one lies in another and two have an equal icon: each lies on one sheet, with an icon of its own.
    Those in no folder lie anywhere. In one sheet each different icon lies once."""
    to = os.path.join(room, 'grouped')
    for place, name in enumerate(sorted(icons.originals(folder))[:120]):
        with Image.open(os.path.join(folder, name)) as picture:
            for inside in ['%d/' % (place % 6)] if place % 6 else ['', '2/deeper/']:
                icons.save(to, '%s%02d.png' % (inside, place), picture.convert('RGBA'))
    shutil.copyfile(os.path.join(to, '1', '01.png'), os.path.join(to, '4', 'again.png'))
    originals = icons.originals(to)
    for more in ([], ['--dense'], ['--turn', '--trim', '--padding', '3'], ['--form', 'phaser']):
        for words, is_group in (([], False), (['--group'], True)):
            out = os.path.join(room, ' '.join(['grouped sheets', *more, *words]))
            done = run(to, out, '--size', '210', '210', '--pages', '20', '--no-animations', *more, *words)
            assert len(done.stdout.splitlines()) > 2, done.stdout
            form = 'phaser' if more[:1] == ['--form'] else 'json-hash'
            icons.compare(readers.read(form, out), originals, '--trim' in more)
            if form == 'json-hash':
                sheets = sheets_of_folders(out)
                assert all(len(each) == 1 for inside, each in sheets.items() if inside) == is_group, sheets
                assert len(sheets) == 7
                assert done.stderr == ''
    out = os.path.join(room, 'parted')
    for more, at in (([], ''), (['--scale', '0.9'], ' at scale 0.9')):
        done = run(to, out, '--size', '170', '170', '--pages', '20', '--group', '--no-animations', '--clean', *more)
        parted = [inside for inside, each in sorted(sheets_of_folders(out, at and '@0.9x').items()) if inside and len(each) > 1]
        line = "guillotiere-sheet: folder %s is split%s: it doesn't fit on one sheet of 170x170\n"
        assert parted and len(parted) < 6 and done.stderr == ''.join(line % (inside, at) for inside in parted), (parted, done.stderr)
    together = run(to, os.path.join(room, 'one sheet'), '--group')
    assert len(together.stdout.splitlines()) == 1
    whole = {tuple(told['frame'].values()) for told in frames(os.path.join(room, 'one sheet')).values()}
    assert len(whole) == len({picture.tobytes() + bytes(str(picture.size), 'ascii') for picture in originals.values()})


def sheets_of_folders(out, suffix=''):
    """The numbers of the sheets on which the sprites of each folder lie."""
    found, number = {}, 0
    while os.path.exists('%s-%d%s.json' % (out, number, suffix)):
        for name in frames('%s-%d%s' % (out, number, suffix)):
            found.setdefault(os.path.dirname(name), set()).add(number)
        number += 1
    return found


def bled(room):
    """A filter between pixels, with straight alpha, shows the colour of the sprite alone around it, whatever its file has there."""
    folder = os.path.join(room, 'bled')
    for number, hidden in enumerate([(0, 0, 0, 0), (255, 255, 255, 0)]):
        picture = Image.new('RGBA', (20, 20), hidden)
        picture.paste((200, 100 + number, 50, 255), (6, 7, 12, 15))
        picture.putpixel((8, 9), hidden)
        icons.save(folder, '%d.png' % number, picture)
    originals = icons.originals(folder)
    out = os.path.join(room, 'bled sheet')
    for more, far, padding in ((['--trim'], 1, 2), (['--trim', '--bleed', '3'], 3, 6), (['--bleed', '2'], 2, 1),
                               (['--trim', '--bleed', '0'], 0, 2), ([], 0, 1), (['--trim', '--turn', '--extrude', '1'], 1, 3)):
        run(folder, out, '--padding', str(padding), *more)
        icons.compare(readers.read('json-hash', out), originals, far > 0 or '--trim' in more)
        with Image.open(out + '.png') as sheet:
            for name, told in frames(out).items():
                around(sheet, told['frame'], originals[name], far, '--trim' in more)


def around(sheet, box, original, far, is_trimmed):
    """The pixels around the visible square of a sprite."""
    wide, high = (6, 8)
    x, y = (box['x'], box['y']) if is_trimmed else (box['x'] + 6, box['y'] + 7)
    if box['w'] != wide and is_trimmed:
        wide, high = high, wide
    colour = original.getpixel((6, 7))[:3]
    for step in range(1, far + 1):
        for place in ((x - step, y), (x + wide - 1 + step, y + high - 1), (x, y - step), (x + wide - 1, y + high - 1 + step)):
            assert sheet.getpixel(place)[:3] == colour, (place, sheet.getpixel(place))
    if far == 0 and is_trimmed:
        assert sheet.getpixel((x - 1, y)) == (0, 0, 0, 0)


def premultiplied(folder, originals, room):
    out = os.path.join(room, 'premultiplied')
    run(folder, out, '--premultiply', '--form', 'libgdx')
    assert 'pma' not in read(out + '.atlas')
    run(folder, out, '--premultiply', '--form', 'libgdx-new')
    for name, picture in readers.read('libgdx-new', out).items():
        given, got = (list(each.getdata()) for each in (originals[name], picture))
        wanted = [tuple((2 * colour * pixel[3] + 255) // 510 for colour in pixel[:3]) + (pixel[3],) for pixel in given]
        assert got == wanted, name
    assert '\npma: true\n' in read(out + '.atlas')


def scaled(folder, originals, room):
    """Half as large: a pixel is the mean of four, weighted by alpha; sides that are odd are rounded up."""
    out = os.path.join(room, 'scaled')
    run(folder, out, '--scale', '1,0.5', '--trim')
    icons.compare(readers.read('json-hash', out), originals, True)
    halves = readers.read('json-hash', out, '@0.5x')
    checked = 0
    for name, original in originals.items():
        wide, high = original.size
        assert halves[name].size == ((wide + 1) // 2, (high + 1) // 2)
        if wide % 2 == 0 and high % 2 == 0:
            checked += 1
            for x in range(0, wide, 2):
                for y in range(0, high, 2):
                    four = [original.getpixel((x + i, y + j)) for i in (0, 1) for j in (0, 1)]
                    alpha = sum(pixel[3] for pixel in four)
                    got = halves[name].getpixel((x // 2, y // 2))
                    assert got[3] == (2 * alpha + 4) // 8
                    for place in range(3) if got[3] else []:
                        assert got[place] == (2 * sum(p[place] * p[3] for p in four) + alpha) // (2 * alpha), name
    assert checked > 20
    with open(out + '@0.5x.json', encoding='utf-8') as file:
        assert json.load(file)['meta']['scale'] == '0.5'


def copied(folder, room):
    """Some 200 pictures of a theme, in a folder of their own."""
    copy = os.path.join(room, 'theme')
    shutil.rmtree(copy, ignore_errors=True)
    names = sorted(os.path.join(inside, name) for inside, _, names in os.walk(folder) for name in names if name.endswith('.png'))
    for name in names[::max(1, len(names) // 200)]:
        to = os.path.join(copy, os.path.relpath(name, folder))
        os.makedirs(os.path.dirname(to), exist_ok=True)
        shutil.copyfile(name, to)
    return copy


def as_srgb(value):
    """What a number of a picture with a gAMA of 0.45455 is in sRGB, up to 255."""
    light = (value / 255) ** (1 / 0.45455)
    return 255 * (12.92 * light if light <= 0.0031308 else 1.055 * light ** (1 / 2.4) - 0.055)


def theme(folder, room):
    """A real theme, in each form, trimmed. Some of its pictures may have gAMA and others none: the numbers stay."""
    copy = copied(folder, room)
    originals = icons.originals(copy)
    for name in readers.READERS:
        out = os.path.join(room, 'theme ' + name)
        assert run(copy, out, '--form', name, '--trim').stderr == ''
        icons.compare(readers.read(name, out), originals, True)


def others(room):
    """JPEG, WebP, 16 bits a sample, which are rounded, and transparent by a colour; files of other kinds and hidden ones are skipped."""
    folder = os.path.join(room, 'others')
    picture = Image.effect_mandelbrot((40, 30), (-2, -1, 1, 1), 50).convert('RGB')
    icons.save(folder, 'a.jpg', picture, quality=95, subsampling=0)
    with_alpha = picture.convert('RGBA')
    with_alpha.putalpha(picture.convert('L'))
    icons.save(folder, 'b.webp', with_alpha, lossless=True, exact=True)
    icons.save(folder, 'c.JPEG', picture.convert('L'), quality=95)
    put(folder, {'d.png': png(2, 1, 16, 6, [bytes([1, 255, 2, 0, 3, 7, 255, 255, 9, 9, 8, 8, 7, 7, 0, 1])])})
    put(folder, {'e.png': png(2, 1, 8, 2, [bytes([1, 2, 3, 4, 5, 6])], [(b'tRNS', bytes([0, 4, 0, 5, 0, 6]))])})
    put(folder, {'f.png': png(256, 256, 16, 0, [b''.join((256 * y + x).to_bytes(2, 'big') for x in range(256)) for y in range(256)])})
    put(folder, {'g.png': png(2, 1, 16, 0, [bytes([255, 255, 255, 254])], [(b'tRNS', bytes([255, 255]))])})
    for name in ('notes.txt', '.hidden.png', '.folder/broken.png'):
        os.makedirs(os.path.dirname(os.path.join(folder, name)), exist_ok=True)
        write(os.path.join(folder, name), 'no picture')
    out = os.path.join(room, 'others sheet')
    run(folder, out)
    found = readers.read('json-hash', out)
    assert sorted(found) == ['a.jpg', 'b.webp', 'c.JPEG', 'd.png', 'e.png', 'f.png', 'g.png']
    for name, most in (('a.jpg', 3), ('b.webp', 0), ('c.JPEG', 3)):
        with Image.open(os.path.join(folder, name)) as original:
            assert icons.difference(found[name], original.convert('RGBA')) <= most, name
    assert list(found['d.png'].getdata()) == [(2, 2, 3, 255), (9, 8, 7, 0)]
    nearest = [(2 * value * 255 + 65535) // (2 * 65535) for value in range(1 << 16)]
    assert list(found['f.png'].getchannel('G').getdata()) == nearest and found['f.png'].getextrema()[3] == (255, 255)
    assert list(found['g.png'].getdata()) == [(255, 255, 255, 0), (255, 255, 255, 255)]
    assert list(found['e.png'].getdata()) == [(1, 2, 3, 255), (4, 5, 6, 0)]
    run(folder, out, '--drop-extension', '--form', 'libgdx')
    assert sorted(readers.read('libgdx', out)) == ['a', 'b', 'c', 'd', 'e', 'f', 'g']


def colours(room):
    """Numbers stay, whatever the files say. Where it is asked for, chunks that all have stay too; else gAMA beside cHRM is applied, and
    each picture that it changes is named."""
    folder = os.path.join(room, 'colours')
    os.makedirs(folder)
    row = bytes(value for step in range(256) for value in (step, 255 - step, step, 255))

    def write(name, *more):
        with open(os.path.join(folder, name), 'wb') as file:
            file.write(png(256, 1, 8, 6, [row], more))
    out = os.path.join(room, 'colours sheet')
    profile = (b'iCCP', b'name\0\0' + zlib.compress(b'no profile'))
    for more in ([GAMMA], [GAMMA, PRIMARIES], [profile], [(b'sRGB', b'\2')]):
        write('a.png', *more)
        write('b.png', *more)
        kept(folder, os.path.join(room, 'kept sheet'), {'a.png': row, 'b.png': row})
        assert run(folder, out, '--manage-colours').stderr == ''
        sheet = icons.chunks(out + '.png')
        assert {name: sheet.get(name) for name in (b'gAMA', b'cHRM', b'iCCP', b'sRGB') if name in sheet} == dict(more)
        assert readers.read('json-hash', out)['a.png'].tobytes() == row
    write('b.png')
    for more, is_applied in (([PRIMARIES, GAMMA], True), ([GAMMA], False), ([profile], False)):
        write('a.png', *more)
        write('c.png', *more)
        told = run(folder, out, '--manage-colours').stderr.splitlines()
        end = 'gAMA is applied, so its numbers change: the sheet is sRGB' if is_applied else "aren't applied; the values are taken as sRGB"
        assert len(told) == 2 and all(line.endswith(end) for line in told), told
        assert [line.split(': ')[2] for line in told] == ['a.png', 'c.png'], told
        found = readers.read('json-hash', out)
        sheet = icons.chunks(out + '.png')
        assert not {b'gAMA', b'cHRM', b'iCCP'} & sheet.keys() and sheet[b'sRGB'] == b'\0'
        assert found['b.png'].tobytes() == row
        for value in range(256):
            assert abs(found['a.png'].getpixel((value, 0))[0] - (as_srgb(value) if is_applied else value)) <= 0.5001
        kept(folder, os.path.join(room, 'kept sheet'), {'a.png': row, 'b.png': row, 'c.png': row})


def kept(folder, out, rows):
    """The numbers stay in each form, the sheet has no chunk of colours, and nothing is told; --keep-numbers says the same."""
    for form in readers.READERS:
        for more in ([], ['--keep-numbers']):
            assert run(folder, out, '--form', form, *more).stderr == ''
            assert not {b'gAMA', b'cHRM', b'iCCP', b'sRGB'} & icons.chunks(out + '.png').keys()
            assert {name: picture.tobytes() for name, picture in readers.read(form, out).items()} == rows


def as_webp(folder, originals, room):
    """Sheets that are WebP have the same pixels as those that are PNG, colours of transparent ones too."""
    if shutil.which('cwebp') is None:
        print('skipped WebP: there is no cwebp')
        return
    for form in readers.READERS:
        out, plain = os.path.join(room, 'webp ' + form), os.path.join(room, 'png ' + form)
        more = ['--trim', '--size', '256', '256', '--pages', '9', '--form', form]
        if form in ('libgdx', 'libgdx-new', 'starling'):
            assert run(folder, out, '--image', 'webp', *more, status=2).stderr.endswith("its engine reads no WebP\n")
            continue
        for each in ([], ['--premultiply', '--compress'], ['--names', 'content']):
            run(folder, out, '--image', 'webp', *more, *each)
            run(folder, plain, *more, *each)
            if '--premultiply' not in each:
                icons.compare(readers.read(form, out), originals, True)
        sheets = [sorted(name for name in os.listdir(room) if name.startswith(os.path.basename(start) + '-') and name.endswith(ending))
                  for start, ending in ((out, '.webp'), (plain, '.png'))]
        # Those of the last run, and those of the runs before.
        assert len(sheets[0]) == len(sheets[1]) > 3, sheets
        for number in range(len(sheets[0]) // 2):
            pixels = []
            for path in (out + '-%d.webp' % number, plain + '-%d.png' % number):
                with Image.open(path) as sheet:
                    pixels.append(sheet.convert('RGBA').tobytes())
            assert pixels[0] == pixels[1], number
    out = os.path.join(room, 'webp', 'sheet')
    os.mkdir(os.path.dirname(out))
    run(folder, out + '.png')
    told = run(folder, out + '.webp', '--image', 'webp').stderr
    assert told.endswith("/sheet.png: it is of an earlier run and isn't written any more; --clean removes it\n"), told
    run(folder, out, '--image', 'webp', '--clean')
    before = sorted(os.listdir(os.path.dirname(out)))
    assert before == ['.sheet.json-hash.stamp', 'sheet.json', 'sheet.webp']
    run(folder, out, '--image', 'webp', '--check')
    assert 'up to 16383' in run(folder, out, '--image', 'webp', '--size', '16384', '300', status=1).stderr
    assert '--manage-colours' in run(folder, out, '--image', 'webp', '--manage-colours', status=2).stderr
    # A program that isn't there, that fails, that gives another picture, or none.
    for script, line in ((None, 'there is no command cwebp'), ('echo no room >&2; exit 3', 'cwebp failed: exit status: 3 no room'),
                         ("cat > /dev/null; cat '%s.webp'" % out, 'cwebp changed its pixels'),
                         ('cat > /dev/null', 'cwebp wrote not a PNG, ')):
        path = os.path.join(room, 'path %d' % len(line))
        os.mkdir(path)
        if script:
            write(os.path.join(path, 'cwebp'), '#!/bin/sh\nPATH=/usr/bin:/bin\n%s\n' % script)
            os.chmod(os.path.join(path, 'cwebp'), 0o755)
        told = run(folder, out, '--image', 'webp', '--padding', '9', status=1, env=dict(os.environ, PATH=path)).stderr
        assert told.startswith('guillotiere-sheet: sheet.webp: ' + line), told
        assert sorted(os.listdir(os.path.dirname(out))) == before


def screenshot(chromium, page, size, room, factor=1):
    shot = os.path.join(room, 'shot.png')
    with tempfile.TemporaryDirectory(ignore_cleanup_errors=True) as profile:
        words = ['--user-data-dir=' + profile, '--screenshot=' + shot, '--window-size=%d,%d' % size, '--hide-scrollbars',
                 '--force-device-scale-factor=%d' % factor, '--force-color-profile=srgb', 'file://' + page]
        subprocess.run([chromium] + browsers.CHROMIUM + words, stdout=subprocess.DEVNULL, stderr=subprocess.DEVNULL,
                       env=dict(os.environ, HOME=profile), timeout=200, check=True)
    with Image.open(shot) as picture:
        return picture.convert('RGB')


def css(chromium, folder, way, room, most=0, more=()):
    """A screenshot of the page beside one of the pictures themselves in the same lines."""
    out = os.path.join(room, 'css' + way)
    run(folder, out, '--form', 'css', '--page', *WAYS[way], *more)
    text = read(out + '.html')
    names = sorted(icons.originals(folder))
    assert text.count('<i ') == len(names)
    shown = page_of_pictures(folder, text)
    write(os.path.join(room, 'pictures.html'), shown)
    size = (800, 1400)
    sheet, pictures = (screenshot(chromium, os.path.join(room, page), size, room) for page in ('css%s.html' % way, 'pictures.html'))
    assert len(set(pictures.getdata())) > 100
    assert icons.difference(sheet, pictures) <= most, icons.difference(sheet, pictures)


def retina(chromium, room):
    """Of two scales the smaller one is that of the page, and a screen with twice as many pixels shows the larger one, by the same
    classes."""
    folder, half, both = (os.path.join(room, 'retina' + name) for name in ('', ' half', ' both'))
    for number in range(60):
        side = 16 + number % 9 * 2
        picture = icons.one(random.Random(number), number).resize((side, side + 2))
        icons.save(folder, 'icon %d%s.png' % (number, 'ab'[number % 2]), picture)
    for way in ('plain', 'full', 'pages'):
        for out, scale in ((half, '0.5'), (both, '1,0.5')):
            more = ['--power-of-two'] if '--turn' in WAYS[way] and way == 'full' else []
            words = [word for word in WAYS[way] if more or word != '--turn']
            run(folder, out, '--form', 'css', '--page', '--scale', scale, '--no-animations', *words, *more)
        assert not os.path.exists(both + '@0.5x.css')
        text = read(both + '.html')
        shown = re.sub(r'<i class="[^"]*" title="([^"]*)"></i>', lambda match: '<img style="margin: 3px; width: %gpx" src="file://%s">' % (
            Image.open(os.path.join(folder, match.group(1))).width / 2, urllib.parse.quote(os.path.join(folder, match.group(1)))), text)
        write(os.path.join(room, 'retina pictures.html'), shown)
        by_hand = os.path.join(room, 'retina pictures.html')
        for factor, pages in ((1, (half + '@0.5x.html', both + '.html')), (2, (by_hand, both + '.html'))):
            shots = [screenshot(chromium, page, (500, 400), room, factor) for page in pages]
            assert shots[0].size == (500 * factor, 400 * factor) and len(set(shots[0].getdata())) > 100
            assert icons.difference(*shots) == 0, (way, factor, icons.difference(*shots))


def page_of_pictures(folder, text):
    """The page with the pictures in the place of the elements that show sprites."""
    def picture(match):
        path = os.path.join(folder, html.unescape(match.group(1)))
        return '<img style="margin: 3px" src="file://%s">' % urllib.parse.quote(path)
    return re.sub(r'<i class="[^"]*" title="([^"]*)"></i>', picture, text)


def all_tests(room):
    folder = os.path.join(room, 'icons')
    icons.fill(folder)
    originals = icons.originals(folder)
    for name in readers.READERS:
        for way in WAYS:
            test('%s, %s' % (name, way), form, name, way, folder, originals, room)
    test('equal pictures', equal_once, folder, room)
    test('extruded', extruded, folder, room)
    test('dense', dense, folder, originals, room)
    test('grouped', grouped, folder, room)
    test('bled', bled, room)
    test('premultiplied', premultiplied, folder, originals, room)
    test('scaled', scaled, folder, originals, room)
    test('other kinds', others, room)
    test('colours', colours, room)
    test('WebP', as_webp, folder, originals, room)
    for place in THEMES:
        if os.path.isdir(place):
            test(place, theme, place, room)
        else:
            print('skipped %s: it is not there' % place)
    chromium = browsers.browsers()['chromium']
    if chromium is None:
        print('skipped the classes of CSS: there is no chromium')
        return
    test('css, retina', retina, chromium, room)
    for way in ('plain', 'full', 'pages'):
        test('css, ' + way, css, chromium, folder, way, room)
    # Where gAMA is applied the browser rounds once, and the sheet as well. Browsers apply it beside cHRM alone.
    for name, more in (('gAMA', [GAMMA]), ('gAMA and cHRM', [GAMMA, PRIMARIES])):
        test('css, ' + name, css, chromium, mixed(folder, more, room), 'plain', room, 1, ['--manage-colours'])
    if os.path.isdir(THEMES[0]):
        test('css, ' + THEMES[0], css, chromium, copied(THEMES[0], room), 'full', room, 1, ['--manage-colours'])


def mixed(folder, more, room):
    """Forty icons, each second one with these chunks."""
    to = os.path.join(room, 'mixed')
    os.makedirs(to, exist_ok=True)
    for place, name in enumerate(sorted(icons.originals(folder))[:40]):
        with Image.open(os.path.join(folder, name)) as picture:
            rgba = picture.convert('RGBA')
        rows = [rgba.crop((0, y, rgba.width, y + 1)).tobytes() for y in range(rgba.height)]
        with open(os.path.join(to, '%d.png' % place), 'wb') as file:
            file.write(png(rgba.width, rgba.height, 8, 6, rows, more if place % 2 else []))
    return to


main(all_tests)
