#!/usr/bin/env python3
"""Gives guillotiere-sheet what a folder of a stranger may have: broken and huge pictures, all kinds of picture that are read, names, links
and pipes, and files with random bytes changed. Each gets its sprite, its line, or its status, soon and in little memory.

    rust/sheet/seen/hostile.py PROGRAM

The last line is 'N passed, M failed'. It needs Pillow."""
import json
import os
import random
import re
import resource
import struct
import sys
import tempfile
import time
import zlib

sys.dont_write_bytecode = True
import icons  # noqa: E402
import readers  # noqa: E402
from common import SUITE, chunk, ended, png, put  # noqa: E402
from PIL import Image, ImageChops, ImageStat, features  # noqa: E402

GIGA = 1 << 30


def test(what, check, *words):
    with tempfile.TemporaryDirectory() as room:
        SUITE.run(what, check, room, *words)


def run(*words, most=4 * GIGA, seconds=60):
    """Runs it in so much address space; a signal, as that of a lack of memory, is no answer."""
    begun = time.time()
    done = ended(words, timeout=seconds, preexec_fn=lambda: resource.setrlimit(resource.RLIMIT_AS, (most, most)))
    assert done.returncode >= 0, (words, done.returncode, done.stderr)
    done.lines = [line.split('guillotiere-sheet: ', 1)[1] for line in done.stderr.splitlines()]
    done.seconds = time.time() - begun
    return done


def colours(number, side=8):
    return Image.new('RGBA', (side, side), (number, 99, 7, 255))


# An 8x8 picture in grey, of 8 bits, by hand.
ROWS = [bytes(range(8 * y, 8 * y + 8)) for y in range(8)]
WHOLE = png(8, 8, 8, 0, ROWS)


def with_lines(lines, more=(), sides=(8, 8), depth=8, kind=0):
    data = png(*sides, depth, kind, [], more)
    head, tail = data[:data.index(b'IDAT') - 4], data[-12:]
    return head + chunk(b'IDAT', lines) + tail


def bomb(name, before):
    """A chunk of 300 MB of zeros, packed."""
    packer = zlib.compressobj(9)
    packed = b''.join(packer.compress(bytes(1 << 20)) for _ in range(300)) + packer.flush()
    return (name, before + packed)


BROKEN = [
    # What, the bytes of the file, a pattern of its line.
    ('empty', b'', 'not a PNG'), ('text', b'hello, world\n', 'not a PNG'), ('half of the signature', WHOLE[:5], 'not a PNG'),
    ('signature alone', WHOLE[:8], 'damaged'), ('cut in the head', WHOLE[:20], 'damaged'), ('cut in the pixels', WHOLE[:60], 'damaged'),
    ('a wrong checksum', WHOLE[:45] + bytes([WHOLE[45] ^ 255]) + WHOLE[46:], 'damaged'),
    ('a wrong Adler', with_lines(zlib.compress(bytes(72))[:-1] + b'\0'), 'damaged'),
    ('no pixels', WHOLE[:33] + WHOLE[-12:], 'damaged'), ('a filter of no kind', with_lines(zlib.compress(b'\7' + bytes(71))), 'damaged'),
    ('too few lines', with_lines(zlib.compress(bytes(20))), 'damaged'), ('0 wide', with_lines(b'', sides=(0, 8)), '.'),
    ('0 high', with_lines(b'', sides=(8, 0)), '.'), ('2^31 wide', with_lines(b'', sides=(2 ** 31, 8)), '.'),
    ('2^32 - 1 wide', with_lines(b'', sides=(2 ** 32 - 1, 8)), '.'),
    ('both sides 2^31 - 1', with_lines(b'', sides=(2 ** 31 - 1,) * 2), 'it is too large'),
    ('no palette', png(8, 1, 8, 3, [bytes(8)]), '.'), ('a kind of no picture', png(8, 1, 8, 5, [bytes(8)]), '.'),
    ('a depth of no kind', png(8, 1, 7, 0, [bytes(8)]), '.'),
    ('30000x30000, RGBA', with_lines(zlib.compress(b''), sides=(30000, 30000), kind=6), 'it is too large'),
    ('30000x30000, a bit', with_lines(zlib.compress(bytes(3751) * 30000), sides=(30000, 30000), depth=1), 'it is too large'),
    ('GIF without pictures', b'GIF89a\1\0\1\0\0\0\0;', '.'), ('BMP of nothing', b'BM' + bytes(60), '.'),
    ('TIFF of nothing', b'II\x2a\0' + bytes(60), '.'),
    ('WebP of nothing', b'RIFF\4\0\0\0WEBP', '.'),
]


def broken(room, data, pattern):
    put(room + '/in', {'a.png': data})
    icons.save(room + '/in', 'b.png', colours(1))
    done = run(room + '/in', room + '/sheet', most=GIGA)
    assert done.returncode in (1, 3) and len(done.lines) == 1, (done.returncode, done.lines)
    assert re.search(r'a\.png: .*' + pattern, done.lines[0]) and done.seconds < 9, (done.lines, done.seconds)
    assert os.listdir(room) == ['in']


def huge(room, sides, count, status, more):
    """Nothing is read of what no sheet takes, or all sheets don't."""
    data = with_lines(zlib.compress(bytes((sides[0] + 7) // 8 + 1) * sides[1]), sides=sides, depth=1)
    for number in range(count):
        put(room + '/in', {'%d.png' % number: data})
    icons.save(room + '/in', 'small.png', colours(1))
    done = run(room + '/in', room + '/sheet', *more, most=GIGA)
    assert done.returncode == status and done.seconds < 5, (done.returncode, done.lines, done.seconds)
    return done


def left_out(room):
    """A picture that fits no sheet is left out where that is asked for, though it is never read, and at a scale where it fits it isn't."""
    for more in ([], ['--trim']):
        put(room + '/in', {'3.png': with_lines(zlib.compress(bytes(3751) * 30000), sides=(30000, 30000), depth=1)})
        done = huge(room, (20000, 20000) if not more else (3, 3), 3, 4, ['--leave-out', *more])
        assert done.lines == ['left out of sheet: %d.png' % number for number in range(3 if more else 0, 4)]
    done = huge(room, (20000, 20000), 3, 4, ['--leave-out'])
    assert done.lines == ['left out of sheet: %d.png' % number for number in range(4)]
    os.remove(room + '/in/3.png')
    assert list(readers.read('json-hash', room + '/sheet')) == ['small.png']
    icons.save(room + '/in', '0.png', Image.new('RGBA', (100, 10)))
    os.remove(room + '/in/1.png')
    os.remove(room + '/in/2.png')
    done = run(room + '/in', room + '/sheet', '--leave-out', '--greatest', '64', '--scale', '1,0.5')
    assert done.returncode == 4 and done.lines == ['left out of sheet: 0.png']
    assert sorted(readers.read('json-hash', room + '/sheet', '@0.5x')) == ['0.png', 'small.png']
    done = run(room + '/in', room + '/sheet', '--leave-out', '--greatest', '64', '--trim')
    assert done.returncode == 0 and sorted(readers.read('json-hash', room + '/sheet')) == ['0.png', 'small.png']


def short_of_memory(room):
    """With any little memory that the system gives it is written or told, and nothing is left."""
    for number in range(8):
        icons.save(room + '/in', '%d.png' % number, Image.new('L', (1500, 1500), number))
    statuses = set()
    for most in (40, 60, 80, 100, 120, 150, 200, 300, 400):
        done = run(room + '/in', room + '/sheet', '--greatest', '16384', most=most << 20, seconds=300)
        is_told = done.lines and all('there is no memory for' in line for line in done.lines)
        assert done.returncode == 0 or done.returncode in (1, 3) and is_told, (most, done.returncode, done.lines)
        assert os.listdir(room) == ['in'] or done.returncode == 0, os.listdir(room)
        statuses.add(done.returncode)
    assert statuses - {0}, statuses
    # A great picture in a small file: one that no picture may be as great as, and one that could be read where there is memory. It is
    # alone, since others that are read at once may be the first to have none.
    for side, line in ((30000, 'it is too large'), (15000, 'there is no memory for it')):
        put(room + '/great', {'0.png': with_lines(zlib.compress(bytes((side + 7) // 8 + 1) * side), sides=(side, side), depth=1)})
        done = run(room + '/great', room + '/sheet', '--greatest', '65536', '--memory', '16G', most=200 << 20)
        assert done.returncode == 1 and any('0.png: ' + line in told for told in done.lines), (side, done.returncode, done.lines)


SIDE = 15000
TWO = struct.pack('<HH', SIDE, SIDE)
# The ending, how Pillow saves it, what stands before its two sides, and sides of 15000.
HEADS = [('jpg', {}, b'\xff\xc0\0\x11\x08', struct.pack('>HH', SIDE, SIDE)),
         ('jpg', {'progressive': True}, b'\xff\xc2\0\x11\x08', struct.pack('>HH', SIDE, SIDE)), ('webp', {}, b'\x9d\x01\x2a', TWO),
         ('webp', {'lossless': True}, b'\x2f', struct.pack('<I', (SIDE - 1) | (SIDE - 1) << 14)), ('gif', {}, b'GIF87a', TWO),
         ('bmp', {}, b'\x28\0\0\0', struct.pack('<ii', SIDE, SIDE)), ('tga', {}, None, TWO), ('tga', {'rle': True}, None, TWO)]


def great_heads(room):
    """Heads that tell of many pixels, for which decoders take memory before they look at the rest."""
    picture = Image.effect_mandelbrot((32, 32), (-2, -1, 1, 1), 50).convert('RGB')
    for number, (ending, more, mark, sides) in enumerate(HEADS):
        folder, name = '%s/%d' % (room, number), 'a.' + ending
        icons.save(folder, name, picture, **more)
        with open(folder + '/' + name, 'rb') as file:
            data = bytearray(file.read())
        place = data.index(mark) + len(mark) if mark else 12
        data[place:place + len(sides)] = sides
        put(folder, {name: bytes(data)})
        done = run(folder, room + '/sheet', '--greatest', '65536', '--memory', '16G', most=200 << 20)
        assert done.returncode in (1, 3) and 'memory' in done.lines[0], (ending, more, done.returncode, done.lines)
        done = run(folder, room + '/sheet', '--trim', '--memory', '100M', '--greatest', '65536')
        assert done.returncode == 3 and 'the pictures take 858.3M' in done.lines[0], (ending, more, done.returncode, done.lines)
        assert not [name for name in os.listdir(room) if 'sheet' in name]


def larger_within(room):
    """A WebP whose head tells of 32x32 pixels, and its picture of more."""
    picture = Image.effect_mandelbrot((32, 32), (-2, -1, 1, 1), 50).convert('RGBA')
    picture.putalpha(77)
    icons.save(room + '/in', 'a.webp', picture)
    with open(room + '/in/a.webp', 'rb') as file:
        data = bytearray(file.read())
    place = data.index(b'\x9d\x01\x2a') + 3
    data[place:place + 4] = TWO
    put(room + '/in', {'a.webp': bytes(data)})
    done = run(room + '/in', room + '/sheet', most=200 << 20)
    assert done.returncode == 1 and 'larger than it says' in done.lines[0] and done.seconds < 5, (done.returncode, done.lines)


def ignored(room):
    """Chunks that would unpack to much more aren't unpacked for the pixels."""
    for number, (name, before) in enumerate(((b'zTXt', b'Comment\0\0'), (b'iCCP', b'name\0\0'))):
        put(room + '/in', {'%d.png' % number: png(8, 8, 8, 0, ROWS, [bomb(name, before)])})
    done = run(room + '/in', room + '/sheet', most=GIGA)
    assert done.returncode in (0, 1) and len(done.lines) <= 1, done.lines


def beyond(room):
    """A pixel whose colour the palette doesn't have is opaque and black, as elsewhere; the others are as they are."""
    put(room + '/in', {'a.png': png(4, 1, 8, 3, [bytes([0, 1, 2, 255])], [(b'PLTE', bytes([1, 2, 3, 4, 5, 6]))])})
    assert run(room + '/in', room + '/sheet').returncode == 0
    found = readers.read('json-hash', room + '/sheet')['a.png']
    assert list(found.getdata()) == [(1, 2, 3, 255), (4, 5, 6, 255), (0, 0, 0, 255), (0, 0, 0, 255)], list(found.getdata())


def kinds(room):
    """Each kind that Pillow writes and we read, against what Pillow reads."""
    picture = Image.effect_mandelbrot((41, 23), (-2, -1, 1, 1), 50).convert('RGB')
    alpha = picture.convert('RGBA')
    alpha.putalpha(picture.convert('L'))
    folder = room + '/in'
    for mode in ('1', 'L', 'LA', 'P', 'RGB', 'RGBA'):
        icons.save(folder, mode + '.png', (alpha if 'A' in mode else picture).convert(mode))
    for bits in (1, 2, 4):
        icons.save(folder, 'palette %d.png' % bits, picture.convert('P', palette=Image.ADAPTIVE, colors=1 << bits), bits=bits)
    icons.save(folder, 'see-through.png', picture.convert('P', palette=Image.ADAPTIVE), transparency=3)
    icons.save(folder, 'interlaced.gif', picture.convert('P', palette=Image.ADAPTIVE), interlace=1)
    icons.save(folder, 'moving.png', alpha, save_all=True, append_images=[alpha.rotate(90)])
    put(folder, {'interlaced.png': interlaced(picture)})
    icons.save(folder, 'a GIF.png', picture.convert('P', palette=Image.ADAPTIVE), format='gif')
    for ending, more in (('gif', {}), ('bmp', {}), ('tga', {}), ('tif', {}), ('tiff', {'compression': 'tiff_lzw'}), ('TGA', {'rle': True})):
        icons.save(folder, 'as.' + ending, picture if ending != 'gif' else picture.convert('P', palette=Image.ADAPTIVE), **more)
    icons.save(folder, 'alpha.tga', alpha)
    icons.save(folder, 'alpha.tif', alpha)
    frames = [each.convert('RGB').convert('P', palette=Image.ADAPTIVE) for each in (alpha, alpha.rotate(180))]
    icons.save(folder, 'moving.gif', frames[0], save_all=True, append_images=frames[1:])
    put(folder, {'top first.bmp': top_first(picture)})
    done = run(folder, room + '/sheet', '--no-animations')
    assert done.returncode == 0 and done.lines == ['moving.gif and 1 more: only the first frame is taken'], done.lines
    found, wanted = readers.read('json-hash', room + '/sheet'), icons.originals(folder)
    assert found.keys() == wanted.keys()
    for name in wanted:
        assert ImageChops.difference(found[name], wanted[name]).getbbox() is None, name


def interlaced(picture):
    """A PNG whose pixels come in the seven passes of Adam7."""
    lines = b''
    for left, top, right, down in ((0, 0, 8, 8), (4, 0, 8, 8), (0, 4, 4, 8), (2, 0, 4, 4), (0, 2, 2, 4), (1, 0, 2, 2), (0, 1, 1, 2)):
        for y in range(top, picture.height, down):
            row = [picture.getpixel((x, y)) for x in range(left, picture.width, right)]
            lines += b'\0' + b''.join(map(bytes, row)) if row else b''
    head = chunk(b'IHDR', struct.pack('>IIBBBBB', *picture.size, 8, 2, 0, 0, 1))
    return b'\x89PNG\r\n\x1a\n' + head + chunk(b'IDAT', zlib.compress(lines)) + chunk(b'IEND', b'')


def top_first(picture):
    """A BMP whose first line is the upper one: its height is below 0."""
    wide, high = picture.size
    lines = b''.join(picture.crop((0, y, wide, y + 1)).tobytes('raw', 'BGR').ljust((3 * wide + 3) // 4 * 4, b'\0') for y in range(high))
    head = (40).to_bytes(4, 'little') + wide.to_bytes(4, 'little') + (-high).to_bytes(4, 'little', signed=True) + b'\1\0\x18\0' + bytes(24)
    return b'BM' + (54 + len(lines)).to_bytes(4, 'little') + bytes(4) + (54).to_bytes(4, 'little') + head + lines


def photographs(room):
    """JPEG of each kind; Exif turns no picture."""
    picture = Image.effect_mandelbrot((41, 23), (-2, -1, 1, 1), 50).convert('RGB')
    folder = room + '/in'
    icons.save(folder, 'plain.jpg', picture, quality=95)
    icons.save(folder, 'progressive.jpg', picture, quality=95, progressive=True)
    icons.save(folder, 'four.jpg', picture.convert('CMYK'), quality=95)
    exif = Image.Exif()
    exif[0x112] = 6
    icons.save(folder, 'turned.jpg', picture, quality=95, exif=exif)
    assert run(folder, room + '/sheet').returncode == 0
    found = readers.read('json-hash', room + '/sheet')
    for name, wanted in icons.originals(folder).items():
        assert max(most for _, most in ImageChops.difference(found[name], wanted).getextrema()) <= 9, name


def moving(room):
    """The first frame of a WebP, lossless and lossy, with alpha and without; smaller frames lie in the whole picture."""
    frames = [Image.effect_mandelbrot((40, 24), (-2, -1, 1, 1), 50).convert('RGBA'), Image.new('RGBA', (40, 24), (200, 30, 30, 99))]
    dot = Image.new('RGBA', (40, 24))
    dot.paste((9, 200, 9, 255), (10, 8, 20, 16))
    half = frames[0].copy()
    half.putalpha(frames[0].convert('L'))
    folder = room + '/in'
    for name, first, more in (('whole', frames[0], {}), ('half', half, {}), ('dot', dot, {})):
        icons.save(folder, name + '.webp', first, save_all=True, append_images=frames[1:], lossless=True, exact=True, **more)
        icons.save(folder, name + ' lossy.webp', first, save_all=True, append_images=frames[1:], quality=95, exact=True, **more)
    done = run(folder, room + '/sheet')
    assert done.returncode == 0 and done.lines == ['dot lossy.webp and 5 more: only the first frame is taken'], done.lines
    found = readers.read('json-hash', room + '/sheet')
    for name, wanted in icons.originals(folder).items():
        assert found[name].size == wanted.size
        pair = [Image.composite(each, Image.new('RGBA', each.size), each.getchannel('A').point(lambda alpha: 255 if alpha else 0))
                for each in (found[name], wanted)]
        apart_by = ImageChops.difference(*pair)
        # Chroma is stored for four pixels at once; libwebp smooths it, and we don't.
        assert max(ImageStat.Stat(apart_by).mean) < 4 if 'lossy' in name else apart_by.getbbox() is None, name


def links(room):
    """What isn't a picture's file is named and left out: pipes, links to the folder of the sheets and above, pictures of other kinds."""
    folder = room + '/in'
    icons.save(folder, 'a.png', colours(1))
    icons.save(folder, 'deep/b.png', colours(2))
    os.mkdir(room + '/out')
    os.symlink('../out', folder + '/sheets')
    os.symlink('..', folder + '/deep/up')
    os.symlink('deep/b.png', folder + '/c.png')
    os.symlink('nowhere', folder + '/notes.txt')
    os.mkfifo(folder + '/f.png')
    put(folder, {'x.svg': b'<svg/>'})
    put(folder, {'x.psd': b'8BPS'})
    put(folder, {'x.txt': b''})
    for _ in range(2):
        done = run(folder, room + '/out/sheet')
        told = [(os.path.relpath(line.split(': ')[0], folder), line.split(': ')[1]) for line in done.lines]
        assert done.returncode == 0 and told == [
            ('deep/up', 'it leads to a folder that it lies in; left out'), ('f.png', "it isn't a file; left out"),
            ('sheets', 'it leads to the folder of the sheets; left out'), ('x.psd', "pictures of this kind aren't read; left out"),
            ('x.svg', "pictures of this kind aren't read; left out")], done.lines
        assert sorted(readers.read('json-hash', room + '/out/sheet')) == ['a.png', 'c.png', 'deep/b.png']


def dropped(room):
    """A line for all files of which only the first frame is taken, and one for all that Exif would turn; none for others."""
    folder, frames = room + '/in', [colours(number) for number in range(3)]
    moving = [('gif', {}), ('png', {}), ('tif', {})] + [('webp', {'lossless': True})] * features.check('webp_anim')
    for ending, more in moving:
        for count in (1, 3):
            each = [frame.convert('P') for frame in frames] if ending == 'gif' else frames
            icons.save(folder, '%s %d.%s' % (ending, count, ending), each[0], save_all=True, append_images=each[1:count], **more)
    for orientation in (1, 6):
        exif = Image.Exif()
        exif[0x112] = orientation
        for ending in ('jpg', 'png', 'webp', 'tif'):
            tags = {'tiffinfo': {0x112: orientation}} if ending == 'tif' else {'exif': exif}
            icons.save(folder, 'turned %d.%s' % (orientation, ending), colours(9).convert('RGB'), **tags)
    for _ in range(2):
        done = run(folder, room + '/sheet', '--no-animations')
        assert done.returncode == 0 and done.lines == [
            'gif 3.gif and %d more: only the first frame is taken' % (len(moving) - 1),
            "turned 6.jpg and 3 more: how Exif turns them isn't applied"], done.lines
    for name in os.listdir(folder):
        if '3' in name and name != 'gif 3.gif' or '6' in name and name != 'turned 6.jpg':
            os.remove(folder + '/' + name)
    done = run(folder, room + '/sheet', '--no-animations')
    assert done.lines == ['gif 3.gif: only the first frame is taken', "turned 6.jpg: how Exif turns it isn't applied"], done.lines


def kinds_told(room):
    """A line for each kind of picture that isn't read, with its count; and for an --exclude that is like nothing."""
    icons.save(room + '/in', 'a.png', colours(1))
    put(room + '/in', {**{'%d/%d.svg' % (number % 3, number): b'<svg/>' for number in range(40)}, 'B.SVG': b'', 'x.psd': b''})
    words = ['--exclude', '0/3.svg', '--exclude', 'nosuch*', '--exclude', 'none/*']
    for more in ([], ['--check']):
        done = run(room + '/in', room + '/sheet', *words, *more)
        assert done.returncode == 0 and done.lines == [
            "%s/in/0/0.svg and 39 more .svg: pictures of this kind aren't read; left out" % room,
            "%s/in/x.psd: pictures of this kind aren't read; left out" % room,
            '--exclude nosuch*: nothing is like it', '--exclude none/*: nothing is like it'], done.lines


def heads(room):
    """With --trim too, a picture that can't be transparent and fits no sheet is named before one is decoded."""
    put(room + '/in', {'bad.png': WHOLE[:60]})
    wide = Image.new('RGB', (100, 20))
    for name, picture in (('a.jpg', wide), ('b.png', wide), ('c.png', wide.convert('L')), ('d.png', wide.convert('P'))):
        icons.save(room + '/in', name, picture)
    put(room + '/in', {'e.png': png(100, 20, 8, 2, [bytes(300)] * 20, [(b'tRNS', bytes(6))])})
    icons.save(room + '/in', 'f.png', Image.new('RGBA', (100, 20)))
    done = run(room + '/in', room + '/sheet', '--trim', '--size', '64', '64')
    line = "%s: 100x20 with padding 1 doesn't fit a sheet of 64x64; a larger sheet, --leave-out or --exclude would do"
    assert done.returncode == 3 and done.lines == [line % name for name in ('a.jpg', 'b.png', 'c.png', 'd.png')], done.lines
    done = run(room + '/in', room + '/sheet', '--trim', '--size', '100', '100')
    line = line.replace('64x64', '100x100').replace('sheet, --l', 'sheet, --border 0, --l')
    assert done.returncode == 3 and done.lines == [line % name for name in ('a.jpg', 'b.png', 'c.png', 'd.png')], done.lines


def excluded(room):
    """By the name of a file or a folder wherever it lies, or by its path."""
    folder = room + '/in'
    names = ['a.png', 'a_old.png', 'raw/a.png', 'raw/deep/b.png', 'deep/raw/c.png', 'deep/d_old.png', 'deep/e.png']
    for number, name in enumerate(names):
        icons.save(folder, name, colours(number))
    put(folder, {'bad_old.png': b'bad'})
    for patterns, kept in ((['*_old.png'], 'a raw/a raw/deep/b deep/raw/c deep/e'), (['*_old.png', 'raw'], 'a deep/e'),
                           (['*_old.png', 'raw/**'], 'a deep/raw/c deep/e'), (['*_old.png', 'deep/*.png'], 'a raw/a raw/deep/b deep/raw/c'),
                           (['*_old.png', '*/raw/*'], 'a raw/a raw/deep/b deep/e'), (['*_old.png', '[ac].png'], 'raw/deep/b deep/e')):
        done = run(folder, room + '/sheet', *[word for pattern in patterns for word in ('--exclude', pattern)])
        assert done.returncode == 0 and done.lines == [], done.lines
        assert sorted(readers.read('json-hash', room + '/sheet')) == sorted(name + '.png' for name in kept.split()), patterns


def bordered(room):
    """The border has its own width: with 0 a picture as large as the sheet fits, and sprites are apart all the same."""
    folder = room + '/in'
    icons.save(folder, 'a.png', colours(1, 1024))
    for more in (['--size', '1024', '1024'], ['--power-of-two'], [], ['--width', '1024']):
        assert run(folder, room + '/sheet', '--border', '0', *more).returncode == 0
        with Image.open(room + '/sheet.png') as sheet:
            assert sheet.size == (1024, 1024), more
    for number in range(30):
        icons.save(folder, 'b%d.png' % number, colours(number, 9 + number))
    os.remove(folder + '/a.png')
    wanted = icons.originals(folder)
    for padding, border in ((1, 0), (0, 5), (3, 1), (2, 7)):
        for more in ([], ['--power-of-two'], ['--size', '200', '200'], ['--width', '180'], ['--dense'], ['--turn', '--trim'],
                     ['--power-of-two', '--greatest', '64', '--pages', '40'], ['--greatest', '70', '--pages', '40']):
            done = run(folder, room + '/sheet', '--border', str(border), '--padding', str(padding), *more)
            assert done.returncode == 0, done.lines
            out = room + '/sheet'
            found = pages(folder, out, border, padding, more) if '--pages' in more else readers.read('json-hash', out)
            assert found.keys() == wanted.keys()
            assert all(ImageChops.difference(found[name], wanted[name]).getbbox() is None for name in wanted)
            if '--pages' not in more:
                apart(json.load(open(out + '.json')), border, padding)


def pages(folder, out, border, padding, more):
    assert run(folder, out, '--form', 'phaser', '--border', str(border), '--padding', str(padding), *more).returncode == 0
    for texture in json.load(open(out + '.json'))['textures']:
        apart({'frames': dict(enumerate(texture['frames'])), 'meta': texture}, border, padding)
        if '--power-of-two' in more:
            assert all(side & (side - 1) == 0 for side in texture['size'].values()), texture['size']
    return readers.read('phaser', out)


def apart(data, border, padding):
    size = data['meta']['size']
    boxes = []
    for told in data['frames'].values():
        box = told['frame']
        wide, high = (box['h'], box['w']) if told['rotated'] else (box['w'], box['h'])
        boxes.append((box['x'], box['y'], box['x'] + wide, box['y'] + high))
    for place, (left, top, right, bottom) in enumerate(boxes):
        assert left >= border and top >= border and right + border <= size['w'] and bottom + border <= size['h']
        assert all(right + padding <= other[0] or other[2] + padding <= left or bottom + padding <= other[1] or other[3] + padding <= top
                   for other in boxes[:place])


def mutated(room):
    """Pictures with a few bytes changed: read or refused, and never ended by a signal or out of time."""
    random_ = random.Random(7)
    folder = room + '/seeds'
    picture = Image.effect_mandelbrot((31, 17), (-2, -1, 1, 1), 50).convert('RGBA')
    for name, more in (('a.png', {}), ('b.jpg', {'quality': 90}), ('c.webp', {'lossless': True}), ('d.webp', {'quality': 80}),
                       ('e.gif', {}), ('f.bmp', {}), ('g.tga', {}), ('h.tif', {}),
                       ('i.webp', {'save_all': True, 'append_images': [picture.rotate(180)]})):
        icons.save(folder, name, picture if name[-3:] in ('png', 'ebp', 'tga', 'tif') else picture.convert('RGB'), **more)
    seeds = {name: open(os.path.join(folder, name), 'rb').read() for name in sorted(os.listdir(folder))}
    for turn in range(40):
        inside = '%s/%d' % (room, turn)
        for number in range(5):
            for name, data in seeds.items():
                changed = bytearray(data)
                for _ in range(random_.choice([1, 1, 2, 5, 20])):
                    changed[int(len(changed) * random_.random() ** 2)] = random_.choice([0, 1, 127, 128, 255, random_.randrange(256)])
                length = random_.choice([len(changed)] * 5 + [random_.randrange(len(changed))])
                put(inside, {'%d%s' % (number, name): bytes(changed[:length])})
        done = run(inside, room + '/sheet', '--memory', '500M', '--leave-out', seconds=60)
        assert done.returncode in (0, 1, 3, 4), (turn, done.returncode, done.lines)


def all_tests():
    for what, data, pattern in BROKEN:
        test(what, broken, data, pattern)
    test('huge', huge, (20000, 20000), 1, 3, [])
    test('four huge ones', huge, (20000, 20000), 4, 3, ['--trim', '--memory', '4G'])
    test('left out', left_out)
    test('short of memory', short_of_memory)
    test('great heads', great_heads)
    test('larger within', larger_within)
    test('ignored', ignored)
    test('beyond', beyond)
    test('kinds', kinds)
    test('photographs', photographs)
    if features.check('webp_anim'):
        test('moving', moving)
    else:
        print('skipped animated WebP: this Pillow does not write it')
    test('links', links)
    test('dropped', dropped)
    test('kinds that are told', kinds_told)
    test('heads', heads)
    test('excluded', excluded)
    test('bordered', bordered)
    test('mutated', mutated)


all_tests()
sys.exit(SUITE.end())
