"""Folders of pictures for the tests, and pictures compared."""
import os
import random
import struct

from PIL import Image, ImageChops, ImageDraw

NAMES = ['a b.png', 'ärger/größe.png', 'quo"te.png', 'back\\slash.png', "it's/100%.png", '#1 & <2>.png', '日本/矢.png', '-dash.png']


def one(random_, number):
    """An icon with a transparent border, of a side from 8 to 64."""
    wide, high = random_.randint(8, 64), random_.randint(8, 64)
    picture = Image.new('RGBA', (wide, high), (number % 256, 9, 200, 0))
    draw = ImageDraw.Draw(picture)
    left, top = random_.randint(0, wide // 3), random_.randint(0, high // 3)
    for _ in range(3):
        colour = tuple(random_.randint(0, 255) for _ in range(4))
        draw.ellipse((left, top, random_.randint(left, wide - 1), random_.randint(top, high - 1)), fill=colour)
    draw.point((left, top), fill=(number % 256, number // 256, 77, 255))
    return picture


def save(folder, name, picture, **more):
    path = os.path.join(folder, *name.split('/'))
    os.makedirs(os.path.dirname(path), exist_ok=True)
    picture.save(path, **more)


def fill(folder, count=200, seed=1):
    """Icons, some twice; eight have names that a form must quote. Some have no alpha, or a palette, or are grey."""
    random_ = random.Random(seed)
    for number in range(count):
        picture = one(random_, number)
        name = NAMES[number] if number < len(NAMES) else 'icons/%s%03d.png' % ('abc'[number % 3], number)
        if number % 10 == 9:
            picture = picture.convert(['L', 'LA', 'RGB', '1', 'P'][number // 10 % 5])
        save(folder, name, picture)
        if number % 20 == 5:
            save(folder, 'again/' + name, picture)


def originals(folder, ending=''):
    """The pictures by name, as Pillow reads them; of files with this ending."""
    found = {}
    for inside, _, names in os.walk(folder):
        for name in [name for name in names if name.endswith(ending)]:
            path = os.path.join(inside, name)
            with Image.open(path) as picture:
                found[os.path.relpath(path, folder)] = picture.convert('RGBA')
    return found


def chunks(path):
    """The chunks of a PNG by name."""
    with open(path, 'rb') as file:
        data = file.read()[8:]
    found = {}
    while data:
        length, = struct.unpack('>I', data[:4])
        found[data[4:8]] = data[8:8 + length]
        data = data[12 + length:]
    return found


def clean(picture):
    """With no colour where nothing is seen."""
    mask = picture.getchannel('A').point(lambda alpha: 255 if alpha else 0)
    return Image.composite(picture, Image.new('RGBA', picture.size), mask)


def difference(one, other):
    """The greatest of two pictures of the same size."""
    return max(most for _, most in ImageChops.difference(one, other).getextrema())


def compare(found, originals, is_trimmed, most=0):
    assert found.keys() == originals.keys(), sorted(found.keys() ^ originals.keys())[:5]
    for name, original in originals.items():
        assert found[name].size == original.size, (name, found[name].size, original.size)
        pair = (clean(found[name]), clean(original)) if is_trimmed else (found[name], original)
        assert difference(*pair) <= most, name
