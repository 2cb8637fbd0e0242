"""Draws the traces of bench/traces a second time, from what docs/BENCH.md and bench/uses say of them: for its tests."""
import bisect

MASK = (1 << 64) - 1
ZOOMS = (297, 354, 420, 500, 595, 707, 841, 1000)
SIZES = (44, 52, 54, 56, 72, 96, 144)
# Of each script: glyphs, letters of a word, width and height of a glyph, the gap, quarters, of ten words so many.
SCRIPTS = ((90, (1, 10), (20, 80), (45, 95), 10, 4, 3), (66, (1, 12), (40, 90), (45, 95), 10, 4, 1),
           (50, (1, 11), (30, 80), (45, 95), 10, 4, 1), (3500, (1, 3), (75, 95), (75, 95), 8, 4, 4),
           (300, (1, 1), (105, 110), (98, 100), 5, 1, 1))
WORDS, LINES, FACES = 6000, 3000, 2


class Random:
    def __init__(self, seed):
        self.state = seed

    def below(self, bound):
        self.state = (self.state + 0x9e3779b97f4a7c15) & MASK
        z = self.state
        z = (z ^ z >> 30) * 0xbf58476d1ce4e5b9 & MASK
        z = (z ^ z >> 27) * 0x94d049bb133111eb & MASK
        return ((z ^ z >> 31) >> 33) % bound

    def between(self, low, high):
        return low + self.below(high - low + 1)


def zipf(ranks):
    """Draws a rank, from 0 on: that of r is as likely as 1 by r + 1."""
    sums = [0]
    for rank in range(ranks):
        sums.append(sums[-1] + (1 << 20) // (rank + 1))
    return lambda random: bisect.bisect_right(sums, random.below(sums[-1])) - 1


def numbered(frames):
    """Sizes by number, and frames of numbers: things are numbered as they come, and each is once in a frame."""
    numbers, sizes = {}, []
    made = []
    for frame in frames:
        made.append([])
        for thing, size in dict(frame).items():
            if thing not in numbers:
                numbers[thing] = len(sizes)
                sizes.append(size)
            made[-1].append(numbers[thing])
    return sizes, made


def glyphs(seed, frames):
    random = Random(seed)
    sizes = []
    for _ in range(20000):
        ends = (34, 44) if random.below(100) < 5 else (8, 20)
        sizes.append((random.between(*ends), random.between(*ends)))
    usual, near = zipf(1500), zipf(3000)
    lines = [[usual(random) if random.below(2) == 0 else 7 * (line + near(random)) % 20000 for _ in range(60)]
             for line in range(frames // 2 + 24)]
    return numbered([(glyph, sizes[glyph]) for line in lines[frame // 2:frame // 2 + 24] for glyph in line] for frame in range(frames))


def icons_of(random):
    often = zipf(3000)
    made = []
    for _ in range(20000):
        x, y = random.below(100000), random.below(100000)
        made.append((x, y, often(random) if random.below(2) == 0 else random.below(3000)))
    return made


def map_of_icons(seed, frames):
    random = Random(seed)
    kinds = []
    for _ in range(3000):
        ends = (128, 256) if random.below(100) < 2 else (8, 64)
        kinds.append((random.between(*ends), random.between(*ends), ends[0]))
    icons = icons_of(random)
    x, y, depth = 50000, 50000, 4000
    made = []
    for frame in range(frames):
        if frame % 60 == 0:
            right, down, deeper = random.between(-150, 150), random.between(-150, 150), random.between(-60, 60)
        x, y = (min(max(at, 5000), 95000) for at in (x + right, y + down))
        depth = min(max(depth + deeper, 0), 7999)
        zoom, half = depth // 1000, 4200000 // ZOOMS[depth // 1000]
        seen = [kind for left, top, kind in icons if abs(left - x) < half and abs(top - y) < half][:420]
        made.append([((zoom, kind), tuple(max(side * ZOOMS[zoom] // 1000, kinds[kind][2]) for side in kinds[kind][:2])) for kind in seen])
    return numbered(made)


def fonts_of(random):
    """Width, height and quarters of each glyph, and the words of each script."""
    glyphs_made, words = [], []
    for count, letters, width, height, _, quarters, _ in SCRIPTS:
        first, often = len(glyphs_made), zipf(count)
        for _ in range(count):
            glyphs_made.append((random.between(*width), random.between(*height), quarters))
        words.append([[first + (often(random) if count <= 100 else random.below(count)) for _ in range(random.between(*letters))]
                      for _ in range(WORDS)])
    return glyphs_made, words


def line_of(random, glyphs_made, words, often):
    """The size, the face, and the glyphs with their places in hundredths of a pixel."""
    shares = [script for script, each in enumerate(SCRIPTS) for _ in range(each[6])]
    size, face = SIZES[random.below(len(SIZES))], random.below(FACES)
    made, x = [], 0
    while x < 140000:
        script = shares[random.below(10)]
        for glyph in words[script][often(random)]:
            made.append((glyph, x))
            x += (glyphs_made[glyph][0] + SCRIPTS[script][4]) * size // 4
        x += 30 * size // 4
    return size, face, made


def text(seed, frames, up, left):
    random = Random(seed)
    glyphs_made, words = fonts_of(random)
    often = zipf(WORDS)
    lines = [line_of(random, glyphs_made, words, often) for _ in range(LINES)]
    tops = [0]
    for size, _, _ in lines:
        tops.append(tops[-1] + size // 4 + 4)
    made = []
    for frame in range(frames):
        moved = left * frame % 15000
        number = bisect.bisect_right(tops, up * frame) - 1
        made.append([])
        while tops[number] < up * frame + 700:
            size, face, line = lines[number]
            for glyph, x in line:
                width, height, quarters = glyphs_made[glyph]
                width, height = -(-width * size // 400), -(-height * size // 400)
                if -100 * width <= x - moved <= 100000:
                    quarter = (x - moved) % 100 * quarters // 100
                    made[-1].append(((glyph, face, size, quarter), (width + (quarter > 0), height)))
            number += 1
    return numbered(made)


def sum_of(sizes, frames):
    """FNV-1a over words."""
    told = 0xcbf29ce484222325
    for word in [side for size in sizes for side in size] + [word for frame in frames for word in [len(frame)] + frame]:
        told = (told ^ word) * 0x100000001b3 & MASK
    return told


TRACES = {'text-fast': lambda seed, frames: text(seed, frames, 23, 30), 'text-slow': lambda seed, frames: text(seed, frames, 5, 7),
          'glyphs': glyphs, 'map': map_of_icons}
