#!/usr/bin/env python3
"""Draws what atlas_tool tells of an atlas, as an SVG picture: live boxes with their ids, free boxes hatched.

    atlas_tool < SESSION | docs/pictures/svg.py > PICTURE

docs/TOOL.md says which lines it reads ("A picture"). Status 2: a line can't be read, or none gives the size; 1: a device fails.
"""
import os
import re
import sys

STYLE = """<style>
.sheet { fill: #ffffff }
.live { fill: #cfe2ff }
.free { fill: url(#hatch) }
.hatch { stroke: #b9c0c8 }
.live, .free { stroke: #3d5a80; vector-effect: non-scaling-stroke }
text { fill: #10243f; font-family: sans-serif; text-anchor: middle; dominant-baseline: central }
@media (prefers-color-scheme: dark) {
.sheet { fill: #161b22 }
.live { fill: #1f4b85 }
.hatch { stroke: #4b535d }
.live, .free { stroke: #8fb4e3 }
text { fill: #f0f6ff }
}
</style>
<pattern id='hatch' width='5' height='5' patternUnits='userSpaceOnUse' patternTransform='rotate(45) scale(%d)'>"""
# What a line with numbers begins with, and how many they are.
NUMBERS = {b'size': 2, b'box': 5, b'hole': 4}
# The first words of other replies.
OTHERS = set(b'ok at id none refused true false no replayed replay live holes moved lost changes'.split())


class Unreadable(Exception):
    pass


def read(line):
    """The word and the numbers of a line; None of another reply."""
    word, *numbers = line.split(b' ')
    if word not in NUMBERS and (word in OTHERS or line == b'bad call'):
        return None
    if len(numbers) != NUMBERS.get(word) or not all(re.fullmatch(rb'\d+', it) and int(it) < 2 ** 32 for it in numbers):
        raise Unreadable
    return word, [int(it) for it in numbers]


def box(kind, left, top, right, bottom):
    return "<path class='%s' d='M%d %dH%dV%dH%dZ'/>\n" % (kind, left, top, right, bottom, left)


def live(scale, name, left, top, right, bottom):
    height = min(6 * scale, max(bottom - top, 0), 3 * max(right - left, 0) // 2 // len(str(name)))
    at = (left + right) // 2, (top + bottom) // 2, height, name
    return box('live', left, top, right, bottom) + "<text x='%d' y='%d' font-size='%d'>%d</text>\n" % at


def picture(lines):
    """The picture of the last size and of the boxes of the lines after it."""
    size, boxes, holes = None, [], []
    for number, line in enumerate(lines, 1):
        try:
            word, numbers = read(line) or (b'', [])
        except Unreadable:
            raise Unreadable("line %d can't be read" % number) from None
        if word == b'size':
            size, boxes, holes = numbers, [], []
        elif word:
            (boxes if word == b'box' else holes).append(numbers)
    if size is None:
        raise Unreadable('no line gives the size')
    width, height = size
    scale = max(max(size) // 100, 1)
    view = -scale, -scale, width + 2 * scale, height + 2 * scale
    return ("<svg xmlns='http://www.w3.org/2000/svg' viewBox='%d %d %d %d'>\n" % view + STYLE % scale
            + "<path class='hatch' d='M0 0V5'/></pattern>\n<path class='sheet' d='M0 0H%dV%dH0Z'/>\n" % (width, height)
            + ''.join(box('free', *each) for each in holes) + ''.join(live(scale, *each) for each in boxes) + '</svg>\n')


def main():
    try:
        text = sys.stdin.buffer.read()
        left = picture(text.removesuffix(b'\n').split(b'\n') if text else []).encode()
        while left:
            left = left[os.write(1, left):]
    except (Unreadable, OSError) as error:
        print(error, file=sys.stderr)
        return 1 if isinstance(error, OSError) else 2
    return 0


if __name__ == '__main__':
    sys.exit(main())
