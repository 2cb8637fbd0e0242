"""The session beside other packers. What those make of the lines is worked out by hand, from their rules; what the atlas
makes of them is what atlas_tool answers."""
import random
import re

# In 100 x 100, then 200 x 100. Shelf: 40x30 begins a shelf, 50x20 stands beside it, 60x30 begins a second one, 30x20 takes the place
# that was freed, 100x45 has no shelf and only 40 below; after the growth 90x90 has none, and 100x15 stands behind 50x20: of two shelves of
# one height the upper one is taken. Skyline: 60x30 lies on 50x20, at 40 20, 30x20 on 40x30, 100x45 on both, 90x90 to the right, and 100x15
# has no room below that. Maximal rectangles: 50x20 and 60x30 fit where 60x100 is left, at 40 0 and at 40 20, 30x20 in 40x70 at 0 30, 100x45
# in
# 100x50 at 0 50, and 90x90 in the new 100x100.
LINES = ['atlas 100 100', 'alloc 40 30', 'alloc 50 20', 'alloc 60 30', 'free FIRST', 'alloc 30 20', 'alloc 100 45', 'grow 200 100',
         'alloc 90 90', 'alloc 100 15']
SHELF = [[0, 0, 30, 20], [40, 0, 50, 20], [0, 30, 60, 30], [90, 0, 100, 15]]
SKYLINE = [[40, 0, 50, 20], [40, 20, 60, 30], [0, 30, 30, 20], [0, 50, 100, 45], [100, 0, 90, 90]]


def opened(page, lines):
    """What is compared, a row for each: its name, what it granted and refused, how full it is and was; and its boxes."""
    page.play(lines)
    if not page.run('return document.getElementById("beside").open'):
        page.click('#beside > summary')
    page.wait('play.player.beside.many === play.player.session.lines.length && play.player.beside.lines === play.player.session.lines')
    rows = page.run('return [...document.querySelectorAll("#beside-rows tr")].map('
                    '(row) => [...row.children].map((each) => each.textContent))')
    boxes = page.run('return play.player.beside.found.map(({ boxes }) => boxes.map(({ x, y, width, height }) => [x, y, width, height]))')
    return rows, [sorted(each) for each in boxes]


def ours(page, lines):
    """The row and the boxes that the tool's replies give for the atlas."""
    _, (width, height), live, _ = page.tool.boxes(lines)
    replies = [page.tool.replies(lines[:at])[-1] for at in range(2, len(lines) + 1) if lines[at - 1].startswith('alloc ')]
    boxes = sorted([x0, y0, x1 - x0, y1 - y0] for x0, y0, x1, y1 in live.values())
    area = sum(wide * high for _, _, wide, high in boxes)
    refused = replies.count('none')
    return ['this atlas', str(len(replies) - refused), str(refused), '%.1f %%' % (100 * area / (width * height))], boxes


def freed(page):
    """The lines, with the id that the tool gives the first box."""
    first = re.match(r'id (\d+) at', page.tool.replies(LINES[:2])[-1]).group(1)
    return [line.replace('FIRST', first) for line in LINES]


def test_is_compared_with_other_packers(page):
    lines = freed(page)
    rows, boxes = opened(page, lines)
    row, own = ours(page, lines)
    assert rows[0][:4] == row and boxes[0] == own
    # 600 + 1000 + 1800 + 1500 of 20,000; and 3,400 of 10,000 before the growth, but 4,000 before the freeing.
    assert rows[1] == ['a shelf packer', '5', '2', '24.5 %', '40.0 %', '-'] and boxes[1] == sorted(SHELF), (rows, boxes)
    # 1000 + 1800 + 600 + 4500 + 8100 of 20,000; 7,900 of 10,000 before the growth.
    assert rows[2] == ['a skyline packer', '6', '1', '80.0 %', '80.0 %', '-'] and boxes[2] == sorted(SKYLINE), (rows, boxes)
    drawn = page.run('return [...document.querySelectorAll("#beside-shown canvas")].map((canvas) => {'
                     'const { data } = canvas.getContext("2d").getImageData(0, 0, canvas.width, canvas.height);'
                     'return new Set(new Uint32Array(data.buffer)).size > 1; })')
    assert drawn == [True] * 4
    assert rows[3] == ['maximal rectangles', '6', '1', '80.0 %', '80.0 %', '-'] and boxes[3] == sorted(SKYLINE), (rows, boxes)


def test_how_full_each_was(page):
    """A curve for each, in one picture: how full it was after each call."""
    lines = freed(page)
    opened(page, lines)
    # Areas after each call of the shelf packer, of the skyline packer and of the atlas as the tool tells them; of 10,000, then of 20,000.
    shelf = [0, 1200, 2200, 4000, 2800, 3400, 3400, 3400, 3400, 4900]
    skyline = [0, 1200, 2200, 4000, 2800, 3400, 7900, 7900, 16000, 16000]
    shares = [[area / (20000 if at > 6 else 10000) for at, area in enumerate(areas)] for areas in (shelf, skyline)]
    own = []
    for at in range(1, len(lines) + 1):
        _, (width, height), live, _ = page.tool.boxes(lines[:at])
        own.append(sum((x1 - x0) * (y1 - y0) for x0, y0, x1, y1 in live.values()) / (width * height))
    curves = page.run('return [...document.querySelectorAll("#beside-curves polyline")].map((line) => line.getAttribute("points"))')
    found = [[1 - float(point.split(',')[1]) / 100 for point in line.split()] for line in curves]
    for wanted, told in zip([own] + shares, found):
        assert len(told) == len(wanted) == len(lines) and all(abs(one - other) < 1e-9 for one, other in zip(wanted, told)), (wanted, told)
    assert len(found) == 4 and found[3] == found[2]
    label = page.run('return document.getElementById("beside-curves").getAttribute("aria-label")')
    assert 'after each of 9 calls' in label and 'a shelf packer 24.5 %' in label and 'maximal rectangles 80.0 %' in label, label


def test_each_packer_lays_boxes_apart(page):
    """Of random calls, a growth among them: what is held overlaps nothing of it, and lies inside."""
    draw = random.Random(9)
    lines = ['atlas 200 200'] + ['alloc %d %d' % (draw.randint(1, 40), draw.randint(1, 40)) for _ in range(120)] + ['grow 260 230']
    lines += ['alloc %d %d' % (draw.randint(1, 60), draw.randint(1, 60)) for _ in range(120)]
    rows, boxes = opened(page, lines)
    for row, held in zip(rows, boxes):
        assert len(held) == int(row[1]) > 60 and all(x >= 0 and y >= 0 and x + w <= 260 and y + h <= 230 for x, y, w, h in held), row
        for at, (x, y, w, h) in enumerate(held):
            assert all(x + w <= u or u + v <= x or y + h <= t or t + s <= y for u, t, v, s in held[at + 1:]), (row, held[at])


def test_rearranged_boxes_are_freed_by_their_new_ids(page):
    draw = random.Random(5)
    lines = ['atlas 120 120'] + ['alloc %d %d' % (draw.randint(5, 40), draw.randint(5, 40)) for _ in range(30)]
    for step in range(12):
        live = sorted(page.tool.boxes(lines)[2])
        lines += ['free %d' % live[draw.randrange(len(live))], 'alloc %d %d' % (draw.randint(5, 40), draw.randint(5, 40))]
        lines += [['rearrange'], ['grow 130 120'], ['resize 140 130'], [], [], ['clear', 'alloc 9 9', 'alloc 8 8']][step % 6]
    for many in (31, 36, 40, len(lines)):
        rows, boxes = opened(page, lines[:many])
        row, own = ours(page, lines[:many])
        assert rows[0][:4] == row and boxes[0] == own, many


def test_measures_the_time(page):
    opened(page, freed(page))
    page.click('#beside-measure')
    page.wait('document.querySelector("#beside-rows td:last-child").textContent !== "-"')
    times = page.run('return play.player.beside.found.map(({ time }) => time)')
    told = page.run('return [...document.querySelectorAll("#beside-rows td:last-child")].map((each) => each.textContent)')
    assert all(0 < each < 1 for each in times) and all(re.fullmatch(r'[\d.]+ (ns|µs)', each) for each in told), (times, told)
