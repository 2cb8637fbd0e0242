"""The page that explains: what each figure shows is what atlas_tool answers to the same calls, and its lines of code do it."""
import re
import time

from page_tests import CONTRAST, NAMELESS

SIZES = [(44, 24), (28, 48), (108, 20), (36, 44), (44, 52), (108, 16), (108, 24), (100, 40), (112, 32), (108, 12), (28, 56), (20, 56),
         (44, 20), (32, 28), (60, 24)]
GROWING = [(48, 64), (30, 40), (50, 24), (30, 20), (20, 36), (34, 30)]
CUTTING = ['alloc 48 60', 'alloc 44 40', 'alloc 30 30', 'free 7', 'free 3', 'free 11']
# The boxes of a figure that aren't fading: whether each is live, and its corners.
BOXES = '''const each = [...document.querySelectorAll(`#${arguments[0]} .box:not(.leaving)`)];
  return each.map((group) => {
    const [x, y = 0] = group.style.transform.match(/-?[0-9.]+/g).map(Number);
    const { width, height } = group.querySelector('rect').style;
    return [group.classList.contains('live'), x, y, x + parseFloat(width), y + parseFloat(height)];
  })'''


def open_page(page):
    page.browser.open('about:blank')
    page.browser.open(page.address + 'how.html')
    page.wait('!!window.how')


def kind_of(width, height):
    """The class of a box, or of a request, in the second figure."""
    longer = max(width, height)
    return 'large' if longer >= 96 else 'medium' if longer >= 32 else 'small'


def boxes(page, figure):
    told = page.run(BOXES, figure)
    return [sorted(tuple(each[1:]) for each in told if each[0] == is_live) for is_live in (True, False)]


def told_by_tool(page, lines):
    _, _, live, holes = page.tool.boxes(lines)
    return [sorted(live.values()), sorted(holes)]


def test_cuts(page):
    """Each step, forth and back."""
    open_page(page)
    for at in [*range(7), *range(5, -1, -1)]:
        page.run('how.cut.steps.slider.set(arguments[0])', at)
        assert boxes(page, 'cut') == told_by_tool(page, ['atlas 128 96'] + CUTTING[:at]), at
        assert page.run('return [...document.querySelectorAll("#cut pre span")].findIndex((each) => each.classList.contains("now"))') == at + 3
    assert page.run('how.cut.steps.slider.set(5); return document.querySelectorAll("#cut .was").length') == 2


def test_a_size_of_ones_own_is_cut(page):
    """Of any size of box a the boxes are the tool's; the other way to cut is drawn, and called a drawing."""
    open_page(page)
    for width, height in [(48, 60), (100, 20), (20, 90), (128, 96), (128, 40), (90, 90), (4, 4)]:
        page.run('how.cut.set(arguments[0], arguments[1])', width, height)
        lines, ids = ['atlas 128 96'], {}
        for at, (name, size) in enumerate([('a', (width, height)), ('b', (44, 40)), ('c', (30, 30)), ('b', None), ('a', None), ('c', None)], 1):
            if size:
                lines.append('alloc %d %d' % size)
                reply = page.tool.replies(lines)[-1].split()
                ids[name] = reply[1] if reply[0] == 'id' else None
            elif ids[name]:
                lines.append('free ' + ids[name])
            page.run('how.cut.steps.slider.set(arguments[0])', at)
            assert boxes(page, 'cut') == told_by_tool(page, lines), (width, height, at)
            caption = page.run('return document.querySelector("#cut .caption").textContent')
            assert ('no room' in caption or 'There is no box' in caption) == (ids[name] is None), caption
        assert boxes(page, 'cut')[1] == [(0, 0, 128, 96)]
    page.run('how.cut.set(48, 60); how.cut.steps.slider.set(1)')
    (box,), free = boxes(page, 'cut')
    page.click('#cut button[aria-pressed]')
    # 48x60 leaves 80 across and 36 down of 128x96: beside it 80x96 and below 48x36, or else 80x60 and 128x36.
    assert free == [(0, 60, 48, 96), (48, 0, 128, 96)] and boxes(page, 'cut') == [[box], [(0, 60, 128, 96), (48, 0, 128, 60)]]
    caption = page.run('return document.querySelector("#cut .caption").textContent')
    assert caption.startswith('A drawing of the other way') and '4,800 pixels in place of 7,680' in caption, caption
    page.click('#cut button[aria-pressed]')
    assert boxes(page, 'cut')[1] == free


def picking(page):
    """The lines that lead to the second figure's atlas, and its free boxes."""
    lines = ['atlas 240 150 1 1 32 96'] + ['alloc %d %d' % size for size in SIZES]
    ids = [int(line.split()[1]) for line in page.tool.replies(lines)[1:]]
    lines += ['free %d' % number for number in ids[1::2]]
    return lines, page.tool.boxes(lines)[3]


def test_picks(page):
    """The free box that is picked is the tool's, and each free box is told of as the rule has it."""
    open_page(page)
    lines, holes = picking(page)
    kinds = set()
    for width, height in [(20, 20), (30, 20), (24, 22), (4, 4), (60, 60), (110, 110), (90, 10), (30, 96), (50, 65), (100, 16), (104, 16),
                          (96, 10), (132, 20), (140, 140)]:
        page.run('how.pick.set(arguments[0], arguments[1])', width, height)
        reply = page.tool.replies(lines + ['alloc %d %d' % (width, height)])[-1]
        assert sorted(boxes(page, 'pick')[1]) == sorted(holes)
        rows = page.run('return [...document.querySelectorAll("#pick tr")].slice(1).map((row) => [row.className, ...[...row.cells].map((each) => each.textContent)])')
        picked = [row for row in rows if 'picked' in row[0]]
        places = sorted(holes, key=lambda hole: (hole[1], hole[0]))
        assert len(rows) == len(places)
        if reply == 'none':
            assert picked == [] and 'No free box' in page.run('return document.querySelector("#pick .caption").textContent')
            continue
        corner = tuple(int(word) for word in re.findall(r'\d+', reply)[1:3])
        assert len(picked) == 1 and places[rows.index(picked[0])][:2] == corner, (width, height)
        for (looks, _, sides, kind, words), (x0, y0, x1, y1) in zip(rows, places):
            assert sides == '%d × %d' % (x1 - x0, y1 - y0) and kind == kind_of(x1 - x0, y1 - y0)
            has_room = x1 - x0 >= width and y1 - y0 >= height
            assert ('dim' in looks) != has_room and words.startswith('too ') != has_room
        _, _, row_sides, kind, _ = picked[0]
        sides = [int(side) for side in row_sides.split(' × ')]
        kinds.add((kind_of(width, height), kind, (width in sides[:1]) or (height in sides[1:])))
        assert 'const box = atlas.allocate(%d, %d);' % (width, height) in page.run('return document.querySelector("#pick pre").textContent')
    # Of large requests, one took a box with a side of just its length, another one none.
    assert {('large', 'large', True), ('large', 'large', False)} <= kinds, kinds


def test_grows(page):
    open_page(page)
    lines = ['atlas 128 96'] + ['alloc %d %d' % size for size in GROWING]
    for width, height in [(128, 96), (176, 96), (128, 130), (224, 160), (200, 97)]:
        page.run('how.grow.set(arguments[0], arguments[1])', width, height)
        assert boxes(page, 'grow') == told_by_tool(page, lines + ['grow %d %d' % (width, height)]), (width, height)


def test_cache(page):
    """In each frame its letters are held, and what went was used longest ago and isn't in the frame."""
    open_page(page)
    frames, letters = page.run('return [how.cache.frames, how.cache.frames.map((_, at) => how.cache.lettersOf(at))]')
    used, evictions = {}, 0
    for at, (frame, text) in enumerate(zip(frames, letters)):
        held = {each['letter']: each for each in frame['held']}
        before = {each['letter'] for each in frames[at - 1]['held']} if at else set()
        used.update({letter: at for letter in text})
        assert set(text) <= set(held) and set(frame['fresh']) == set(text) - (before - set(frame['evicted']))
        assert not set(frame['evicted']) & set(text) and set(held) == (before | set(frame['fresh'])) - set(frame['evicted'])
        assert all(each['last'] == used[letter] for letter, each in held.items())
        for gone in frame['evicted']:
            assert all(used[gone] <= used[letter] for letter in held if letter not in text)
        evictions += len(frame['evicted'])
    statistics = page.run('return how.cache.statistics')
    assert statistics['evictions'] == evictions > 20 and statistics['misses'] == sum(len(frame['fresh']) for frame in frames)
    for at in (0, 40, 99, 40):
        page.run('how.cache.steps.slider.set(arguments[0])', at)
        shown = page.run('return [...document.querySelectorAll("#cache .box.live:not(.leaving) text")].map((each) => each.textContent)')
        assert sorted(shown) == sorted(each['letter'] for each in frames[at]['held'])
        places = sorted((b['x'], b['y'], b['x'] + b['width'], b['y'] + b['height']) for b in (each['box'] for each in frames[at]['held']))
        assert boxes(page, 'cache')[0] == places


def test_more_room_evicts_less(page):
    """The control for room: live and free boxes tile the page in each frame, and with more room fewer letters go."""
    open_page(page)
    counts = []
    for height in (56, 64, 80, 96):
        page.run('how.cache.room.set(arguments[0])', height)
        frames = page.run('return how.cache.frames')
        for frame in frames:
            parts = [each['box'] for each in frame['held']] + frame['free']
            assert sum(part['width'] * part['height'] for part in parts) == 72 * height
            corners = [(part['x'], part['y'], part['x'] + part['width'], part['y'] + part['height']) for part in parts]
            assert all(x1 <= u0 or u1 <= x0 or y1 <= v0 or v1 <= y0
                       for at, (x0, y0, x1, y1) in enumerate(corners) for u0, v0, u1, v1 in corners[at + 1:])
        counts.append(sum(len(frame['evicted']) for frame in frames))
        page.run('how.cache.steps.slider.set(40)')
        shown = boxes(page, 'cache')
        assert [len(each) for each in shown] == [len(frames[40]['held']), len(frames[40]['free'])]
        assert 'height: %d' % height in page.run('return how.cache.code.text')
        orange = page.run('return document.querySelectorAll("#cache .evicts").length')
        assert orange == sum(bool(frame['evicted']) for frame in frames)
    assert counts == sorted(counts, reverse=True) and counts[0] > 20 and counts[-1] < counts[0] / 2, counts


def test_shelves_are_beside_the_atlas(page):
    """The atlas holds what the tool tells of the same calls; the shelves' boxes are of the same requests, and lie apart."""
    open_page(page)
    calls, found = page.run('return [how.shelf.calls, how.shelf.found]')
    lines, ids = ['atlas 160 160'], {}
    for number, call in enumerate(calls):
        if 'freed' in call:
            replies = page.tool.replies(lines)
            held = [(at, reply.split()) for at, reply in enumerate(replies) if at in ids]
            name = next((reply[1] for at, reply in held if ids[at] == call['freed'] and reply[0] == 'id'), None)
            lines += ['free ' + name] if name else []
        else:
            ids[len(lines)] = number
            lines.append('alloc %d %d' % (call['width'], call['height']))
    replies = page.tool.replies(lines)
    sides = {number: (call['width'], call['height']) for number, call in enumerate(calls) if 'freed' not in call}
    last = {name: states[-1] for name, states in found.items()}
    corners = {name: sorted((b['x'], b['y'], b['x'] + b['width'], b['y'] + b['height']) for b in state['boxes']) for name, state in last.items()}
    assert corners['atlas'] == told_by_tool(page, lines)[0] and last['atlas']['refused'] == replies.count('none')
    assert last['shelves']['refused'] > last['atlas']['refused'] and len(last['shelves']['boxes']) < len(last['atlas']['boxes'])
    for states in found.values():
        for state in states[::40]:
            assert all((box['width'], box['height']) == sides[box['key']] for box in state['boxes'])
    for at, (x0, y0, x1, y1) in enumerate(corners['shelves']):
        assert x1 <= 160 and y1 <= 160 and all(x1 <= u0 or u1 <= x0 or y1 <= v0 or v1 <= y0 for u0, v0, u1, v1 in corners['shelves'][at + 1:])
    assert boxes(page, 'shelf')[0] == sorted(corners['atlas'] + corners['shelves'])


def test_figures_are_told(page):
    """Each figure and table has a name, each head of a column words; what a drawing shows is in its name, and said once it stays."""
    open_page(page)
    assert page.run('''return [...document.querySelectorAll('figure')].map((each) =>
        document.getElementById(each.getAttribute('aria-labelledby'))?.textContent)''') == page.run(
            'return [...document.querySelectorAll("figure")].map((each) => each.closest("section").querySelector("h2").textContent)')
    assert page.run('return [...document.querySelectorAll("th")].every((each) => each.textContent && each.scope === "col")')
    assert page.run('return [...document.querySelectorAll("table")].every((each) => each.getAttribute("aria-label"))')
    page.run('how.cut.steps.slider.set(1)')
    label = page.run('return document.querySelector("#cut .view svg").getAttribute("aria-label")')
    assert 'live a 48 by 60 at 0, 0' in label and 'free 80 by 96 at 48, 0' in label, label
    page.run('''window.said = []; new MutationObserver(() => said.push(document.getElementById('said').textContent))
        .observe(document.getElementById('said'), { childList: true, characterData: true, subtree: true });
        how.cache.steps.pause = 60; how.cache.steps.slider.set(80)''')
    page.click('#cache button.main')
    page.wait('how.cache.steps.at === 99')
    page.wait('said.length > 0')
    last = page.run('return document.querySelector("#cache .caption").textContent')
    assert page.run('return said') == [last], page.run('return said')


def test_moves(page):
    """Where boxes were and where they are is what the tool tells of the same calls; in between each is on its way."""
    open_page(page)
    lines = page.run('return how.move.lines')
    replies = page.tool.replies(lines + ['rearrange'])
    moved = [[int(word) for word in re.findall(r'\d+', reply)] for reply in replies if reply.startswith('moved')]
    lost = [tuple(int(word) for word in re.findall(r'\d+', reply)[1:]) for reply in replies if reply.startswith('lost')]
    assert replies[-1] == 'changes 20 failures 1' and len(moved) == 20 and len(lost) == 1
    before, after = ([tuple(each[at:at + 4]) for each in moved] for at in (1, 6))
    page.run('how.move.set(0)')
    assert boxes(page, 'move')[0] == sorted(before + lost) == told_by_tool(page, lines)[0]
    assert 'will find no room' in page.run('return document.querySelector("#move .caption").textContent')
    page.run('how.move.set(0.5)')
    assert 'A drawing' in page.run('return document.querySelector("#move .caption").textContent')
    middle = boxes(page, 'move')[0]
    assert middle != sorted(before) and middle != sorted(after)
    page.run('how.move.set(1)')
    assert boxes(page, 'move')[0] == sorted(after) == told_by_tool(page, lines + ['rearrange'])[0]
    x0, y0, x1, y1 = lost[0]
    assert 'the box of %d × %d, dashed where it was, is lost' % (x1 - x0, y1 - y0) in page.run('return document.querySelector("#move .caption").textContent')
    assert page.run('const { x, y, width, height } = document.querySelector("#move .was").attributes;'
                    'return [x, y, width, height].map((each) => Number(each.value))') == [x0, y0, x1 - x0, y1 - y0]


def test_lines_are_copied(page):
    """Each figure has a button that copies its lines, as they are seen beside it."""
    open_page(page)
    page.run('navigator.clipboard.writeText = (text) => { window.copied = text; return Promise.resolve(); }')
    seen = page.run('return [...document.querySelectorAll("figure")].map((each) => [...each.querySelectorAll("pre span")].map((line) => line.textContent).join("\\n"))')
    assert len(seen) == 6 and all(seen)
    for at, lines in enumerate(seen):
        page.run('window.copied = null; document.querySelectorAll("figure button.copy")[arguments[0]].click()', at)
        assert page.wait('window.copied').strip() == lines.strip()
        page.wait('document.querySelectorAll("figure button.copy")[%d].textContent === "Copied"' % at)


def test_keys_and_buttons(page):
    open_page(page)
    page.run('how.cut.steps.slider.set(0); document.querySelector("#cut input").focus()')
    page.browser.press('ArrowRight', 'ArrowRight', 'ArrowRight', 'ArrowLeft')
    assert page.run('return how.cut.steps.at') == 2
    page.run('how.cut.steps.pause = 30; how.cut.steps.slider.set(4)')
    page.click('#cut button.main')
    page.wait('how.cut.steps.at === 6')
    assert page.run('return document.querySelector("#cut button.main").textContent') == 'Play'
    page.click('#move button.main')
    page.wait('document.querySelector("#move button.main").textContent === "Back"', 60)
    page.click('#move button.main')
    assert page.run('return document.querySelector("#move input").value') == '0'


def test_keys_move_each_slider(page):
    """By arrows, Home and End; and a figure that plays by itself stops."""
    open_page(page)
    seen = 'return document.querySelector("#%s .view").innerHTML'
    for name, sliders in {'cut': 3, 'pick': 2, 'grow': 2, 'cache': 2, 'move': 1, 'shelf': 1}.items():
        assert page.run('return document.querySelectorAll("#%s input[type=range]").length' % name) == sliders
        for at in range(sliders):
            field = 'document.querySelectorAll("#%s input[type=range]")[%d]' % (name, at)
            page.run(field + '.focus()')
            page.browser.press('Home')
            least, first = page.run('return Number(%s.value) - Number(%s.min)' % (field, field)), page.run(seen % name)
            page.browser.press('ArrowRight', 'ArrowRight', 'ArrowLeft')
            step, second = page.run('return Number(%s.value) - Number(%s.min)' % (field, field)), page.run(seen % name)
            page.browser.press('End')
            most, last = page.run('return Number(%s.max) - Number(%s.value)' % (field, field)), page.run(seen % name)
            assert (least, step, most) == (0, 1, 0) and len({first, second, last}) == 3, (name, at, least, step, most)
    page.run('how.cut.steps.pause = 60000; how.cut.steps.slider.set(0)')
    page.click('#cut button.main')
    page.run('document.querySelector("#cut input").focus()')
    page.browser.press('ArrowRight')
    assert page.run('return [how.cut.steps.at, document.querySelector("#cut button.main").textContent]') == [1, 'Play']
    page.run('how.move.set(0.1)')
    page.click('#move button.main')
    page.run('document.querySelector("#move input").focus()')
    page.browser.press('Home')
    time.sleep(0.5)
    assert page.run('return document.querySelector("#move input").value') == '0'


def test_reduced_motion(page):
    """Where a person asked for less motion boxes jump."""
    if not hasattr(page.browser, 'command'):
        return
    page.browser.command('Emulation.setEmulatedMedia', {'features': [{'name': 'prefers-reduced-motion', 'value': 'reduce'}]})
    open_page(page)
    page.click('#move button.main')
    assert page.run('return document.querySelector("#move input").value') == '200'
    assert page.run('return getComputedStyle(document.querySelector("#cut .box")).transitionDuration') in ('0s', '')
    page.browser.command('Emulation.setEmulatedMedia', {'features': []})


def test_can_be_read(page):
    """In both colours, by names, on a screen of any width; the page loads itself and the module alone."""
    open_page(page)
    names = page.run('return performance.getEntriesByType("resource").map((each) => each.name.split("/").at(-1))')
    assert names == ['wollemigo.wasm'], names
    plain, packed = page.measure([page.address + 'how.html', page.address + 'wollemigo.wasm'])
    assert plain < 262800 and packed < 104200, (plain, packed)
    for colour in ('dark', 'light'):
        if page.run('return document.documentElement.dataset.theme') != colour:
            page.click('#theme')
        assert page.run(CONTRAST) == [], colour
    page.run('localStorage.clear()')
    assert page.run(NAMELESS) == []
    assert page.run('const ids = [...document.querySelectorAll("[id]")].map((each) => each.id);'
                    'return ids.filter((id, at) => ids.indexOf(id) !== at)') == []
    wide, screen = page.run('return [document.documentElement.scrollWidth, window.innerWidth]')
    assert wide <= screen, (wide, screen)
    text = page.run('return document.querySelector("main").innerText')
    assert not re.search(r'undefined|NaN|\[object', text) and len(page.run('return [...document.querySelectorAll("figure")]')) == 6


def test_pages_lead_to_one_another(page):
    page.open()
    page.click('header a')
    page.wait('!!window.how')
    page.click('header a')
    page.wait('!!window.play')


def shots(page, colour, path):
    """A picture of each figure, in the midst of what it shows."""
    open_page(page)
    if page.run('return document.documentElement.dataset.theme') != colour:
        page.click('#theme')
    page.run('scrollTo(0, 0)')
    page.browser.shot(path % 'top')
    page.run('how.cut.steps.slider.set(5); how.pick.set(20, 20); how.grow.set(176, 120); how.cache.steps.slider.set(40); how.move.set(0.45)')
    for name in ['cut', 'pick', 'grow', 'cache', 'move', 'shelf']:
        page.run('document.querySelector("#%s figure").scrollIntoView({ block: "center" })' % name)
        time.sleep(1)
        page.browser.shot(path % name)
