"""The tab of the atlas: each control is used, and what is drawn compared with what atlas_tool answers."""
import re
import time


def class_of(width, height, small=32, large=256):
    return 2 if max(width, height) >= large else 1 if max(width, height) >= small else 0


def test_starts(page):
    """It opens with some boxes, and without trouble."""
    live, _ = page.compare()
    assert len(live) == 16 and page.trouble() == ''
    assert '16 live' in page.text('counts')


def test_adds_each_kind(page):
    sides = {'glyphs': ((5, 22), (8, 30)), 'sprites': ((20, 120), (20, 120)), 'tiles': ((64, 64), (64, 64)), 'own': ((33, 33), (17, 17))}
    for kind, (wide, high) in sides.items():
        page.browser.choose('#kind', kind)
        if kind == 'own':
            page.browser.fill('#own-width', '33')
            page.browser.fill('#own-height', '17')
        page.click('#add')
        page.compare()
        width, height = map(int, re.match(r'alloc (\d+) (\d+)$', page.lines()[-1]).groups())
        assert wide[0] <= width <= wide[1] and high[0] <= height <= high[1], (kind, width, height)


def test_adds_many(page):
    page.click('#add-many')
    live, _ = page.compare()
    assert len(live) == 116


def test_tells_that_there_is_no_room(page):
    page.browser.choose('#kind', 'sprites')
    page.click('#add-many')
    page.compare()
    assert page.run('return play.player.session.replies.at(-1)[0]') == 'none' and 'no room' in page.trouble()


def test_frees_one(page):
    page.click('#free')
    live, _ = page.compare()
    assert len(live) == 15 and page.lines()[-1].startswith('free ')


def test_frees_all(page):
    for _ in range(16):
        page.click('#free')
    live, holes = page.compare()
    assert not live and len(holes) == 1
    page.wait('document.getElementById("free").disabled')


def test_frees_what_is_clicked(page):
    live, _ = page.compare()
    number, (x0, y0, x1, y1) = sorted(live.items())[4]
    page.point((x0 + x1) // 2, (y0 + y1) // 2, click=True)
    left, _ = page.compare()
    assert page.lines()[-1] == 'free %d' % number and set(live) - set(left) == {number}


def test_click_on_what_is_free(page):
    _, holes = page.compare()
    before = page.lines()
    x0, y0, x1, y1 = max(holes, key=lambda hole: (hole[2] - hole[0]) * (hole[3] - hole[1]))
    page.point((x0 + x1) // 2, (y0 + y1) // 2, click=True)
    page.compare()
    assert page.lines() == before


def test_grows(page):
    page.wait('document.getElementById("grow").textContent === "Grow to 512 × 512"')
    page.click('#grow')
    page.compare()
    page.wait('document.getElementById("grow").textContent === "Grow to 1024 × 512"')
    page.click('#grow')
    page.compare()
    assert page.lines()[-2:] == ['grow 512 512', 'grow 1024 512']


def test_rearranges(page):
    page.click('#add-many')
    for _ in range(20):
        page.click('#free')
    page.click('#rearrange')
    page.compare()
    assert page.lines()[-1] == 'rearrange'


def test_undoes_and_does_again(page):
    states = [page.compare()]
    for name in ['#add', '#free', '#grow', '#rearrange', '#add-many']:
        page.click(name)
        page.settle()
    for _ in range(104):
        page.click('#undo')
    assert page.compare() == states[0]
    lines = page.lines()
    for _ in range(104):
        page.click('#redo')
    page.compare()
    page.wait('document.getElementById("redo").disabled')
    assert len(page.lines()) == len(lines) + 104
    page.click('#undo')
    page.click('#free')
    page.compare()
    page.wait('document.getElementById("redo").disabled')


def test_undoes_to_the_empty_atlas(page):
    page.run('for (let time = 0; time < 15; time += 1) document.getElementById("undo").click()')
    page.click('#undo')
    live, holes = page.compare()
    page.wait('document.getElementById("undo").disabled')
    assert not live and holes == [(0, 0, 512, 256)]


def test_runs(page):
    for mode in ['both', 'add', 'free']:
        page.browser.choose('#mode', mode)
        page.run('const field = document.getElementById("speed"); field.value = 35; field.dispatchEvent(new Event("input"))')
        assert page.text('speed-told') == '3,162 a second'
        before = len(page.lines())
        page.click('#run')
        page.wait('play.player.session.lines.length > %d' % before)
        if mode == 'both':
            time.sleep(1)
            page.click('#run')
        page.wait('!play.player.isRunning')
        page.compare()
        page.wait('document.getElementById("run").textContent === "Run"')
    assert 'Nothing is live any more.' in page.trouble()


def test_draws_no_less_than_all(page):
    """What was drawn bit by bit while it ran has the pixels of a drawing of all."""
    page.browser.choose('#kind', 'glyphs')
    for speed in [20, 30, 40]:
        page.run('const field = document.getElementById("speed"); field.value = arguments[0]; field.dispatchEvent(new Event("input"))', speed)
        page.click('#run')
        time.sleep(1.5)
        page.click('#run')
        page.wait('!play.player.isRunning && !play.player.asked')
        other = page.run('''const canvas = document.getElementById('base'), on = canvas.getContext('2d');
          const pixels = () => on.getImageData(0, 0, canvas.width, canvas.height).data;
          const before = pixels();
          play.player.session.isNew = true;
          play.player.drawing.draw(play.player.session, false);
          const after = pixels();
          let other = 0;
          for (let at = 0; at < before.length; at += 1) other += before[at] !== after[at];
          return other''')
        assert other == 0, (speed, other)
    page.compare()


def test_tells_why(page):
    """What is told of each box is worked out here from the tool's free boxes before its line."""
    page.click('#add-many')
    live, _ = page.compare()
    lines = page.lines()
    replies = page.run('return play.player.session.replies')
    for number in sorted(live)[::12]:
        x0, y0, x1, y1 = live[number]
        if x1 - x0 < 6 or y1 - y0 < 6:
            continue
        line = next(at for at, reply in enumerate(replies) if reply[0] == 'id %d at %d %d %d %d' % (number, x0, y0, x1, y1))
        _, _, _, holes = page.tool.boxes(lines[:line])
        page.point((x0 + x1) // 2, (y0 + y1) // 2)
        page.wait('play.player && document.getElementById("told").textContent.includes("Picked")')
        told = page.text('told')
        assert 'Box %d%d × %d at %d %d, %s' % (number, x1 - x0, y1 - y0, x0, y0,
                                             ['small', 'medium', 'large'][class_of(x1 - x0, y1 - y0)]) in told, told
        hole = next(each for each in holes if each[:2] == (x0, y0))
        wide, high = hole[2] - hole[0], hole[3] - hole[1]
        assert 'Line %d: %s' % (line + 1, lines[line]) in told
        assert ('There was 1 free box' if len(holes) == 1 else 'There were %d free boxes' % len(holes)) in told
        assert 'Picked: %d × %d at %d %d, %s; margins %d across, %d down.' % (
            wide, high, x0, y0, ['small', 'medium', 'large'][class_of(wide, high)], wide - (x1 - x0), high - (y1 - y0)) in told, told
        page.run('document.getElementById("told").replaceChildren()')


def test_outlines_what_is_pointed_at(page):
    live, _ = page.compare()
    count = ('const over = document.getElementById("over"); return over.getContext("2d")'
             '.getImageData(0, 0, over.width, over.height).data.filter((each, at) => at % 4 === 3 && each).length')
    assert page.run(count) == 0
    x0, y0, x1, y1 = live[min(live)]
    page.point((x0 + x1) // 2, (y0 + y1) // 2)
    assert page.run(count) > 100
    page.browser.move(5, 5)
    assert page.run(count) == 0 and page.text('told').startswith('Nothing.')


def test_tells_of_a_rearranged_box(page):
    page.click('#rearrange')
    live, _ = page.compare()
    number, (x0, y0, x1, y1) = sorted(live.items())[3]
    moved = next(line for line in page.run('return play.player.session.replies.at(-1)') if ' to %d ' % number in line)
    old = moved.split()
    page.point((x0 + x1) // 2, (y0 + y1) // 2)
    assert 'It was placed anew. Before, it was box %s at %s %s.' % tuple(old[1:4]) in page.text('told')


def test_lists_free_boxes_by_class(page):
    page.click('#add-many')
    _, holes = page.compare()
    for number, name in enumerate(['small', 'medium', 'large']):
        mine = [hole for hole in holes if class_of(hole[2] - hole[0], hole[3] - hole[1]) == number]
        page.wait('document.getElementById("count-%s").textContent === "%s: %d"' % (name, name, len(mine)))
        shown = page.run('return [...document.querySelectorAll(arguments[0])].map((each) => each.textContent)', '#holes-%s button' % name)
        sides = ['%d × %d' % (hole[2] - hole[0], hole[3] - hole[1]) for hole in mine]
        assert len(shown) == min(40, len(mine)) and (len(mine) > 40 or sorted(shown) == sorted(sides))


def test_keys(page):
    """Without a mouse: Tab goes to the atlas, arrows point, letters are calls."""
    page.run('document.getElementById("speed").focus()')
    page.browser.press('Tab')
    assert page.run('return document.activeElement.id') == 'over'
    before = page.lines()
    page.browser.press('ArrowRight', 'ArrowRight', 'ArrowDown')
    told = page.text('told')
    assert re.match(r'Box \d+', told) and page.text('said').startswith('Box')
    number = re.match(r'Box (\d+?)(?=\d+ × )', told)
    page.browser.press('Enter')
    live, _ = page.compare()
    assert page.lines()[:-1] == before and page.lines()[-1].startswith('free ') and len(live) == 15 and number
    for key, begins in [('a', 'alloc '), ('f', 'free '), ('g', 'grow '), ('r', 'rearrange')]:
        page.browser.press(key)
        page.compare()
        assert page.lines()[-1].startswith(begins), key
    count = len(page.lines())
    page.browser.press('u')
    assert len(page.lines()) == count - 1
    page.wait('!document.getElementById("redo").disabled')
    page.browser.press('y')
    assert len(page.lines()) == count
    page.browser.press(' ')
    page.wait('play.player.isRunning && document.getElementById("run").textContent === "Stop"')
    page.browser.press(' ')
    page.wait('!play.player.isRunning')
    page.compare()


def test_keys_in_fields_are_letters(page):
    before = page.lines()
    page.click('#session > summary')
    page.browser.write('#lines', 'afgruy ')
    assert page.lines() == before


def test_begins_a_new_atlas(page):
    page.click('#new > summary')
    for name, value in {'width': 300, 'height': 200, 'align-x': 8, 'align-y': 4, 'small': 16, 'large': 100}.items():
        page.browser.fill('#new-' + name, str(value))
    page.click('#new-form button')
    assert page.lines() == ['atlas 300 200 8 4 16 100']
    page.browser.choose('#kind', 'glyphs')
    page.click('#add-many')
    live, _ = page.compare()
    x0, y0, x1, y1 = live[max(live)]
    page.point(x0 + 2, y0 + 1)
    page.wait('document.getElementById("told").textContent.includes("rounded up to the alignment")'
              ' || document.getElementById("told").textContent.includes("Picked")')
    page.browser.fill('#new-small', '200')
    page.click('#new-form button')
    assert 'may not be greater' in page.trouble()
    page.compare()



def test_zooms(page):
    """A large atlas is drawn larger, up to a pixel of the screen for each of its own; the view is scrolled, and points where it is."""
    page.play(['atlas 4096 4096'] + ['alloc %d %d' % (40 + number % 90, 30 + number * 7 % 80) for number in range(600)])
    sizes = """const view = document.getElementById('viewport'), base = document.getElementById('base');
        return [base.width, view.scrollWidth > view.clientWidth + 10, view.scrollHeight > view.clientHeight + 10]"""
    before = page.run(sizes)
    assert not before[1]
    page.run('const field = document.getElementById("zoom"); field.value = 6; field.dispatchEvent(new Event("input"))')
    page.settle()
    width, *scrolls = page.run(sizes)
    assert width > 2 * before[0] and width <= 4096 and scrolls == [True, True], (before, width, scrolls)
    live, _ = page.compare()
    page.run('document.getElementById("viewport").scrollTo(0, 0)')
    x0, y0, x1, y1 = live[3]
    page.point((x0 + x1) // 2, (y0 + y1) // 2)
    page.wait('document.getElementById("told").textContent.startsWith("Box 3")')
    page.run('const field = document.getElementById("zoom"); field.value = 0; field.dispatchEvent(new Event("input"))')
    page.settle()
    assert page.run(sizes) == before
    page.compare()


# Keeps what is drawn in each frame: the boxes by their corners, and how many pixels of the screen the atlas's own take.
RECORD = """const { drawing } = play.player, draw = drawing.drawBoxes;
window.frames_ = [];
drawing.drawBoxes = function (boxes, fill, hasLabel, isFramed) {
  const all = [...boxes];
  if (fill === this.colours.live) frames_.push({ across: this.across, boxes: all.map(({ x0, y0, x1, y1 }) => [x0, y0, x1, y1]) });
  return draw.call(this, all, fill, hasLabel, isFramed);
};"""


def frames_of(page, name):
    """What is drawn from a click until all stands still."""
    page.run(RECORD)
    page.click(name)
    page.wait('!play.player.drawing.motion && !play.player.asked')
    return page.run('return window.frames_')


def test_rearranging_can_be_followed(page):
    """The boxes go from where they were to where the tool says that they are, by places in between."""
    page.run('for (let time = 0; time < 6; time += 1) document.getElementById("free").click()')
    before = sorted(map(list, page.compare()[0].values()))
    frames = frames_of(page, '#rearrange')
    after = sorted(map(list, page.compare()[0].values()))
    seen = [sorted(each['boxes']) for each in frames]
    assert before != after and seen[0] == before and seen[-1] == after
    assert any(each not in (before, after) for each in seen), len(seen)
    sides = sorted((x1 - x0, y1 - y0) for x0, y0, x1, y1 in before)
    assert all(sorted((round(x1 - x0), round(y1 - y0)) for x0, y0, x1, y1 in each) == sides for each in seen)


def test_growing_can_be_followed(page):
    """The atlas is drawn at scales between the one that it had and the one that it has, its boxes where they are."""
    before = page.run('return play.player.drawing.across')
    live = sorted(map(list, page.compare()[0].values()))
    page.click('#grow')
    page.wait('!play.player.drawing.motion && !play.player.asked')
    middle = page.run('return play.player.drawing.across')
    frames = frames_of(page, '#grow')
    after = page.run('return play.player.drawing.across')
    assert sorted(map(list, page.compare()[0].values())) == live and all(sorted(each['boxes']) == live for each in frames)
    scales = [each['across'] for each in frames]
    assert scales[0] == middle and scales[-1] == after < middle <= before and any(after < each < middle for each in scales)


def test_no_motion_where_less_is_wanted(page):
    page.run('window.matchMedia = (query) => ({ matches: query.includes("prefers-reduced-motion: reduce") })')
    live = sorted(map(list, page.compare()[0].values()))
    for name in ('#grow', '#rearrange'):
        frames = frames_of(page, name)
        after = sorted(map(list, page.tool.boxes(page.lines())[2].values()))
        whole = [each for each in frames if each['boxes']]
        # The layout may have it drawn once more, for the room that there is then.
        assert whole and all(sorted(each['boxes']) == after for each in whole), name
        assert len({each['across'] for each in whole}) <= 2, name
    assert after != live


def test_motion_ends_where_the_session_goes_on(page):
    page.run('document.getElementById("rearrange").click(); document.getElementById("add").click()')
    page.compare()
    page.run('document.getElementById("rearrange").click()')
    page.play(['atlas 100 80'] + ['alloc 9 9'] * 16 + ['size'])
    page.compare()


def test_what_a_rearrangement_loses_is_told(page):
    """At the same size a box may find no room, and undoing brings it back."""
    sizes = [(36, 44), (28, 16), (20, 44), (40, 40), (32, 40), (36, 24), (36, 24), (36, 40), (32, 20), (32, 44), (40, 16), (32, 24), (40, 40),
             (36, 12), (44, 24), (44, 16), (40, 28), (36, 16), (44, 28), (12, 36), (28, 16), (44, 32), (32, 32), (12, 44), (12, 16), (12, 12)]
    lines = ['atlas 160 160'] + ['alloc %d %d' % size for size in sizes]
    ids = [reply.split()[1] for reply in page.tool.replies(lines)[1:]]
    lines += ['free ' + number for number in ids[1::6]]
    assert page.tool.replies(lines + ['rearrange'])[-1] == 'changes 20 failures 1'
    page.play(lines)
    page.click('#rearrange')
    assert page.trouble().startswith('A box found no room in the new order, and is lost')
    assert len(page.compare()[0]) == 20
    page.click('#undo')
    assert page.trouble() == '' and len(page.compare()[0]) == 21
