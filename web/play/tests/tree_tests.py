"""The tree of cuts beside the atlas: its rows, and how they and the boxes light each other up."""

ROWS = ('return [...document.querySelectorAll("#tree [role=treeitem]")]'
        '.map((each) => [Number(each.getAttribute("aria-level")), each.textContent])')
LIT = ('return ["lit", "above"].map((name) => [...document.querySelectorAll(`#tree .${name}`)].map((each) => each.textContent))')
# Where the outline lies on the upper canvas, in pixels: left, top, right, bottom.
OUTLINE = '''const over = document.getElementById('over');
  const { data } = over.getContext('2d').getImageData(0, 0, over.width, over.height);
  let [left, top, right, bottom] = [over.width, over.height, 0, 0];
  for (let y = 0; y < over.height; y += 1) for (let x = 0; x < over.width; x += 1) {
    if (data[4 * (y * over.width + x) + 3] < 128) continue;
    [left, top, right, bottom] = [Math.min(left, x), Math.min(top, y), Math.max(right, x + 1), Math.max(bottom, y + 1)];
  }
  return [left, top, right, bottom];'''


def shown(page, count):
    """The rows, once there are so many in the tree."""
    page.wait('document.querySelector("#tree > div").style.height === "%dpx"' % (24 * count))
    return page.run(ROWS)


def hover(page, text):
    """Moves the pointer to the row with a text."""
    page.settle()
    page.run('document.getElementById("tree").scrollIntoView({ block: "center" })')
    left, top = page.run('const rows = [...document.querySelectorAll("#tree [role=treeitem]")];'
                         'const row = rows.find((each) => each.textContent === arguments[0]);'
                         'const { left, top } = row.getBoundingClientRect(); return [left, top]', text)
    page.browser.move(left + 60, top + 12)


def outlined(page, x0, y0, x1, y1):
    """The outline is around this box."""
    across, down = page.run('const over = document.getElementById("over"); const { session } = play.player;'
                            'return [over.width / session.width, over.height / session.height]')
    found = page.run(OUTLINE)
    wanted = [x0 * across, y0 * down, x1 * across, y1 * down]
    assert all(abs(one - other) <= 3 for one, other in zip(found, wanted)), (found, wanted)


def test_shows_the_tree(page):
    """A request and what is left of its free box, as docs/MODEL.md tells it."""
    page.play(['atlas 100 100'])
    assert shown(page, 2) == [[1, 'the atlas, down: 100 × 100'], [2, 'free, 100 × 100']]
    page.play(['atlas 100 100', 'alloc 20 60'])
    assert shown(page, 6) == [[1, 'the atlas, down: 100 × 100'], [2, 'right: 100 × 100'], [3, 'down: 20 × 100'], [4, 'box 3, 20 × 60'],
                              [4, 'free, 20 × 40'], [3, 'free, 80 × 100']]
    page.click('#undo')
    shown(page, 2)


def test_has_each_box(page):
    """Leaves of the tree are the live and the free boxes; members of a row lie one after the other and fill it."""
    page.click('#add-many')
    page.click('#rearrange')
    page.click('#grow')
    page.click('#free')
    live, holes = page.compare()
    rows = page.run('return play.player.session.cuts().map(({ member, up }) => [up, member.axis ?? "", member.id ?? 0,'
                    'member.x, member.y, member.x + member.width, member.y + member.height])')
    leaves = [row for row in rows if not row[1]]
    assert {row[2]: tuple(row[3:]) for row in leaves if row[2]} == live
    assert sorted(tuple(row[3:]) for row in leaves if not row[2]) == sorted(holes)
    for at, (_, axis, _, x0, y0, x1, y1) in enumerate(rows):
        members = [row[3:] for row in rows if row[0] == at]
        side = 0 if axis == 'horizontal' else 1
        place = (x0, y0)[side]
        for member in members:
            assert member[side] == place and (member[1 - side], member[3 - side]) == ((x0, x1), (y0, y1))[1 - side], (rows[at], member)
            place = member[side + 2]
        assert not axis or place == (x1, y1)[side]
    shown(page, len(rows))


def test_a_row_lights_up_its_box(page):
    page.play(['atlas 100 100', 'alloc 20 60'])
    shown(page, 6)
    for text, box in [('box 3, 20 × 60', (0, 0, 20, 60)), ('free, 20 × 40', (0, 60, 20, 100)), ('down: 20 × 100', (0, 0, 20, 100)),
                      ('free, 80 × 100', (20, 0, 100, 100)), ('the atlas, down: 100 × 100', (0, 0, 100, 100))]:
        hover(page, text)
        outlined(page, *box)
    hover(page, 'box 3, 20 × 60')
    assert page.text('told').startswith('Box 3')
    page.browser.move(5, 5)
    assert page.run(OUTLINE)[2] == 0 and page.text('told').startswith('Nothing.')


def test_a_box_lights_up_its_row(page):
    page.play(['atlas 100 100', 'alloc 20 60'])
    shown(page, 6)
    page.point(10, 30)
    assert page.run(LIT) == [['box 3, 20 × 60'], ['right: 100 × 100', 'down: 20 × 100', 'box 3, 20 × 60']]
    page.point(60, 50)
    assert page.run(LIT)[0] == ['free, 80 × 100']
    page.browser.move(5, 5)
    assert page.run(LIT) == [[], []]


def test_goes_to_the_row(page):
    """In a long tree the row of the box that is pointed at comes into sight."""
    page.click('#add-many')
    live, _ = page.compare()
    shown(page, len(page.run('return play.player.session.cuts()')))
    for number in sorted(live)[::30]:
        x0, y0, x1, y1 = live[number]
        page.point((x0 + x1) // 2, (y0 + y1) // 2)
        assert page.run(LIT)[0] == ['box %d, %d × %d' % (number, x1 - x0, y1 - y0)]
        inside = page.run('const lit = document.querySelector("#tree .lit").getBoundingClientRect();'
                          'const box = document.getElementById("tree").getBoundingClientRect();'
                          'return lit.top >= box.top - 1 && lit.bottom <= box.bottom + 1')
        assert inside, number


def test_keys_of_the_tree(page):
    page.play(['atlas 100 100', 'alloc 20 60'])
    shown(page, 6)
    page.run('document.getElementById("tree").focus()')
    active = ('const at = document.getElementById(document.getElementById("tree").getAttribute("aria-activedescendant"));'
              'return [at.textContent, at.getAttribute("aria-selected")]')
    for keys, text in [(['ArrowDown'], 'the atlas, down: 100 × 100'), (['ArrowRight', 'ArrowRight', 'ArrowRight'], 'box 3, 20 × 60'),
                       (['ArrowDown'], 'free, 20 × 40'), (['ArrowLeft'], 'down: 20 × 100'),
                       (['ArrowUp', 'ArrowUp', 'ArrowUp'], 'the atlas, down: 100 × 100'), (['End'], 'free, 80 × 100'),
                       (['ArrowDown'], 'free, 80 × 100'), (['Home', 'ArrowDown'], 'right: 100 × 100')]:
        page.browser.press(*keys)
        assert page.run(active) == [text, 'true'], (keys, page.run(active))
    page.browser.press('Enter')
    assert page.lines()[-1] == 'alloc 20 60'
    page.browser.press('ArrowRight', 'ArrowRight', 'Enter')
    live, _ = page.compare()
    assert not live and page.lines()[-1] == 'free 3'
    shown(page, 2)


def test_a_large_tree_waits(page):
    """It isn't shown while the atlas runs with very many boxes, and is once it stands still."""
    page.play(['atlas 1024 1024'] + ['alloc 7 5'] * 9000)
    page.run('const field = document.getElementById("speed"); field.value = 20; field.dispatchEvent(new Event("input"))')
    page.click('#run')
    page.wait('!document.getElementById("tree-note").hidden && document.querySelectorAll("#tree [role=treeitem]").length === 0')
    page.click('#run')
    page.wait('document.getElementById("tree-note").hidden && document.querySelectorAll("#tree [role=treeitem]").length > 5')
    assert page.run('return document.querySelectorAll("#tree [role=treeitem]").length') < 30
    page.compare()
