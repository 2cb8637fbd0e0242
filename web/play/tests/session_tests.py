"""The session of the atlas as lines: pasted in, played, copied out, carried by a link."""
import random
import struct


def drawn_lines(seed, count):
    """Random lines of all commands that the page knows; some are refused, some ask."""
    draw = random.Random(seed)
    lines = ['atlas %d %d' % (draw.randint(100, 900), draw.randint(100, 900))]
    ids = [3, 5, 16777219]
    for number in range(count):
        kind = draw.choice(['alloc'] * 12 + ['free'] * 6 + ['grow', 'clear', 'rearrange', 'resize', 'live', 'holes', 'size', 'empty', 'atlas'])
        sides = '%d %d' % (draw.randint(-1, 120), draw.randint(1, 120))
        if kind == 'alloc':
            lines.append('alloc ' + sides)
            ids.append(draw.randint(0, 4 + number))
        elif kind == 'free':
            lines.append('free %d' % draw.choice(ids))
        elif kind in ('grow', 'resize'):
            lines.append('%s %d %d' % (kind, draw.randint(0, 1200), draw.randint(90, 1200)))
        elif kind == 'atlas' and draw.random() < 0.5:
            lines.append('atlas %d %d %d %d %d %d' % (draw.randint(0, 700), draw.randint(90, 700), draw.randint(0, 9), draw.randint(1, 9),
                                                      draw.randint(-5, 40), draw.randint(30, 300)))
        elif kind != 'atlas':
            lines.append(kind)
    return lines


def test_plays_pasted_lines(page):
    """Random lines of all commands, refused ones among them."""
    for seed in range(12):
        lines = drawn_lines(seed, 60 + 40 * seed)
        page.play(lines)
        assert page.lines() == lines
        page.compare()


def test_plays_the_pictures(page):
    """The sessions of docs/pictures that the page can play."""
    for lines in page.pictures:
        page.play(lines)
        page.compare()


def test_shows_replies(page):
    page.play(['atlas 100 100', 'alloc 20 60', 'holes', 'alloc 160 10', 'free 7', 'grow 10 10'])
    page.wait('document.getElementById("replies").value !== ""')
    page.wait('document.getElementById("replies").value.startsWith("atlas 100 100")')
    assert page.value('replies').split('\n') == [
        'atlas 100 100: ok', 'alloc 20 60: id 3 at 0 0 20 60', 'holes: hole 20 0 100 100; hole 0 60 20 100; holes 2',
        'alloc 160 10: none', 'free 7: refused not live', 'grow 10 10: bad call']


def test_goes_through_the_lines(page):
    """The slider goes to each line, forth and back; what is seen and how full it is are the tool's after so many lines."""
    lines = ['atlas 128 96', 'alloc 48 60', 'alloc 44 40', 'alloc 30 30', 'free 7', 'grow 160 128', 'alloc 50 50', 'rearrange', 'resize 70 70', 'live',
             'clear', 'alloc 9 9']
    page.play(lines)
    shares = page.run('return play.player.session.chart')
    for many in [12, 5, 1, 3, 8, 9, 11, 12, 2]:
        page.run('const field = document.getElementById("line"); field.value = arguments[0]; field.dispatchEvent(new Event("input"))', many)
        live, _ = page.compare()
        assert page.lines() == lines[:many]
        assert page.run('const { undone } = play.player.session; return undone.slice().reverse()') == lines[many:]
        _, size, _, _ = page.tool.boxes(lines[:many])
        share = sum((x1 - x0) * (y1 - y0) for x0, y0, x1, y1 in live.values()) / (size[0] * size[1])
        assert abs(shares[many - 1] - share) < 1e-9, (many, shares[many - 1], share)
        assert page.text('line-told') == '%d of 12, %.1f %% full' % (many, 100 * share)
    page.click('#redo')
    page.compare()
    assert page.lines() == lines[:3]
    page.click('#add')
    page.compare()
    assert page.run('return [play.player.session.chart.length, document.getElementById("line").max]') == [4, '4']


def test_saves_a_picture(page):
    head = page.saved('#save', 'atlas.png')
    wanted = page.run('const { width, height } = document.getElementById("base"); return [width, height]')
    assert head[:8] == b'\x89PNG\r\n\x1a\n' and list(struct.unpack('>II', head[16:24])) == wanted


def test_refuses_bad_lines(page):
    """Each is told with its number, and nothing changes."""
    for line, words in {
            'allo 1 2': 'no command', 'alloc 1': 'not the numbers', 'alloc 1 2 3': 'not the numbers', 'alloc 1  2': 'not the numbers',
            'alloc 2147483648 1': 'not the numbers', 'free -1': 'not the numbers', 'free 4294967296': 'not the numbers',
            'alloc 1.5 2': 'not the numbers', 'take 4 4': 'not to this page', 'replay': 'not to this page', 'from-atlas': 'not to this page',
            'constructor': 'no command', '__proto__': 'no command', ' alloc 1 2': 'no command',
            'atlas 70000 70000': '65536', '<img src=x onerror=alert(1)>': 'no command'}.items():
        before = page.lines()
        page.play(['atlas 50 50', line])
        assert page.trouble().startswith("Line 2 can't be played: ") and words in page.trouble(), (line, page.trouble())
        assert page.lines() == before
        assert page.value('lines').endswith(line)
    page.play(['alloc 3 3'])
    assert 'No line makes an atlas' in page.trouble()
    page.compare()


def test_undo_passes_questions(page):
    page.play(['atlas 100 100', 'alloc 20 60', 'holes', 'live'])
    page.click('#undo')
    live, _ = page.compare()
    assert page.lines() == ['atlas 100 100'] and not live


def test_copies_lines(page):
    page.click('#add')
    page.click('#session > summary')
    page.wait('document.getElementById("lines").value !== ""')
    lines = page.lines()
    assert page.value('lines').split('\n') == lines
    page.run('navigator.clipboard.writeText = (text) => { window.copied = text; return Promise.resolve(); }')
    page.click('#copy-lines')
    assert page.wait('window.copied') == '\n'.join(lines) + '\n'
    page.wait('document.getElementById("copy-lines").textContent === "Copied"')
    page.run('navigator.clipboard.writeText = () => Promise.reject(new Error("no"))')
    page.click('#copy-link')
    page.wait('document.getElementById("copy-link").textContent === "Copy it from the address bar"')


def test_link_carries_the_session(page):
    page.play(drawn_lines(77, 300))
    lines, boxes = page.lines(), page.compare()
    page.click('#copy-link')
    fragment = page.wait('location.hash')
    assert fragment.startswith('#z=')
    page.open(fragment)
    page.wait('play.player.session.lines.length === %d' % len(lines))
    assert page.lines() == lines and page.compare() == boxes


def test_plain_link(page):
    """One without deflating, as a browser writes that can't, or a person; and broken ones."""
    page.open('#s=YXRsYXMgMTAwIDEwMAphbGxvYyAyMCA2MA')
    live, _ = page.compare()
    assert page.lines() == ['atlas 100 100', 'alloc 20 60'] and live == {3: (0, 0, 20, 60)}
    for broken in ['#z=YXRs', '#s=_____w', '#z=']:
        page.open(broken)
        page.wait('!document.getElementById("trouble").hidden')
        page.compare()
    page.open('#elsewhere')
    assert page.trouble() == '' and len(page.compare()[0]) == 16
