"""The whole page: tabs, colours, names for screen readers, size, speed."""
import os
import re
import time

NAMELESS = '''return [...document.querySelectorAll('button, input, select, textarea, canvas, [role]')].filter((each) => {
  if (each.getAttribute('aria-hidden') === 'true' || each.id === 'said') return false;
  const by = each.getAttribute('aria-labelledby');
  const name = each.getAttribute('aria-label') || (by && document.getElementById(by)?.textContent) || each.textContent.trim()
    || [...(each.labels ?? [])].map((label) => label.textContent.trim()).join('');
  return !name && each.id !== 'trouble';
}).map((each) => each.outerHTML)'''
CONTRAST = '''const light = (text) => {
    const [r, g, b] = text.match(/[0-9.]+/g).map((word) => Number(word) / 255)
      .map((value) => (value <= 0.04045 ? value / 12.92 : ((value + 0.055) / 1.055) ** 2.4));
    return 0.2126 * r + 0.7152 * g + 0.0722 * b;
  };
  const behind = (each) => {
    for (let at = each; at; at = at.parentElement) {
      const colour = getComputedStyle(at).backgroundColor;
      if (!/, 0\\)$/.test(colour)) return colour;
    }
    return 'rgb(255, 255, 255)';
  };
  return [...document.querySelectorAll('p, button, label, summary, h1, h2, dt, dd, li, figcaption')]
    .filter((each) => each.offsetParent && !each.disabled && each.textContent.trim()).map((each) => {
      const [one, other] = [getComputedStyle(each).color, behind(each)].map(light).sort((a, b) => b - a);
      return [(one + 0.05) / (other + 0.05), each.textContent.trim().slice(0, 40)];
    }).filter(([ratio]) => ratio < 4.5)'''


def test_tabs(page):
    for name in ['cache', 'sheet', 'atlas']:
        page.click('#tab-' + name)
        assert page.run('return [...document.querySelectorAll("[role=tabpanel]")].filter((each) => !each.hidden).map((each) => each.id)') \
            == ['panel-' + name]
    page.run('document.getElementById("tab-atlas").focus()')
    for name in ['cache', 'sheet', 'atlas']:
        page.browser.press('ArrowRight')
        assert page.run('return document.activeElement.id') == 'tab-' + name
        assert page.run('return document.querySelector("[role=tab][aria-selected=true]").id') == 'tab-' + name
    page.browser.press('ArrowLeft')
    assert page.run('return document.activeElement.id') == 'tab-sheet'
    page.click('#tab-atlas')
    page.compare()


def test_tab_in_the_address(page):
    """The address names the tab, and chooses it."""
    for name in ['cache', 'sheet']:
        page.open('#' + name)
        assert page.run('return document.querySelector("[role=tab][aria-selected=true]").id') == 'tab-' + name
        page.run('location.hash = "atlas"')
        page.wait('!document.getElementById("panel-atlas").hidden')
        page.click('#tab-' + name)
        assert page.run('return location.hash') == '#' + name
    page.click('#tab-atlas')
    assert page.run('return location.hash') == ''


def test_nothing_is_pressed_before_the_module_is_there(page):
    """The page as it comes takes no clicks; once the module runs it does. Where it can't be loaded, that is said, and stays so."""
    assert page.run('return document.querySelector("main").inert') is False
    assert '<main inert' in page.sent()
    missing = page.address.replace('/built/', '/nomodule/')
    page.browser.open(missing)
    page.wait('!document.getElementById("trouble").hidden')
    assert 'could not be loaded' in page.trouble() and '404' in page.trouble()
    assert page.run('return document.querySelector("main").inert')
    page.open()
    page.run('window.faults = []')
    page.browser.told()


def test_colours(page):
    """The switch turns page and canvas; it is kept; the colours are those of the pictures."""
    for name, live in [('dark', page.colours[1]), ('light', page.colours[0])]:
        page.click('#theme')
        page.settle()
        assert page.run('return document.documentElement.dataset.theme') == name
        assert page.run('return play.player.drawing.colours.live') == live
        page.compare()
        page.open()
        assert page.run('return document.documentElement.dataset.theme') == name
        page.compare()
        for tab in ['cache', 'sheet', 'atlas']:
            page.click('#tab-' + tab)
            assert page.run(CONTRAST) == [], (name, tab)
    page.run('localStorage.clear()')


def test_colours_of_the_system(page):
    if not hasattr(page.browser, 'colours'):
        return
    page.run('localStorage.clear()')
    for name in ['dark', 'light']:
        page.browser.colours(name)
        page.wait('document.documentElement.dataset.theme === "%s"' % name)
        page.compare()


def test_names(page):
    """Each control has a name, and ids stand once."""
    for name in ['cache', 'sheet', 'atlas']:
        page.click('#tab-' + name)
        assert page.run(NAMELESS) == []
    assert page.run('const ids = [...document.querySelectorAll("[id]")].map((each) => each.id);'
                    'return ids.filter((id, at) => ids.indexOf(id) !== at)') == []
    assert page.run('return document.documentElement.lang') == 'en'


def test_size(page):
    """What the page loads: itself and the module, under 254 kB together, and under 100.5 by gzip."""
    names = page.run('return performance.getEntriesByType("resource").map((each) => each.name)')
    names = [name for name in names if name.startswith('http')]
    plain, packed = page.measure([page.address] + names)
    assert [name.split('/')[-1] for name in names] == ['wollemigo.wasm'], names
    assert plain < 262800 and packed < 104200, (plain, packed)
    page.notes.append('%s loads two files: %d bytes, %d packed by gzip' % (page.browser.name, plain, packed))


def test_sources(page):
    """The sources as they are, a file each."""
    page.address = page.address.replace('/built/', '/play/')
    try:
        page.open()
        page.click('#add-many')
        page.compare()
        for name in ['cache', 'sheet', 'atlas']:
            page.click('#tab-' + name)
        assert page.run('return performance.getEntriesByType("resource").length') > 20
    finally:
        page.address = page.address.replace('/play/', '/built/')


def frames_a_second(page):
    """The best of some measurements, since other work on the machine may take a part of one."""
    rate = 0
    for _ in range(4):
        page.run('''window.rate = 0; let frames = 0; const begun = performance.now();
          const next = () => { frames += 1; if (performance.now() - begun < 3000) requestAnimationFrame(next);
            else window.rate = frames / (performance.now() - begun) * 1000; };
          requestAnimationFrame(next)''')
        rate = max(rate, page.wait('window.rate'))
        if rate >= 30:
            break
    return rate


def test_fifty_thousand_boxes(page):
    """While thousands of calls a second are made a frame draws what changed alone; all are where the tool says. How many frames there
    are in a second is told, and not asked: that is the machine's."""
    page.play(['atlas 2048 2048'] + ['alloc %d %d' % (5 + number % 7, 4 + number * 5 % 9) for number in range(50000)])
    page.wait('play.player.session.live.size === 50000')
    page.click('#session > summary')
    page.browser.choose('#kind', 'own')
    page.browser.fill('#own-width', '6')
    page.browser.fill('#own-height', '6')
    page.settle()
    counts = 'return [play.player.calls, play.player.drawing.drawn]'
    calls, drawn = page.run(counts)
    page.run('const field = document.getElementById("speed"); field.value = 40; field.dispatchEvent(new Event("input"))')
    page.click('#run')
    page.wait('play.player.calls > %d' % (calls + 3000))
    rate = frames_a_second(page)
    page.click('#run')
    page.wait('!play.player.isRunning')
    page.settle()
    more_calls, more_drawn = page.run(counts)
    assert more_drawn - drawn <= 4 * (more_calls - calls), (more_calls - calls, more_drawn - drawn)
    page.notes.append('%s draws %.0f frames a second with 50,000 boxes and 10,000 calls a second, at load %.0f'
                      % (page.browser.name, rate, os.getloadavg()[0]))
    live, holes = page.compare()
    assert len(live) > 45000
    begun = time.time()
    page.click('#undo')
    page.settle()
    page.notes.append('%s takes %.1f s to undo there' % (page.browser.name, time.time() - begun))
    page.compare()


def test_words(page):
    """No line of the page's text names what a person can't see."""
    text = page.run('return document.body.textContent')
    assert not re.search(r'undefined|NaN|\[object', text)


STILL = """const note = document.getElementById('still');
    return note ? [getComputedStyle(note).visibility, note.textContent.replace(/\\s+/g, ' ')] : null"""


def test_what_stands_still_says_why(page):
    """Where the script can't run, from the disk or under a policy, the page says so after a while; else it says nothing. From the disk a
    browser may run it all the same."""
    assert page.run(STILL) is None
    sources = os.path.dirname(os.path.dirname(os.path.abspath(__file__)))
    for name in ('how.html', 'index.html'):
        for address in ('file://' + os.path.join(sources, name), page.address.replace('/built/', '/policy/') + name):
            page.browser.open('about:blank')
            page.browser.open(address)
            page.wait("!!window.how || !!window.play || document.getElementById('still')"
                      " && getComputedStyle(document.getElementById('still')).visibility === 'visible'", 20)
            note = page.run(STILL)
            assert note is None and address.startswith('file:') and page.browser.name == 'Firefox' \
                or 'web/play/build --alone' in note[1] and 'script-src' in note[1], (address, note)
    page.browser.told()
    page.open()


def test_one_file_from_the_disk(page):
    """Made by --alone, each page opens from the disk and does what it does elsewhere."""
    folder = page.alone()
    page.browser.open('file://' + os.path.join(folder, 'how.html'))
    page.wait('!!window.how')
    assert page.run('return [how.pick.shown.picked !== null, document.getElementById("still")]') == [True, None]
    page.browser.open('about:blank')
    page.browser.open('file://' + os.path.join(folder, 'index.html'))
    page.wait('!!window.play')
    page.settle()
    page.click('#add-many')
    page.compare()
    assert sorted(os.listdir(folder)) == ['how.html', 'index.html']
    page.open()
