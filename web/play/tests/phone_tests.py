"""On a phone's screen, by a finger."""


def test_nothing_is_wider_than_the_screen(page):
    for name in ['cache', 'sheet', 'atlas']:
        page.click('#tab-' + name)
        if name == 'sheet':
            page.browser.choose('#sheet-greatest', '128')
            page.browser.choose('#sheet-pages', 'several')
        if name == 'atlas':
            page.click('#beside > summary')
            page.click('#beside-measure')
        wide, screen = page.run('return [document.documentElement.scrollWidth, window.innerWidth]')
        assert wide <= screen, (name, wide, screen)
    page.compare()


def test_taps(page):
    """One tap tells of a box, another one frees it."""
    live, _ = page.compare()
    before = page.lines()
    number, (x0, y0, x1, y1) = sorted(live.items())[1]
    page.point((x0 + x1) // 2, (y0 + y1) // 2, click=True, kind='touch')
    page.wait('document.getElementById("told").textContent.includes("Tap it once more to free it.")')
    assert page.lines() == before and page.text('told').startswith('Box %d' % number)
    page.point((x0 + x1) // 2, (y0 + y1) // 2, click=True, kind='touch')
    left, _ = page.compare()
    assert set(live) - set(left) == {number}


def test_buttons_are_large_enough(page):
    """A finger needs some 24 pixels."""
    small = page.run('return [...document.querySelectorAll("button, select, .bar input:not([type=checkbox])")].filter((each) => each.offsetParent'
                     ' && !each.closest("#classes") && each.getBoundingClientRect().height < 24).map((each) => each.outerHTML)')
    assert small == []
