"""The tab of the cache: what is shown is what the cache tells, and a glyph's pixels lie where its place is."""
import time

# What the page has of each key beside what the cache tells, the sizes of the pages, and the counts.
STATE = '''const { cache, pages, moved, unplaced } = play.cache;
  const flat = (place) => place && [place.page, ...['rectangle', 'inner'].flatMap((name) =>
    ['x', 'y', 'width', 'height'].map((side) => place[name][side]))];
  return {
    entries: [...pages.places].map(([key, { place }]) => [key, flat(place), flat(cache.peek(key))]), length: cache.length,
    sizes: pages.pages.map(({ texture, shown }, page) =>
      [texture.width, texture.height, shown.width, shown.height, cache.pageSize(page).width, cache.pageSize(page).height]),
    pageCount: cache.pageCount, statistics: cache.statistics, moved, unplaced,
  };'''


def compare(page):
    state = page.run(STATE)
    assert len(state['entries']) == state['length'] and len(state['sizes']) == state['pageCount']
    for key, mine, told in state['entries']:
        assert mine == told, (key, mine, told)
    for size in state['sizes']:
        assert size[0:2] == size[2:4] == size[4:6], size
    places = [each[1] for each in state['entries']]
    for number, one in enumerate(places):
        assert one[5] >= one[1] and one[5] + one[7] <= one[1] + one[3] <= state['sizes'][one[0]][0]
        for other in places[:number]:
            assert one[0] != other[0] or one[1] >= other[1] + other[3] or other[1] >= one[1] + one[3] \
                or one[2] >= other[2] + other[4] or other[2] >= one[2] + one[4], 'places overlap'
    compare_glyphs(page)
    return state


def compare_glyphs(page):
    """Each glyph's texture has the pixels of the glyph drawn afresh; what no entry has is empty."""
    wrong = page.run('''const wrong = [];
      for (const [key, { glyph, place }] of play.cache.pages.places) {
        const { x, y, width, height } = place.inner;
        const texture = play.cache.pages.pages[place.page].texture.getContext('2d').getImageData(x, y, width, height).data;
        const fresh = Object.assign(document.createElement('canvas'), { width, height }).getContext('2d');
        fresh.font = glyph.font;
        fresh.fillStyle = play.cache.pages.colours.ink;
        fresh.fillText(glyph.character, glyph.left, glyph.up);
        const wanted = fresh.getImageData(0, 0, width, height).data;
        let ink = 0, far = 0;
        for (let at = 3; at < wanted.length; at += 4) {
          ink += wanted[at];
          far += Math.abs(wanted[at] - texture[at]);
        }
        if (far > 0.02 * ink || ink === 0) wrong.push([key, ink, far]);
      }
      return wrong;''')
    assert wrong == [], wrong


def shown(page):
    names, values = page.run('return ["dt", "dd"].map((name) => [...document.querySelectorAll(`#cache-counts ${name}`)]'
                             '.map((each) => each.textContent))')
    return {name: value.replace(',', '') for name, value in zip(names, values)}


def still(page):
    time.sleep(0.3)


def begin(shown_page, **chosen):
    shown_page.click('#tab-cache')
    for name, value in chosen.items():
        if name in ('pages', 'padding'):
            shown_page.browser.fill('#cache-' + name, str(value))
        else:
            shown_page.browser.choose('#cache-' + name, str(value))
    shown_page.click('#cache-new')


def test_scrolls(page):
    begin(page)
    page.run('const field = document.getElementById("cache-speed"); field.value = 40; field.dispatchEvent(new Event("input"))')
    assert page.text('cache-speed-told') == '400 pixels a second'
    page.click('#cache-run')
    page.wait('play.cache.cache.statistics.evictions > 0')
    page.click('#cache-run')
    assert page.text('cache-run') == 'Scroll'
    still(page)
    state = compare(page)
    told = shown(page)
    for name, value in {'hits': state['statistics']['hits'], 'misses': state['statistics']['misses'],
                        'evicted': state['statistics']['evictions'], 'forced': state['statistics']['forced'],
                        'glyphs': state['length'], 'pages': state['pageCount']}.items():
        assert told[name] == str(value), (name, told)
    assert state['pageCount'] == 2 and state['statistics']['hits'] > state['statistics']['misses']
    page.wait('document.getElementById("counts").textContent.includes("%d glyphs on 2 pages")' % state['length'])


def test_steps_by_a_line(page):
    begin(page)
    for _ in range(5):
        before = page.run('return play.cache.first')
        page.click('#cache-step')
        assert page.run('return [play.cache.first, play.cache.offset]') == [before + 1, 0]
        compare(page)


def test_repacks(page):
    begin(page, sizes=12, pages=1)
    for _ in range(30):
        page.click('#cache-step')
    before = compare(page)
    page.click('#cache-repack')
    still(page)
    after = compare(page)
    assert after['moved'] > 0 and after['length'] <= before['length'] + 60
    page.wait('document.getElementById("cache-log").textContent.includes("page 0 repacked, ")')


def test_pages_grow_and_keys_go(page):
    for largest, pages, padding in [(64, 1, 0), (128, 3, 2), (512, 2, 16)]:
        begin(page, page=64, largest=largest, pages=pages, padding=padding, sizes=4)
        for _ in range(24):
            page.click('#cache-step')
        state = compare(page)
        assert state['pageCount'] <= pages and all(each[0] <= largest for each in state['sizes'])
    begin(page, page=512, largest=64)
    assert page.value('cache-largest') == '512'
    compare(page)


def test_small_cache_has_no_room(page):
    """More glyphs in sight than a page takes: some find no room, and that is told."""
    begin(page, page=64, largest=64, pages=1, padding=4, sizes=12)
    for _ in range(10):
        page.click('#cache-step')
    still(page)
    state = compare(page)
    assert state['unplaced'] > 0 and shown(page)['without room'] == str(state['unplaced'])


def test_own_text(page):
    begin(page, sizes=1)
    page.click('#panel-cache details summary')
    page.browser.fill('#cache-own', 'aab \U0001d11e')
    page.click('#cache-take')
    still(page)
    state = compare(page)
    characters = sorted({key[0] for key, _, _ in state['entries']})
    assert characters[:2] == ['a', 'b'], characters
    page.browser.fill('#cache-own', ' ')
    page.click('#cache-take')
    assert 'no text' in page.trouble()


def test_text_is_drawn(page):
    begin(page)
    ink = page.run('const canvas = document.getElementById("cache-text"); const { data } = canvas.getContext("2d")'
                   '.getImageData(0, 0, canvas.width, canvas.height); let ink = 0;'
                   'for (let at = 0; at < data.length; at += 4) ink += data[at] < 100; return ink')
    assert ink > 1000


def test_text_is_not_stretched(page):
    """The canvas has a pixel for each of the screen's, as soon as its tab is opened, and where the window's width changes."""
    sizes = '''const { width, height, clientWidth, clientHeight } = document.getElementById('cache-text');
        return [width, height, Math.round(clientWidth * devicePixelRatio), Math.round(clientHeight * devicePixelRatio)]'''
    page.click('#tab-cache')
    for wide in (None, 700, 1280):
        if wide:
            page.browser.size(wide, 900)
            time.sleep(0.4)
        width, height, shown_width, shown_height = page.run(sizes)
        assert width == shown_width > 300 and height == shown_height > 100, (wide, page.run(sizes))
    test_text_is_drawn(page)


def test_glyphs_are_as_sharp_as_the_screen(page):
    """On a screen with more pixels the glyphs have more: the text's line is as many times higher."""
    begin(page, sizes=1)
    ratio = page.run('return devicePixelRatio')
    heights = page.run('return [...play.cache.text.sizes]')
    assert heights == [round(22 * ratio)], (ratio, heights)


def test_stops_with_its_tab(page):
    begin(page)
    page.click('#cache-run')
    page.click('#tab-atlas')
    assert page.run('return play.cache.isRunning') is False
    page.click('#run')
    page.click('#tab-cache')
    assert page.run('return play.player.isRunning') is False


def test_a_texel_is_a_pixel(page):
    """The page's canvas takes as many pixels of the page as the texture has texels."""
    page.click('#tab-cache')
    page.click('#cache-step')
    sizes = page.run("""return [...document.querySelectorAll('#cache-pages-shown canvas')].map((canvas) => {
      const { borderLeftWidth, borderTopWidth } = getComputedStyle(canvas), { width, height } = canvas.getBoundingClientRect();
      return [width - 2 * parseFloat(borderLeftWidth) - canvas.width, height - 2 * parseFloat(borderTopWidth) - canvas.height];
    })""")
    assert sizes and all(each == [0, 0] for each in sizes), sizes
