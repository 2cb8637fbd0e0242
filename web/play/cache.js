// The tab of the cache: a text scrolls by, and each of its glyphs is drawn from the pages of a cache.
import { TextureCache } from './library.js';
import { TEXT, Text } from './glyphs.js';
import { Pages } from './pages.js';
import { count, find, make, numberOf, say, time, trouble } from './page.js';

const LOGGED = 200;
const PAUSE = 200;
let shown;

class Scroll {
  constructor() {
    this.canvas = find('cache-text');
    this.on = this.canvas.getContext('2d');
    this.source = TEXT;
    this.isRunning = false;
    this.begin();
  }

  begin() {
    const page = Number(find('cache-page').value);
    const largest = Math.max(page, Number(find('cache-largest').value));
    find('cache-largest').value = largest;
    this.cache?.dispose();
    this.cache = new TextureCache({
      page: { width: page, height: page }, largestPage: { width: largest, height: largest },
      pages: numberOf(find('cache-pages')), padding: numberOf(find('cache-padding')),
    });
    this.pages = new Pages();
    this.pixel = window.devicePixelRatio || 1;
    this.text = new Text(this.on, this.source, find('cache-sizes').value, this.pixel);
    Object.assign(this, { first: 0, offset: 0, moved: 0, unplaced: 0, repacked: 0, calls: 0, milliseconds: 0, log: [] });
    find('cache-log').replaceChildren();
    this.frame();
  }

  // The place of a glyph, put into the cache where it isn't held; null where it can't be.
  place(glyph) {
    const begun = performance.now();
    let place = this.cache.get(glyph.key);
    const isHeld = place !== null;
    if (!isHeld) place = this.insert(glyph);
    this.milliseconds += performance.now() - begun;
    this.calls += 1;
    if (isHeld) return place;
    this.follow();
    if (!place) return null;
    this.pages.put(glyph, place);
    this.note(`in ${glyph.character}  page ${place.page} at ${place.inner.x} ${place.inner.y}`);
    return place;
  }

  insert(glyph) {
    try {
      const { width, height } = glyph;
      const place = this.cache.insert(glyph.key, width, height);
      if (!place) this.unplaced += 1;
      return place;
    } catch (error) {
      if (error.code !== 'NEVER_FITS') throw error;
      this.unplaced += 1;
      return null;
    }
  }

  follow() {
    const changes = [...this.cache.changes()];
    this.pages.follow(changes);
    for (const change of changes) this.tell(change);
    const moved = changes.filter(({ kind }) => kind === 'moved');
    this.moved += moved.length;
    if (moved.length) this.note(`page ${moved[0].to.page} repacked, ${count(moved.length)} moved`);
  }

  tell(change) {
    const { kind, page, width, height } = change;
    if (kind === 'pageAdded') this.note(`page ${page} added, ${width} × ${height}`);
    if (kind === 'pageGrown') this.note(`page ${page} grows to ${width} × ${height}`);
    if (kind === 'evicted') this.note(`out ${[...change.key][0]}  page ${change.from.page}`);
  }

  note(text) {
    this.log.unshift(text);
    this.log.length = Math.min(this.log.length, LOGGED);
  }

  /** One frame: all glyphs that are in sight. */
  frame() {
    const { on } = this;
    const { width, height } = Object.assign(this.canvas, this.size());
    // While the tab is hidden there is nothing to draw on.
    if (width === 0) return;
    on.fillStyle = this.pages.colours.sheet;
    on.fillRect(0, 0, width, height);
    this.cache.beginFrame();
    let y = -this.offset;
    for (let number = this.first; y < height; number += 1) {
      for (const each of this.text.line(number, width)) this.drawGlyph(each, y);
      y += this.text.height(number);
    }
    this.write();
  }

  /** The size of the canvas as it is shown, in the screen's own pixels. */
  size() {
    const { clientWidth, clientHeight } = this.canvas;
    return { width: Math.round(clientWidth * this.pixel), height: Math.round(clientHeight * this.pixel) };
  }

  /** Draws once more where the canvas is shown in another size, and begins anew on a screen with other pixels. */
  fit() {
    if (this.canvas.clientWidth === 0) return;
    const { width, height } = this.size();
    if (this.pixel !== (window.devicePixelRatio || 1)) this.begin();
    else if (this.canvas.width !== width || this.canvas.height !== height) this.frame();
  }

  drawGlyph({ glyph, x, y }, top) {
    const place = this.place(glyph);
    if (!place) return;
    const { texture } = this.pages.pages[place.page];
    const { inner } = place;
    const at = [x - glyph.left, Math.round(top) + y - glyph.up];
    this.on.drawImage(texture, inner.x, inner.y, inner.width, inner.height, ...at, inner.width, inner.height);
  }

  scroll(pixels) {
    this.offset += pixels;
    while (this.offset >= this.text.height(this.first)) {
      this.offset -= this.text.height(this.first);
      this.first += 1;
    }
    this.frame();
  }

  run(isRunning) {
    this.isRunning = isRunning;
    find('cache-run').textContent = isRunning ? 'Stop' : 'Scroll';
    find('cache-run').setAttribute('aria-pressed', String(isRunning));
    let before = performance.now();
    const next = (now) => {
      if (!this.isRunning) return;
      this.scroll(Math.max(0, Math.min(200, Number(find('cache-speed').value) * 10 * this.pixel * (now - before) / 1000)));
      before = now;
      requestAnimationFrame(next);
    };
    if (isRunning) requestAnimationFrame(next);
  }

  repack() {
    const { pageCount } = this.cache;
    if (pageCount === 0) return;
    const page = this.repacked % pageCount;
    this.repacked += 1;
    this.cache.repack(page);
    this.follow();
    this.frame();
    say(`Page ${page} was repacked.`);
  }

  /** The counts, as they are told. */
  counts() {
    const { hits, misses, evictions, forced } = this.cache.statistics;
    const share = hits + misses ? `${(100 * hits / (hits + misses)).toFixed(1)} %` : '-';
    return {
      hits: count(hits), misses: count(misses), 'hit rate': share, evicted: count(evictions), forced: count(forced),
      moved: count(this.moved), 'without room': count(this.unplaced), glyphs: count(this.cache.length),
      pages: count(this.cache.pageCount),
    };
  }

  write() {
    clearTimeout(this.later);
    const wait = (this.written ?? 0) + PAUSE - performance.now();
    if (wait > 0) {
      this.later = setTimeout(() => this.write(), wait);
      return;
    }
    this.written = performance.now();
    const rows = Object.entries(this.counts()).flatMap(([name, value]) =>
      [make('dt', { textContent: name }), make('dd', { textContent: value })]);
    find('cache-counts').replaceChildren(...rows);
    find('cache-log').replaceChildren(...this.log.map((text) => make('li', { textContent: text })));
    if (!find('panel-cache').hidden) writeCounts();
  }

  redraw() {
    this.pages.recolour();
    this.frame();
  }
}

export function stop() {
  if (shown?.isRunning) shown.run(false);
}

export function writeCounts() {
  if (!shown) return;
  shown.fit();
  const told = shown.counts();
  const pages = told.pages === '1' ? '1 page' : `${told.pages} pages`;
  find('counts').textContent = `${told.glyphs} glyphs on ${pages} · ${told['hit rate']} hits`;
  find('times').textContent = `a glyph ${shown.calls ? time(shown.milliseconds / shown.calls) : '-'}`;
}

function again() {
  trouble(null);
  shown.begin();
  say('The cache starts over.');
}

// A screen with more pixels takes larger glyphs, and they take larger pages.
function setPages() {
  const pixel = window.devicePixelRatio || 1;
  if (pixel <= 1) return;
  find('cache-page').value = 256;
  find('cache-largest').value = pixel > 2 ? 1024 : 512;
}

export function start() {
  setPages();
  shown = new Scroll();
  find('cache-own').value = TEXT;
  new ResizeObserver(() => shown.fit()).observe(find('cache-text'));
  find('cache-run').addEventListener('click', () => shown.run(!shown.isRunning));
  find('cache-step').addEventListener('click', () => shown.scroll(shown.text.height(shown.first) - shown.offset));
  find('cache-repack').addEventListener('click', () => shown.repack());
  find('cache-new').addEventListener('click', again);
  for (const id of ['cache-page', 'cache-largest', 'cache-pages', 'cache-padding', 'cache-sizes']) {
    find(id).addEventListener('change', again);
  }
  find('cache-take').addEventListener('click', () => {
    if (find('cache-own').value.trim() === '') return trouble('There is no text to scroll.');
    shown.source = find('cache-own').value;
    return again();
  });
  const setSpeed = () => {
    find('cache-speed-told').textContent = `${find('cache-speed').value * 10} pixels a second`;
  };
  find('cache-speed').addEventListener('input', setSpeed);
  setSpeed();
  return shown;
}
