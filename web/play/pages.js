// The pages of a cache: of each its texture, and a picture of it with the places of its entries.
import { colours, hatching } from './drawing.js';
import { find, make } from './page.js';

const WIDE = 400; // pixels of the browser's page that a small page may take

const canvasOf = (width, height) => make('canvas', { width, height });

export class Pages {
  constructor() {
    this.pages = [];
    this.places = new Map();
    this.setColours();
    find('cache-pages-shown').replaceChildren();
  }

  setColours() {
    this.colours = colours();
  }

  added({ width, height }) {
    const shown = canvasOf(width, height);
    const caption = make('figcaption');
    find('cache-pages-shown').append(make('figure', {}, shown, caption));
    this.pages.push({ texture: canvasOf(width, height), shown, caption });
    this.size(this.pages.length - 1, width, height);
  }

  grown({ page, width, height }) {
    const { texture } = this.pages[page];
    this.pages[page].texture = canvasOf(width, height);
    this.pages[page].texture.getContext('2d').drawImage(texture, 0, 0);
    this.size(page, width, height);
  }

  size(page, width, height) {
    const { shown, caption } = this.pages[page];
    Object.assign(shown, { width, height });
    // Each pixel of a page takes as many whole ones of the screen as have room.
    const pixel = window.devicePixelRatio || 1;
    shown.style.width = `${width * Math.max(1, Math.floor(WIDE * pixel / width)) / pixel}px`;
    shown.setAttribute('role', 'img');
    shown.setAttribute('aria-label', `Page ${page}, ${width} by ${height} pixels`);
    caption.textContent = `page ${page}, ${width} × ${height}`;
    this.redrawPage(page);
  }

  redraw() {
    this.setColours();
    this.pages.forEach((_, page) => this.redrawPage(page));
  }

  redrawPage(page) {
    const { shown } = this.pages[page];
    this.free(page, { x: 0, y: 0, width: shown.width, height: shown.height });
    for (const { place } of this.places.values()) if (place.page === page) this.show(place);
  }

  free(page, { x, y, width, height }) {
    const on = this.pages[page].shown.getContext('2d');
    on.fillStyle = hatching(on, this.colours, 1);
    on.fillRect(x, y, width, height);
  }

  show({ page, rectangle, inner }) {
    const { shown, texture } = this.pages[page];
    const on = shown.getContext('2d');
    on.fillStyle = this.colours.edge;
    on.fillRect(rectangle.x, rectangle.y, rectangle.width, rectangle.height);
    on.fillStyle = this.colours.live;
    on.fillRect(rectangle.x + 1, rectangle.y + 1, rectangle.width - 1, rectangle.height - 1);
    on.drawImage(texture, inner.x, inner.y, inner.width, inner.height, inner.x, inner.y, inner.width, inner.height);
  }

  /** Draws a glyph into its place. */
  put(glyph, place) {
    const { key, character, font, left, up } = glyph;
    const on = this.pages[place.page].texture.getContext('2d');
    const { x, y, width, height } = place.inner;
    on.clearRect(x, y, width, height);
    on.save();
    on.beginPath();
    on.rect(x, y, width, height);
    on.clip();
    on.font = font;
    on.fillStyle = this.colours.ink;
    on.fillText(character, x + left, y + up);
    on.restore();
    this.places.set(key, { glyph, place });
    this.show(place);
  }

  /** Draws all glyphs once more, in the colours of now. */
  recolour() {
    this.setColours();
    for (const { glyph, place } of this.places.values()) this.put(glyph, place);
    this.redraw();
  }

  gone({ key, from }) {
    this.places.delete(key);
    this.free(from.page, from.rectangle);
  }

  /** All that moved on a page by one repacking. Pixels are copied from the page as it was. */
  moved(page, changes) {
    const now = this.pages[page];
    const was = now.texture;
    now.texture = canvasOf(was.width, was.height);
    const on = now.texture.getContext('2d');
    for (const { key, from, to } of changes) {
      const { x, y, width, height } = from.inner;
      on.drawImage(was, x, y, width, height, to.inner.x, to.inner.y, width, height);
      this.places.get(key).place = to;
    }
    this.redrawPage(page);
  }

  /** Follows changes of the cache, in their order. */
  follow(changes) {
    const moved = new Map();
    for (const change of changes) {
      if (change.kind === 'pageAdded') this.added(change);
      else if (change.kind === 'pageGrown') this.grown(change);
      else if (change.kind === 'evicted') this.gone(change);
      else moved.set(change.to.page, [...(moved.get(change.to.page) ?? []), change]);
    }
    for (const [page, each] of moved) this.moved(page, each);
  }
}
