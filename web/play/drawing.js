// The atlas on two canvases, one above the other. The lower one has all boxes, and only what changed is drawn on it; the upper
// one has what is pointed at.
const LABEL = 11;
const SHARE = 8; // of the time, one part goes into comparing free boxes
const MOST = 4096; // pixels of the screen that a side of the canvas has
const CELLS = 256; // along each side: what was drawn roughly is kept account of by these

/** The colours of the page, as the style sheet has them now. */
export function colours() {
  const style = getComputedStyle(document.documentElement);
  const names = ['sheet', 'live', 'hatch', 'edge', 'ink', 'new', 'accent'];
  return Object.fromEntries(names.map((name) => [name, style.getPropertyValue(`--${name}`).trim()]));
}

/** A pattern for what is free, as in the repository's pictures. */
export function hatching(context, { sheet, hatch }, pixel) {
  const tile = document.createElement('canvas');
  const side = Math.max(4, Math.round(7 * pixel));
  tile.width = tile.height = side;
  const on = tile.getContext('2d');
  on.fillStyle = sheet;
  on.fillRect(0, 0, side, side);
  on.strokeStyle = hatch;
  on.lineWidth = pixel;
  for (const at of [-side, 0, side]) {
    on.beginPath();
    on.moveTo(at - 1, side + 1);
    on.lineTo(at + side + 1, -1);
    on.stroke();
  }
  return context.createPattern(tile, 'repeat');
}

export class Drawing {
  constructor(base, over) {
    this.base = base;
    this.over = over;
    this.on = base.getContext('2d', { alpha: false });
    this.above = over.getContext('2d');
    this.known = new Map();
    this.shown = null;
    this.motion = null;
    this.drawn = 0; // boxes so far
    this.rough = new Uint8Array(CELLS * CELLS);
  }

  /** Fits the canvases to a room, in pixels of the page, and has all drawn anew. */
  fit(session, room) {
    const pixel = window.devicePixelRatio || 1;
    const most = MOST / (pixel * Math.max(session.width, session.height));
    const scale = Math.min(room.width / session.width, room.height / session.height, most);
    const wide = Math.max(1, Math.round(session.width * scale * pixel));
    const high = Math.max(1, Math.round(session.height * scale * pixel));
    for (const canvas of [this.base, this.over]) {
      if (canvas.width !== wide) canvas.width = wide;
      if (canvas.height !== high) canvas.height = high;
      canvas.style.width = `${wide / pixel}px`;
      canvas.style.height = `${high / pixel}px`;
    }
    this.pixel = Math.max(1, Math.round(pixel));
    this.across = wide / session.width;
    this.down = high / session.height;
    this.colours = colours();
    this.hatch = hatching(this.on, this.colours, this.pixel);
    this.shown = null;
  }

  /**
   * Draws what changed since the last time, or where all is on its way to that. While the atlas runs, the edges of free boxes are compared
   * only as often as that takes no more than a part of the time.
   */
  draw(session, isRunning, now) {
    if (!this.hatch) return;
    if (this.motion?.draw(this, session, now)) {
      this.shown = session;
      return;
    }
    this.motion = null;
    const begun = performance.now();
    if (!session.isNew && this.shown === session && isRunning && begun < this.next) {
      this.drawQuickly(session);
    } else {
      this.drawExactly(session);
      this.next = begun + SHARE * (performance.now() - begun);
    }
    session.isNew = false;
    session.added = [];
    session.freed = [];
    this.shown = session;
  }

  // New boxes, and what was freed without the edges that it has now.
  drawQuickly(session) {
    this.on.fillStyle = this.hatch;
    for (const box of session.freed) this.on.fillRect(...this.place(box));
    for (const box of session.freed) this.roughen(session, box);
    for (const box of session.added) this.roughen(session, box);
    const boxes = session.added.filter((box) => session.live.get(box.id) === box);
    this.drawBoxes(boxes, this.colours.live, true);
  }

  // The cells of a box: left, top, and right and bottom behind the last.
  cells({ width, height }, { x0, y0, x1, y1 }) {
    const across = CELLS / width, down = CELLS / height;
    return [Math.floor(x0 * across), Math.floor(y0 * down), Math.ceil(x1 * across), Math.ceil(y1 * down)];
  }

  roughen(session, box) {
    const [left, top, right, bottom] = this.cells(session, box);
    for (let row = top; row < bottom; row += 1) this.rough.fill(1, row * CELLS + left, row * CELLS + right);
  }

  // Whether something was drawn over a free box that is as it was before.
  isRough(session, hole) {
    const [left, top, right, bottom] = this.cells(session, hole);
    for (let row = top; row < bottom; row += 1) {
      for (let at = row * CELLS + left; at < row * CELLS + right; at += 1) if (this.rough[at]) return true;
    }
    return false;
  }

  drawExactly(session) {
    const isWhole = session.isNew || this.shown !== session;
    const known = new Map();
    const fresh = [];
    for (const hole of session.free()) {
      const key = hole.y0 * session.width + hole.x0;
      const was = this.known.get(key);
      known.set(key, hole);
      if (isWhole || !was || was.x1 !== hole.x1 || was.y1 !== hole.y1 || this.isRough(session, hole)) fresh.push(hole);
    }
    this.known = known;
    this.rough.fill(0);
    const boxes = isWhole ? session.live.values() : session.added.filter((box) => session.live.get(box.id) === box);
    this.drawBoxes(fresh, this.hatch, false);
    this.drawBoxes(boxes, this.colours.live, true);
  }

  // Where a box lies on the canvas: left, top, width, height.
  place(box) {
    const x = Math.round(box.x0 * this.across), y = Math.round(box.y0 * this.down);
    return [x, y, Math.round(box.x1 * this.across) - x, Math.round(box.y1 * this.down) - y];
  }

  /** A box's right and lower edge are those of its neighbours, unless it is framed. */
  drawBoxes(boxes, fill, hasLabel, isFramed = false) {
    const { on, pixel } = this;
    const labelled = [];
    for (const box of boxes) {
      this.drawn += 1;
      const [x, y, wide, high] = this.place(box);
      const isThin = wide < 3 * pixel || high < 3 * pixel;
      if (!isThin) {
        on.fillStyle = this.colours.edge;
        on.fillRect(x, y, wide + (isFramed ? pixel : 0), high + (isFramed ? pixel : 0));
      }
      const edge = isThin ? 0 : pixel;
      on.fillStyle = box.fill ?? fill;
      on.fillRect(x + edge, y + edge, wide - edge, high - edge);
      if (hasLabel && high > (LABEL + 4) * pixel && wide > 20 * pixel) labelled.push([box.id, x, y, wide, high]);
    }
    this.label(labelled);
  }

  label(boxes) {
    const { on, pixel } = this;
    on.fillStyle = this.colours.ink;
    on.textAlign = 'center';
    on.textBaseline = 'middle';
    on.font = `${LABEL * pixel}px sans-serif`;
    for (const [id, x, y, wide, high] of boxes) {
      const text = String(id);
      if (text.length * LABEL * 0.6 * pixel < wide - 4 * pixel) on.fillText(text, x + wide / 2, y + high / 2);
    }
  }

  /** Draws outlines above the atlas: of each entry its box, and whether it is dashed. */
  point(entries) {
    const { above, pixel } = this;
    above.clearRect(0, 0, this.over.width, this.over.height);
    above.strokeStyle = this.colours.accent;
    for (const [box, isDashed] of entries) {
      const [x, y, wide, high] = this.place(box);
      above.lineWidth = 2 * pixel;
      above.setLineDash(isDashed ? [5 * pixel, 4 * pixel] : []);
      above.strokeRect(x + pixel, y + pixel, Math.max(1, wide - pixel), Math.max(1, high - pixel));
    }
  }
}

/** The box, live or free, at a position of the atlas. */
export function boxAt(session, x, y) {
  const has = (box) => x >= box.x0 && x < box.x1 && y >= box.y0 && y < box.y1;
  for (const box of session.live.values()) if (has(box)) return box;
  return session.free().find(has) ?? null;
}
