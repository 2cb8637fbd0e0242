// Packers to hold an atlas beside, in the few lines of their usual forms, all written here: skyline, shelf, maximal rectangles.
import { Skyline } from '../bench/skyline.js';

/** A skyline packer that grows. What is freed is lost to it. */
export class GrowingSkyline extends Skyline {
  reset(width, height) {
    Object.assign(this, { width, height, steps: [{ x: 0, y: 0, width }] });
  }

  grow(width, height) {
    if (width > this.width) this.steps.push({ x: this.width, y: 0, width: width - this.width });
    Object.assign(this, { width: Math.max(width, this.width), height: Math.max(height, this.height) });
  }

  free() {}
}

/**
 * A shelf packer: a box takes the smallest place that was freed and is large enough, whole; else it stands at the end of the shelf that is
 * the least too high for it; else it begins a shelf, which is as high as it is.
 */
export class Shelves {
  constructor(width, height) {
    this.reset(width, height);
  }

  reset(width, height) {
    Object.assign(this, { width, height, shelves: [], top: 0, places: [] });
  }

  allocate(width, height) {
    const place = this.#freed(width, height) ?? this.#onShelf(width, height) ?? this.#onNew(width, height);
    return place && { x: place.x, y: place.y, width, height, place };
  }

  #freed(width, height) {
    let best = -1;
    let least = Infinity;
    this.places.forEach((place, at) => {
      const area = place.width * place.height;
      if (place.width >= width && place.height >= height && area < least) [best, least] = [at, area];
    });
    return best < 0 ? null : this.places.splice(best, 1)[0];
  }

  #onShelf(width, height) {
    let best = null;
    for (const shelf of this.shelves) {
      const isFit = shelf.height >= height && shelf.end + width <= this.width;
      if (isFit && (best === null || shelf.height < best.height)) best = shelf;
    }
    if (best === null) return null;
    const place = { x: best.end, y: best.y, width, height: best.height };
    best.end += width;
    return place;
  }

  #onNew(width, height) {
    if (width > this.width || this.top + height > this.height) return null;
    this.shelves.push({ y: this.top, height, end: width });
    this.top += height;
    return { x: 0, y: this.top - height, width, height };
  }

  grow(width, height) {
    Object.assign(this, { width: Math.max(width, this.width), height: Math.max(height, this.height) });
  }

  free({ place }) {
    this.places.push(place);
  }
}

const touches = (hole, { x, y, width, height }) => (
  x < hole.x + hole.width && hole.x < x + width && y < hole.y + hole.height && hole.y < y + height);
const isIn = (inner, { x, y, width, height }) => inner.x >= x && inner.y >= y && inner.x + inner.width <= x + width
  && inner.y + inner.height <= y + height;

/** The largest rectangles that a box leaves of a free one. */
function leftOf(hole, box) {
  const [right, lower] = [hole.x + hole.width, hole.y + hole.height];
  return [
    { ...hole, width: box.x - hole.x }, { ...hole, height: box.y - hole.y },
    { ...hole, x: box.x + box.width, width: right - box.x - box.width }, { ...hole, y: box.y + box.height, height: lower - box.y - box.height },
  ].filter(({ width, height }) => width > 0 && height > 0);
}

/**
 * A packer of maximal rectangles: those that are free overlap, each as large as it can be. A box takes the one in which it leaves the least
 * at its tighter side. What is freed is lost to it.
 */
export class MaximalRectangles {
  constructor(width, height) {
    this.reset(width, height);
  }

  reset(width, height) {
    Object.assign(this, { width, height, holes: [{ x: 0, y: 0, width, height }] });
  }

  allocate(width, height) {
    let best = null;
    let least = [Infinity, Infinity];
    for (const hole of this.holes) {
      if (hole.width < width || hole.height < height) continue;
      const left = [hole.width - width, hole.height - height].sort((a, b) => a - b);
      if (left[0] < least[0] || left[0] === least[0] && left[1] < least[1]) [best, least] = [hole, left];
    }
    if (best === null) return null;
    const box = { x: best.x, y: best.y, width, height };
    const pieces = this.holes.filter((hole) => touches(hole, box)).flatMap((hole) => leftOf(hole, box));
    this.holes = this.holes.filter((hole) => !touches(hole, box));
    this.#add(pieces);
    return box;
  }

  /** Takes those that lie in no other one; of equal ones the first. */
  #add(pieces) {
    const fresh = pieces.filter((piece, at) => !this.holes.some((hole) => isIn(piece, hole))
      && !pieces.some((other, i) => i !== at && isIn(piece, other) && (i < at || !isIn(other, piece))));
    this.holes.push(...fresh);
  }

  grow(width, height) {
    const [right, lower] = [Math.max(width, this.width), Math.max(height, this.height)];
    const wider = this.holes.map((hole) => ({ ...hole,
      width: hole.x + hole.width === this.width ? right - hole.x : hole.width,
      height: hole.y + hole.height === this.height ? lower - hole.y : hole.height }));
    if (right > this.width) wider.push({ x: this.width, y: 0, width: right - this.width, height: lower });
    if (lower > this.height) wider.push({ x: 0, y: this.height, width: right, height: lower - this.height });
    Object.assign(this, { width: right, height: lower, holes: [] });
    this.#add(wider);
  }

  free() {}
}
