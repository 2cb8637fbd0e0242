/** The draws of bindings/tests/digest.c, and its sum of answers. */

const NUMBERS = [
  'DONE', 'NO_ROOM', 'BAD_CALL', 'NOT_LIVE', 'SLOTS', 'MEMORY', 'SHORT', 'EMPTY', 'EMPTY_SHEET', 'EMPTY_RANGE', 'EMPTY_ALIGNMENT',
  'EMPTY_SPRITE', 'GREAT_SPRITE', 'OTHER_SIZE', 'NUMBERS', 'EMPTY_PAGE', 'LARGEST_PAGE', 'NO_PAGES', 'BAD_PADDING', 'BAD_ATLAS',
  'NOT_HELD', 'NO_CHANGE', 'NO_PAGE', 'HELD', 'FRAME_FULL', 'NEVER_FITS', '', 'NOTHING_FITS', '', 'OCCUPIED',
];
const EXTREMES = [-2147483648, -2147483647, -1, 0, 1, 32, 256, 46341, 65536, 2147483646, 2147483647];
const USUAL = [[1, 1, 32, 256], [4, 4, 16, 128], [8, 1, 0, 0], [1, 3, -5, 1000]];

/** The number that C has for a status of this name. */
export function numberOf(name) {
  const number = NUMBERS.indexOf(name);
  if (number < 0) throw new Error(`C has no status ${name}`);
  return number;
}

/** What a call gives, and its status; a status of its own where it throws, as C writes nothing then. */
export function answered(call) {
  try {
    return { value: call(), status: 0 };
  } catch (error) {
    if (error.name !== 'WollemigoError') throw error;
    return { value: null, status: numberOf(error.code), sprite: error.sprite };
  }
}

export class Draw {
  constructor(seed) {
    this.state = BigInt(seed);
  }

  below(bound) {
    this.state = BigInt.asUintN(64, this.state * 6364136223846793005n + 1442695040888963407n);
    return Number(this.state >> 33n) % bound;
  }

  oneIn(count) {
    return this.below(count) === 0;
  }

  /** A side of a request: mostly a usual one, at times any number that could be trouble. */
  side(most) {
    return this.oneIn(50) ? EXTREMES[this.below(EXTREMES.length)] : 1 + this.below(most);
  }

  options() {
    const usual = [...USUAL[this.below(4)]];
    if (this.oneIn(8)) usual[0] = this.side(40);
    if (this.oneIn(8)) usual[3] = this.side(300);
    const [width, height, smallSizeThreshold, largeSizeThreshold] = usual;
    return { alignment: { width, height }, smallSizeThreshold, largeSizeThreshold };
  }
}

export class Sum {
  constructor() {
    this.value = 14695981039346656037n;
  }

  add(word) {
    const product = BigInt.asUintN(64, (this.value ^ BigInt(word >>> 0)) * 1099511628211n);
    this.value = BigInt.asUintN(64, product << 29n) | product >> 35n;
  }

  wide(word) {
    this.add(Number(BigInt(word) & 0xffffffffn));
    this.add(Number(BigInt(word) >> 32n));
  }

  size(it) {
    this.add(it.width);
    this.add(it.height);
  }

  /** As C has it: by its corners. Where there is none, each is 7. */
  box(it) {
    const corners = it === null ? [7, 7, 7, 7] : [it.x, it.y, it.x + it.width, it.y + it.height];
    for (const word of corners) this.add(word);
  }

  allocation(it) {
    this.add(it === null ? 7 : it.id);
    this.box(it);
  }

  options(it) {
    this.size(it.alignment);
    this.add(it.smallSizeThreshold);
    this.add(it.largeSizeThreshold);
  }

  slots(it) {
    this.add(it.used);
    this.add(it.kept);
    this.add(it.limit);
  }

  place(it) {
    this.add(it === null ? 7 : it.number);
    this.add(it === null ? 7 : it.page);
    this.box(it && it.rectangle);
    this.box(it && it.inner);
  }

  text() {
    return this.value.toString(16).padStart(16, '0');
  }
}

export const SEVENS = {
  size: { width: 7, height: 7 },
  options: { alignment: { width: 7, height: 7 }, smallSizeThreshold: 7, largeSizeThreshold: 7 },
  slots: { used: 7, kept: 7, limit: 7 },
  areas: { allocated: 7, free: 7 },
  counts: { hits: 7, misses: 7, evictions: 7, forced: 7 },
};
