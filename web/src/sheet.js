import { DONE, NO_ROOM, STATUSES, WollemigoError, atMost, failure } from './errors.js';
import { HEIGHTS, ONE_SIZE, POWERS, SQUARES, placedAt, sizeAt } from './interface.js';
import * as reading from './reading.js';
import { running } from './runtime.js';
import * as values from './values.js';

const { bool, count, length, list, options, size, wide } = values;

const KINDS = {
  size: { number: ONE_SIZE, readers: { width: [length], height: [length] } },
  squares: { number: SQUARES, readers: { least: [length, 1], greatest: [length] } },
  powers: { number: POWERS, readers: { greatest: [length] } },
  heights: { number: HEIGHTS, readers: { width: [length], greatest: [length] } },
};

/** The number of a kind of sheets, its width, its height, and its least and greatest side. */
function sheets(given, name) {
  const kind = given?.kind;
  if (typeof kind !== 'string' || !Object.hasOwn(KINDS, kind)) {
    throw new WollemigoError('BAD_OPTION', `${name}.kind is none of ${Object.keys(KINDS).join(', ')}`);
  }
  const { number, readers } = KINDS[kind];
  const { width = 0, height = 0, least = 0, greatest = 0 } = options(given, name, { kind: [() => kind], ...readers });
  return [number, width, height, least, greatest];
}

const OPTIONS = {
  sheets: [sheets, [KINDS.squares.number, 0, 0, 1, 4096]],
  padding: [count, 0],
  alignment: [size, { width: 1, height: 1 }],
  turn: [bool, false],
  effort: [count, 0],
  seed: [wide, 0n],
};

export function placed(words, at) {
  return { ...reading.rectangle(words, at + placedAt.area), turned: words[at + placedAt.turned] !== 0 };
}

/** A sprite may be any object that has these two. */
function sprite(value, name) {
  return [length(value?.width, `${name}.width`), length(value?.height, `${name}.height`)];
}

/** What was asked, written: the sprites at the start of room, with as many words more for each as `step` says; then its options. */
export function written(sprites, given, step) {
  const sides = list(sprites, 'sprites', sprite);
  const { sheets: allowed, padding, alignment, turn, effort, seed } = options(given, 'options', OPTIONS);
  const runtime = running();
  const [many, at] = [sides.length, runtime.room(4 * (sizeAt.words + step) * sides.length)];
  const halves = [Number(BigInt.asUintN(32, seed)), Number(seed >> 32n)];
  runtime.write(at, sides.flat());
  runtime.write(runtime.at, [...allowed, padding, alignment.width, alignment.height, turn ? 1 : 0, effort, ...halves]);
  return { runtime, many, at, places: at + 4 * sizeAt.words * many, told: runtime.at + 64, bad: runtime.at + 72 };
}

const MESSAGES = {
  BAD_CALL: 'options.padding must be at most 65535',
  EMPTY_SHEET: 'a side of the sheet, or the least that is allowed, is below 1',
  EMPTY_RANGE: 'the greatest side of a sheet is below the least',
  EMPTY_ALIGNMENT: 'a side of the alignment is below 1',
  EMPTY_SPRITE: 'a sprite has a side below 1',
  GREAT_SPRITE: 'a side of a sprite, with the padding at both its ends, exceeds 2147483647 pixels',
};

export function refused(status, words, bad) {
  const code = STATUSES[status];
  if (!Object.hasOwn(MESSAGES, code)) return failure(code);
  return new WollemigoError(code, MESSAGES[code], code.endsWith('_SPRITE') ? { sprite: words[bad >>> 2] >>> 0 } : undefined);
}

/** The sheet that a call finds. */
export function packedBy(call, sprites, given) {
  const { runtime, many, at, places, told, bad } = written(sprites, given, placedAt.words);
  const status = runtime.calls[call](at, many, runtime.at, places, many, told, bad);
  const words = runtime.words();
  if (status === DONE) {
    return { ...reading.size(words, told >>> 2), places: reading.list(words, places >>> 2, many, placedAt.words, placed) };
  }
  if (status === NO_ROOM) return null;
  throw refused(status, words, bad);
}

export function pack(sprites, given) {
  atMost(2, arguments.length);
  return packedBy('pack', sprites, given);
}
