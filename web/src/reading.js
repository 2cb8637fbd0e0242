/** Values of the library as those of JavaScript: each is read from words of memory, by the index of its first. */
import { areasAt, changeAt, optionsAt, slotsAt } from './interface.js';

export function size(words, at) {
  return { width: words[at], height: words[at + 1] };
}

export function rectangle(words, at) {
  const x = words[at];
  const y = words[at + 1];
  return { x, y, width: words[at + 2] - x, height: words[at + 3] - y };
}

export function allocation(words, at) {
  const x = words[at + 1];
  const y = words[at + 2];
  return { id: words[at] >>> 0, x, y, width: words[at + 3] - x, height: words[at + 4] - y };
}

export function change(words, at) {
  return { before: allocation(words, at + changeAt.before), after: allocation(words, at + changeAt.after) };
}

export function options(words, at) {
  return {
    alignment: size(words, at + optionsAt.alignmentWidth), smallSizeThreshold: words[at + optionsAt.smallSizeThreshold],
    largeSizeThreshold: words[at + optionsAt.largeSizeThreshold],
  };
}

export function slots(words, at) {
  return { used: words[at + slotsAt.used] >>> 0, kept: words[at + slotsAt.kept] >>> 0, limit: words[at + slotsAt.limit] >>> 0 };
}

/** Of 64 bits; from 2^53 on it is rounded. */
export function wide(words, at) {
  return (words[at + 1] >>> 0) * 4294967296 + (words[at] >>> 0);
}

export function place(words, at) {
  return { number: words[at] >>> 0, page: words[at + 1] >>> 0, rectangle: rectangle(words, at + 2), inner: rectangle(words, at + 6) };
}

export function entry(words, at, isNew) {
  return { number: words[at] >>> 0, page: words[at + 1] >>> 0, rectangle: rectangle(words, at + 2), inner: rectangle(words, at + 6), isNew };
}

/** Writes a place into one that is there. All is read before anything is written, since what is written to may be a setter. */
export function placeInto(words, at, place) {
  const [number, page] = [words[at] >>> 0, words[at + 1] >>> 0];
  const x = words[at + 2], y = words[at + 3], right = words[at + 4], bottom = words[at + 5];
  const innerX = words[at + 6], innerY = words[at + 7], innerRight = words[at + 8], innerBottom = words[at + 9];
  const { rectangle, inner } = place;
  place.number = number;
  place.page = page;
  rectangle.x = x;
  rectangle.y = y;
  rectangle.width = right - x;
  rectangle.height = bottom - y;
  inner.x = innerX;
  inner.y = innerY;
  inner.width = innerRight - innerX;
  inner.height = innerBottom - innerY;
}

/** Writes a place as ten numbers of an Int32Array: its number, its page, then `x`, `y`, `width` and `height` of both rectangles. */
export function placeWords(words, at, out, to) {
  out[to] = words[at];
  out[to + 1] = words[at + 1];
  for (let from = at + 2, into = to + 2; into < to + 10; from += 4, into += 4) {
    out[into] = words[from];
    out[into + 1] = words[from + 1];
    out[into + 2] = words[from + 2] - words[from];
    out[into + 3] = words[from + 3] - words[from + 1];
  }
}

export function allocationInto(words, at, box) {
  const id = words[at] >>> 0, x = words[at + 1], y = words[at + 2], right = words[at + 3], bottom = words[at + 4];
  box.id = id;
  box.x = x;
  box.y = y;
  box.width = right - x;
  box.height = bottom - y;
}

export function areas(words, at) {
  return { allocated: wide(words, at + areasAt.allocated), free: wide(words, at + areasAt.free) };
}

const NONE = -1;
const AXES = ['horizontal', 'vertical'];

/** Of the words of a member of the tree of cuts, in the order of rust/wasm/src/cuts.rs. */
function member(words, at) {
  const box = rectangle(words, at + 7);
  const kind = words[at + 4];
  if (kind === 0) return { kind: 'container', ...box, axis: AXES[1 - words[at + 5]], members: [] };
  return kind === 1 ? { kind: 'live', id: words[at + 6] >>> 0, ...box } : { kind: 'free', ...box };
}

/** So many members of 11 words, put together by their links. `whole` gets the axis and the members of the top sequence. */
export function tree(words, at, many, whole) {
  const end = at + 11 * many;
  const found = new Map();
  for (let from = at; from < end; from += 11) found.set(words[from], { next: words[from + 3], made: member(words, from) });
  for (let from = at; from < end; from += 11) {
    const parent = words[from + 1];
    if (parent === NONE) whole.axis = AXES[words[from + 5]];
    if (words[from + 2] !== NONE) continue;
    const { members } = parent === NONE ? whole : found.get(parent).made;
    for (let each = found.get(words[from]); each !== undefined; each = found.get(each.next)) members.push(each.made);
  }
  return whole;
}

/** So many values, each of `step` words. */
export function list(words, at, many, step, reader) {
  const read = new Array(many);
  for (let i = 0; i < many; i++) read[i] = reader(words, at + i * step);
  return read;
}
