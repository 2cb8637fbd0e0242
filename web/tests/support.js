/** What tests share. */
import assert from 'node:assert/strict';

import * as wollemigo from '../node.js';

/** Tests that a call throws an error of the package with this code. */
export function refused(call, code, of) {
  try {
    call();
  } catch (error) {
    assert.ok(error instanceof wollemigo.WollemigoError, `${of}: ${error}`);
    assert.equal(error.code, code, `${of}: ${error}`);
    assert.equal(error.name, 'WollemigoError');
    assert.ok(error.message.length > 0 && error.message.length < 300);
    return error;
  }
  throw new assert.AssertionError({ message: `${of} is answered, and not by ${code}` });
}

/** What is no number of 32 bits, with or without a sign. */
export const NO_NUMBERS = [
  NaN, Infinity, -Infinity, 0.5, -1.5, 2 ** 32, -(2 ** 31) - 1, 2 ** 53, 1e300, 5e-324, '5', '', null, undefined, true, [], [5], {},
  { valueOf: () => 5 }, 5n, 2n ** 70n, Symbol('five'), () => 5, new Number(5), new Proxy({}, {}),
];
/** What has a default where it is left out. */
export const NO_GIVEN_NUMBERS = NO_NUMBERS.filter((value) => value !== undefined);

export function named(value) {
  return typeof value === 'object' && value !== null ? 'an object' : String(value);
}

/** All that an atlas tells of itself. */
export function stateOf(atlas) {
  const { size, options, slots, areas, isEmpty } = atlas;
  return { size, options, slots, areas, isEmpty, live: atlas.allocated(), free: atlas.freeBoxes() };
}

export function simpleState(simple) {
  const { size, options, slots, isEmpty } = simple;
  return { size, options, slots, isEmpty };
}

/** What is told of each page, and of no page. */
export function pagedState(paged) {
  const pages = Array.from({ length: paged.pageCount }, (_, page) => page);
  return pages.map((page) => ({ size: paged.pageSize(page), areas: paged.areas(page), live: paged.allocated(page) }));
}

export function cacheState(cache, keys) {
  const { length, pageCount, statistics } = cache;
  return { length, pageCount, statistics, places: keys.map((key) => cache.peek(key)) };
}
