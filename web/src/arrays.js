/** Typed arrays of the caller's, which are asked for nothing that a class of the caller's may have laid over. */
import { WollemigoError } from './errors.js';
import { list } from './values.js';

const typed = Object.getPrototypeOf(Int32Array.prototype);
const kindOfArray = Object.getOwnPropertyDescriptor(typed, Symbol.toStringTag).get;
const lengthOfTyped = Object.getOwnPropertyDescriptor(typed, 'length').get;

/** The values of a typed array as they are, and those of another list read out, so that nothing of the caller's runs later. */
export function numbers(given, name) {
  return kindOfArray.call(given) === undefined ? list(given, name, (value) => value) : given;
}

/** How many values such a list has. A class of the caller's may have a `length` of its own, which isn't asked. */
export function lengthOf(given) {
  return kindOfArray.call(given) === undefined ? given.length : lengthOfTyped.call(given);
}

const [bufferOf, startOf, bytesOf] = ['buffer', 'byteOffset', 'byteLength'].map((name) => Object.getOwnPropertyDescriptor(typed, name).get);

/** Refuses what would be written, so many numbers of `out`, over a list while that is read. */
export function requireApart(out, many, given, name) {
  if (kindOfArray.call(given) === undefined || bufferOf.call(out) !== bufferOf.call(given)) return;
  const [to, from] = [startOf.call(out), startOf.call(given)];
  if (to < from + bytesOf.call(given) && from < to + 4 * many) {
    throw new WollemigoError('BAD_OPTION', `out lies over ${name}, which would be written over while it is read`);
  }
}

/** An Int32Array that has room for so many numbers. */
export function room(given, name, least) {
  if (kindOfArray.call(given) !== 'Int32Array' || lengthOfTyped.call(given) < least) {
    throw new WollemigoError('BAD_OPTION', `${name} is no Int32Array with room for ${least} numbers`);
  }
  return given;
}
