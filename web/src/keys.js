/** Keys of JavaScript as the numbers of 64 bits that the library knows. */
import { WollemigoError } from './errors.js';

const UPPER = 1n << 63n;

/** Of the strings that a cache holds. Each has a number of the upper half, which no other string ever had. */
export class Keys {
  #numbers = new Map();
  #names = new Map();
  #last = 0;
  /** The upper 32 bits of the number that `lower` gave the others of. */
  upper = 0;

  /** The lower 32 bits of a key's number. No bigint is made for it, unless the key is one. */
  lower(key) {
    if (typeof key === 'string') return this.#halves(this.#numbers.get(key) ?? 0, -0x80000000);
    if (typeof key === 'number' && Number.isSafeInteger(key) && key >= 0) return this.#halves(key, 0);
    const number = this.number(key);
    this.upper = Number(number >> 32n);
    return Number(number & 0xffffffffn);
  }

  #halves(number, more) {
    this.upper = number < 4294967296 ? more : more | (number / 4294967296);
    return number | 0;
  }

  /** The number of a key. Of a string that isn't held it is one that nothing has. */
  number(key) {
    if (typeof key === 'string') return UPPER + BigInt(this.#numbers.get(key) ?? 0);
    if (typeof key === 'number' && Number.isSafeInteger(key) && key >= 0) return BigInt(key);
    if (typeof key === 'bigint' && key >= 0n && key < UPPER) return key;
    throw new WollemigoError('BAD_KEY', 'a key is a string, a whole number from 0 to 9007199254740991, or a bigint below 2^63');
  }

  /** The lower 32 bits of the number that a key has, or will have once it is kept. */
  next(key) {
    if (typeof key === 'string') return this.#halves(this.#numbers.get(key) ?? this.#last + 1, -0x80000000);
    return this.lower(key);
  }

  /** A key is held, by the number that `next` gave for it. */
  keep(key) {
    if (typeof key !== 'string' || this.#numbers.has(key)) return;
    this.#last += 1;
    this.#numbers.set(key, this.#last);
    this.#names.set(this.#last, key);
  }

  /** A key is held no more. */
  forget(key) {
    if (typeof key !== 'string') return;
    const number = this.#numbers.get(key);
    if (number === undefined) return;
    this.#numbers.delete(key);
    this.#names.delete(number);
  }

  /** The same keys with the same numbers, which go on by themselves. */
  copy() {
    const copy = new Keys();
    [copy.#numbers, copy.#names, copy.#last] = [new Map(this.#numbers), new Map(this.#names), this.#last];
    return copy;
  }

  clear() {
    this.#numbers.clear();
    this.#names.clear();
  }

  /** The key that has a number, by its lower and its upper 32 bits. */
  key(lower, upper) {
    if (upper < 0) return this.#names.get((upper & 0x7fffffff) * 4294967296 + (lower >>> 0));
    if (upper < 0x200000) return upper * 4294967296 + (lower >>> 0);
    return (BigInt(upper) << 32n) + BigInt(lower >>> 0);
  }
}
