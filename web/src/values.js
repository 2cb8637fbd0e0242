/** Values of JavaScript as those of the library. What can't be turned is told by an error, and no value is turned in part. */
import { WollemigoError, isOurs } from './errors.js';

/** At most 40 characters of what was given. */
function shown(value) {
  const kind = typeof value;
  if (kind === 'object' || kind === 'function') return value === null ? 'null' : `of type ${kind}`;
  if (kind === 'bigint' && BigInt.asIntN(256, value) !== value) return 'a bigint of more than 256 bits';
  const text = kind === 'string' ? JSON.stringify(value.slice(0, 40)) : String(value) + (kind === 'bigint' ? 'n' : '');
  return text.length > 40 ? text.slice(0, 37) + '...' : text;
}

export function badNumber(value, name, least, most) {
  return new WollemigoError('BAD_NUMBER', `${name} is ${shown(value)}, and not a whole number from ${least} to ${most}`);
}

/** A length, which is a signed number of 32 bits. */
export function length(value, name) {
  if (typeof value !== 'number' || value !== (value | 0)) throw badNumber(value, name, -2147483648, 2147483647);
  return value | 0;
}

/** A number of 32 bits without a sign. */
export function count(value, name) {
  if (typeof value !== 'number' || value !== value >>> 0) throw badNumber(value, name, 0, 4294967295);
  return value >>> 0;
}

/** A number of 64 bits without a sign. */
export function wide(value, name) {
  if (typeof value === 'bigint' ? 0n <= value && value < 1n << 64n : Number.isSafeInteger(value) && value >= 0) return BigInt(value);
  throw badNumber(value, name, 0, typeof value === 'bigint' ? '18446744073709551615' : '9007199254740991');
}

export function bool(value, name) {
  if (typeof value !== 'boolean') throw new WollemigoError('BAD_OPTION', `${name} is ${shown(value)}, and neither true nor false`);
  return value;
}

/** What reading a caller's object gives. What its getters, iterators or traps throw is the cause of an error of the package. */
export function reading(name, read) {
  try {
    return read();
  } catch (cause) {
    if (isOurs(cause)) throw cause;
    throw new WollemigoError('BAD_OPTION', `${name} can't be read`, { cause });
  }
}

/** An object that a call writes into. */
export function target(value, name) {
  if (typeof value !== 'object' || value === null) throw new WollemigoError('BAD_OPTION', `${name} is ${shown(value)}, and not an object`);
}

/** What is told where writing into a caller's object throws. */
export function unwritable(name, cause) {
  return isOurs(cause) ? cause : new WollemigoError('BAD_OPTION', `${name} can't be written to`, { cause });
}

/** Whether a value is an object as a literal makes it, in this realm or another, or one without a prototype. `Math` and the arguments of a
 * function have the prototype of a literal, but not its name. */
function isPlain(value) {
  if (typeof value !== 'object' || value === null || Object.prototype.toString.call(value) !== '[object Object]') return false;
  const above = Object.getPrototypeOf(value);
  return above === null || Object.getPrototypeOf(above) === null;
}

/** Reads the options that have these names, each by its reader, or by its name's default where it is left out. */
export function options(given, name, readers) {
  return reading(name, () => optionsRead(given, name, readers));
}

function optionsRead(given, name, readers) {
  const read = {};
  const of = given === undefined ? {} : given;
  if (!isPlain(of)) throw new WollemigoError('BAD_OPTION', `${name} is ${shown(given)}, and not a plain object`);
  for (const key of Object.keys(of)) {
    if (!Object.hasOwn(readers, key)) throw new WollemigoError('BAD_OPTION', `${name} has no ${shown(key)}`);
  }
  for (const [key, [reader, otherwise]] of Object.entries(readers)) {
    const value = of[key];
    if (value === undefined && otherwise === undefined) throw new WollemigoError('BAD_OPTION', `${name} needs a ${key}`);
    read[key] = value === undefined ? otherwise : reader(value, `${name}.${key}`);
  }
  return read;
}

const SIZE = { width: [length], height: [length] };

/** A size that has no other properties. */
export function size(value, name) {
  return options(value === undefined ? null : value, name, SIZE);
}

const ATLAS_OPTIONS = {
  alignment: [size, { width: 1, height: 1 }],
  smallSizeThreshold: [length, 32],
  largeSizeThreshold: [length, 256],
};

/** The four numbers of an atlas's options. */
export function atlasOptions(given, name) {
  const read = options(given, name, ATLAS_OPTIONS);
  return [read.alignment.width, read.alignment.height, read.smallSizeThreshold, read.largeSizeThreshold];
}

/** The values of a list, each read. */
export function list(given, name, reader) {
  return reading(name, () => {
    if (given === null || given === undefined || typeof given[Symbol.iterator] !== 'function') {
      throw new WollemigoError('BAD_OPTION', `${name} is ${shown(given)}, and not a list`);
    }
    const read = [];
    for (const value of given) read.push(reader(value, `${name}[${read.length}]`));
    return read;
  });
}

/**
 * Which condition of a size and of the four numbers of an atlas's options doesn't hold, in words; undefined where all do. The library
 * decides, and this only words what it refused.
 */
export function whyNoAtlas(width, height, [across, down, small, large] = [1, 1, 32, 256], name = 'options') {
  for (const [value, of] of [[width, 'width'], [height, 'height'], [across, `${name}.alignment.width`], [down, `${name}.alignment.height`]]) {
    if (value < 1) return `${of} is ${value}, and must be at least 1`;
  }
  if (small <= large) return undefined;
  return `${name}.smallSizeThreshold is ${small}, and must be at most largeSizeThreshold, which is ${large}`;
}

/** Which side a growth shrinks. */
export function whyNoGrowth(width, height, now) {
  if (width < now.width) return `width is ${width}, and must be at least ${now.width}, the present one: a growth shrinks no side`;
  return height < now.height ? `height is ${height}, and must be at least ${now.height}, the present one: a growth shrinks no side` : undefined;
}

/** What a console shows of an owner, and what becomes JSON: what `read` tells, or that it is out of use. */
export function shownState(read) {
  try {
    return read();
  } catch (error) {
    if (isOurs(error) && (error.code === 'DISPOSED' || error.code === 'TRAPPED')) return { state: error.code };
    throw error;
  }
}
