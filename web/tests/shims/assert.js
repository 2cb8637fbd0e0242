/** Of node:assert/strict what the tests use, in a browser. */
class AssertionError extends Error {
  constructor({ message }) {
    super(message);
  }
}

function fail(message, told) {
  throw new AssertionError({ message: `${message ?? ''} ${told}` });
}

function ok(value, message) {
  if (!value) fail(message, `${value} isn't true`);
}

const isObject = (value) => typeof value === 'object' && value !== null;
const shown = (value) => JSON.stringify(value, (_, each) => (typeof each === 'bigint' ? `${each}n` : each));

function isEqual(one, other) {
  if (!isObject(one) || !isObject(other)) return Object.is(one, other);
  if (Object.getPrototypeOf(one) !== Object.getPrototypeOf(other)) return false;
  if (one instanceof Map || one instanceof Set) return isEqual([...one], [...other]);
  const [names, others] = [Reflect.ownKeys(one), Reflect.ownKeys(other)];
  return names.length === others.length && names.every((name) => Object.hasOwn(other, name) && isEqual(one[name], other[name]));
}

function deepEqual(one, other, message) {
  if (!isEqual(one, other)) fail(message, `${shown(one)} is not ${shown(other)}`);
}

function equal(one, other, message) {
  if (!Object.is(one, other)) fail(message, `${String(one)} is not ${String(other)}`);
}

function notEqual(one, other, message) {
  if (Object.is(one, other)) fail(message, `both are ${String(one)}`);
}

function match(text, pattern, message) {
  if (!pattern.test(text)) fail(message, `${text} is not as ${pattern}`);
}

function doesNotMatch(text, pattern, message) {
  if (pattern.test(text)) fail(message, `${text} is as ${pattern}`);
}

function throws(call, message) {
  try {
    call();
  } catch {
    return;
  }
  fail(message, 'nothing is thrown');
}

async function rejects(call, isRight, message) {
  try {
    await call();
  } catch (error) {
    ok(isRight(error), `${message ?? ''} ${error}`);
    return;
  }
  fail(message, 'nothing is thrown');
}

export default { AssertionError, deepEqual, doesNotMatch, equal, match, notEqual, ok, rejects, throws };
