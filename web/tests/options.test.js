// What a value may be, what an error says, and what a console shows.
import assert from 'node:assert/strict';
import { test } from 'node:test';
import { runInNewContext } from 'node:vm';

import * as wollemigo from '../node.js';
import { refused, stateOf } from './support.js';

const { Atlas, MOST_SLOTS, SimpleAtlas, TextureCache, WollemigoError, fill, load, pack, packDense, packGroups, packPages } = wollemigo;
await load();
const page = { width: 64, height: 64 };
const sprites = [{ width: 4, height: 4 }];

/** Each call that takes options. */
const takers = (atlas) => [
  (options) => new Atlas(5, 5, options), (options) => new SimpleAtlas(5, 5, options), (options) => atlas.reset(64, 64, options),
  (options) => new TextureCache(options), (options) => new TextureCache({ page, atlas: options }), (options) => pack(sprites, options),
  (options) => fill(sprites, options), (options) => packGroups(sprites, [0], options), (options) => pack(sprites, { sheets: options }),
];

test('options are plain objects', () => {
  const atlas = new Atlas(100, 100);
  const before = stateOf(atlas);
  class Settings {}
  const values = [[], new Date(), new Number(5), Promise.resolve(), new Map(), new Settings(), Object.create({ padding: 1 }), atlas,
    new Uint8Array(4), /x/, new Error('x'), runInNewContext('[]'), runInNewContext('new Date()'), Math, JSON, Reflect,
    (function given() { return arguments; })(), runInNewContext('Math')];
  for (const call of takers(atlas)) {
    for (const value of values) refused(() => call(value), 'BAD_OPTION', `${call}: ${Object.prototype.toString.call(value)}`);
  }
  assert.deepEqual(stateOf(atlas), before);
  for (const options of [runInNewContext('({})'), Object.create(null), new Proxy({}, {}), Object.freeze({})]) new Atlas(5, 5, options).dispose();
});

test('what reading an object throws is the cause', () => {
  const atlas = new Atlas(100, 100);
  const before = stateOf(atlas);
  const gone = Proxy.revocable({}, {});
  gone.revoke();
  const thrown = [new Error('of the caller'), null, 'text', gone.proxy];
  for (const call of takers(atlas)) {
    assert.ok(refused(() => call(gone.proxy), 'BAD_OPTION', String(call)).cause instanceof TypeError);
    for (const each of thrown) {
      const meddling = new Proxy({}, { ownKeys() { throw each; }, get() { throw each; } });
      assert.equal(refused(() => call(meddling), 'BAD_OPTION', String(call)).cause, each);
    }
  }
  for (const each of thrown) {
    const broken = { * [Symbol.iterator]() { throw each; } };
    const bad = { get width() { throw each; }, height: 5 };
    for (const call of [() => atlas.deallocateAll(broken), () => pack(broken), () => pack([bad]), () => packGroups(sprites, broken),
      () => new TextureCache({ page: bad })]) {
      assert.equal(refused(call, 'BAD_OPTION', String(call)).cause, each);
    }
  }
  assert.deepEqual(stateOf(atlas), before);
});

test('a bad call names the argument and the condition', () => {
  const [atlas, simple] = [new Atlas(100, 50), new SimpleAtlas(100, 50)];
  const flat = { alignment: { width: 0, height: 1 } };
  const cases = [
    [() => new Atlas(0, 5), /^width is 0, and must be at least 1$/], [() => new Atlas(5, -3), /^height is -3, /],
    [() => new Atlas(5, 5, {}, 0), /^slotLimit is 0, and must be from 1 to 16777216$/],
    [() => new Atlas(5, 5, {}, MOST_SLOTS + 1), /^slotLimit is 16777217, /],
    [() => new Atlas(5, 5, flat), /^options.alignment.width is 0, /],
    [() => atlas.reset(5, 5, { alignment: { width: 1, height: -1 } }), /^options.alignment.height is -1, /],
    [() => new Atlas(5, 5, { smallSizeThreshold: 300 }), /^options.smallSizeThreshold is 300, and must be at most largeSizeThreshold, which is 256$/],
    [() => atlas.reset(0, 5), /^width is 0, /], [() => atlas.grow(99, 50), /^width is 99, and must be at least 100, /],
    [() => atlas.grow(100, 49), /^height is 49, and must be at least 50, /], [() => atlas.resizeAndRearrange(5, 0), /^height is 0, /],
    [() => new SimpleAtlas(0, 5), /^width is 0, /], [() => simple.grow(100, 1), /^height is 1, /], [() => simple.reset(5, 0), /^height is 0, /],
    [() => simple.reset(5, 5, flat), /^options.alignment.width is 0, /],
    [() => new SimpleAtlas(5, 5, flat), /^options.alignment.width is 0, /],
    ...[pack, packDense, packPages, fill, (of, options) => packGroups(of, [0], options)]
      .map((call) => [() => call(sprites, { padding: 65536 }), /^options.padding must be at most 65535$/]),
  ];
  for (const [call, message] of cases) assert.match(refused(call, 'BAD_CALL', String(call)).message, message);
  const error = refused(() => new TextureCache({ page, atlas: flat }), 'BAD_ATLAS', 'a cache');
  assert.match(error.message, /^options.atlas.alignment.width is 0, /);
});

test('an error with more that is none', () => {
  for (const more of [null, undefined, 5, 'x', Symbol('x'), 5n]) {
    const error = new WollemigoError('BAD_CALL', 'of the caller', more);
    assert.deepEqual([error.code, error.message, 'cause' in error, 'sprite' in error], ['BAD_CALL', 'of the caller', false, false]);
  }
});

test('a bigint of very many bits is told in few words', () => {
  const bits = 1n << 1000000n;
  for (const value of [bits, -bits]) {
    for (const call of [() => new Atlas(value, 5), () => new TextureCache({ page, padding: value }), () => pack(sprites, { seed: value }),
      () => new TextureCache({ page }).trim(value), () => new Atlas(5, 5).deallocate(value)]) {
      assert.match(refused(call, 'BAD_NUMBER', String(call)).message, / is a bigint of more than 256 bits, and not /);
    }
    refused(() => new TextureCache({ page }).get(value), 'BAD_KEY', 'a key');
  }
});

test('what becomes JSON', () => {
  const [atlas, simple, cache] = [new Atlas(100, 50), new SimpleAtlas(90, 40), new TextureCache({ page })];
  cache.insert('a', 5, 5);
  assert.deepEqual(JSON.parse(JSON.stringify(atlas)), { size: atlas.size, slots: atlas.slots, areas: atlas.areas, options: atlas.options });
  assert.deepEqual(JSON.parse(JSON.stringify(cache)).statistics, cache.statistics);
  for (const each of [atlas, simple, cache]) {
    each.dispose();
    assert.deepEqual(each.toJSON(), { state: 'DISPOSED' });
  }
});
