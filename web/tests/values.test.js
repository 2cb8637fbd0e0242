// Values that can't be turned: each has its error, and nothing changes.
import assert from 'node:assert/strict';
import { test } from 'node:test';

import * as wollemigo from '../node.js';
import { NO_GIVEN_NUMBERS, NO_NUMBERS, cacheState, named, pagedState, refused, simpleState, stateOf } from './support.js';

const { Atlas, PagedAtlas, SimpleAtlas, TextureCache, fill, pack, packDense, packGroups, packPages } = wollemigo;
await wollemigo.load();
const NO_LENGTHS = [...NO_NUMBERS, 2 ** 31];
const NO_COUNTS = [...NO_NUMBERS, -1];
const page = { width: 64, height: 64 };

function filledAtlas() {
  const atlas = new Atlas(100, 100);
  atlas.allocate(20, 60);
  atlas.allocate(7, 7);
  return atlas;
}

/** Each value in turn in place of the last argument, and where `isPair` says so of the one before it. */
function tryAll(of, state, call, values, code, isPair) {
  const before = state();
  for (const value of values) {
    refused(() => call(...(isPair ? [5, value] : [value])), code, `${of}(${named(value)})`);
    if (isPair) refused(() => call(value, 5), code, `${of}(${named(value)}, 5)`);
  }
  assert.deepEqual(state(), before, of);
}

test('lengths and counts of an atlas', () => {
  const atlas = filledAtlas();
  const state = () => stateOf(atlas);
  for (const name of ['allocate', 'canFit', 'grow', 'canGrowTo', 'resizeAndRearrange', 'reset', 'unusableArea']) {
    tryAll(name, state, (...all) => atlas[name](...all), NO_LENGTHS, 'BAD_NUMBER', true);
  }
  for (const name of ['deallocate', 'get', 'reserve']) {
    tryAll(name, state, (value) => atlas[name](value), NO_COUNTS, 'BAD_NUMBER', false);
  }
  const live = atlas.allocated()[0].id;
  tryAll('deallocateAll', state, (value) => atlas.deallocateAll([live, value]), NO_COUNTS, 'BAD_NUMBER', false);
  tryAll('new', state, (...all) => new Atlas(...all), NO_LENGTHS, 'BAD_NUMBER', true);
  tryAll('limit', state, (value) => new Atlas(5, 5, {}, value), [...NO_GIVEN_NUMBERS, -1], 'BAD_NUMBER', false);
});

test('lengths of a simple atlas', () => {
  const simple = new SimpleAtlas(100, 100);
  simple.allocate(3, 3);
  const state = () => simpleState(simple);
  for (const name of ['allocate', 'grow', 'canGrowTo', 'reset']) {
    tryAll(name, state, (...all) => simple[name](...all), NO_LENGTHS, 'BAD_NUMBER', true);
  }
  tryAll('new', state, (...all) => new SimpleAtlas(...all), NO_LENGTHS, 'BAD_NUMBER', true);
  for (const value of NO_NUMBERS.concat([new SimpleAtlas(5, 5), new Proxy(new Atlas(5, 5), {})].slice(0, 1))) {
    refused(() => simple.initFrom(value), 'BAD_OPTION', `initFrom(${named(value)})`);
    refused(() => SimpleAtlas.from(value), 'BAD_OPTION', `from(${named(value)})`);
  }
});

test('lengths and numbers of pages', () => {
  const paged = new PagedAtlas(100, 100, 2);
  paged.allocate(3, 3);
  const state = () => pagedState(paged);
  tryAll('allocate', state, (...all) => paged.allocate(...all), NO_LENGTHS, 'BAD_NUMBER', true);
  tryAll('grow', state, (...all) => paged.grow(0, ...all), NO_LENGTHS, 'BAD_NUMBER', true);
  tryAll('grow a page', state, (value) => paged.grow(value, 200, 200), NO_COUNTS, 'BAD_NUMBER', false);
  for (const name of ['deallocate', 'get']) tryAll(name, state, (...all) => paged[name](...all), NO_COUNTS, 'BAD_NUMBER', true);
  for (const name of ['pageSize', 'areas', 'allocated']) tryAll(name, state, (value) => paged[name](value), NO_COUNTS, 'BAD_NUMBER', false);
  tryAll('new', state, (...all) => new PagedAtlas(...all, 2), NO_LENGTHS, 'BAD_NUMBER', true);
  tryAll('new, of so many pages', state, (value) => new PagedAtlas(5, 5, value), NO_COUNTS, 'BAD_NUMBER', false);
});

test('numbers and keys of a cache', () => {
  const cache = new TextureCache({ page, pages: 2 });
  cache.insert('a', 10, 10);
  cache.insert(1, 10, 10);
  const state = () => cacheState(cache, ['a', 1]);
  tryAll('insert', state, (w, h) => cache.insert('b', w, h), NO_LENGTHS, 'BAD_NUMBER', true);
  for (const name of ['repack', 'repackKeepingAll', 'endBatch', 'pageSize']) tryAll(name, state, (value) => cache[name](value), NO_COUNTS, 'BAD_NUMBER', false);
  tryAll('unusableArea', state, (w, h) => cache.unusableArea(0, w, h), NO_LENGTHS, 'BAD_NUMBER', true);
  const noFrames = NO_NUMBERS.filter((value) => value !== 2 ** 32 && value !== 5n).concat([-1, -1n, 2n ** 64n]);
  for (const name of ['trim', 'compact']) tryAll(name, state, (value) => cache[name](value), noFrames, 'BAD_NUMBER', false);
  const noKeys = NO_NUMBERS.filter((value) => ![2 ** 32, 5n].includes(value) && typeof value !== 'string')
    .concat([-1, -1n, 2n ** 63n, 2n ** 64n]);
  for (const name of ['get', 'peek', 'has', 'remove']) tryAll(name, state, (key) => cache[name](key), noKeys, 'BAD_KEY', false);
  tryAll('insert', state, (key) => cache.insert(key, 5, 5), noKeys, 'BAD_KEY', false);
  for (const [name, values] of [['pages', [...NO_GIVEN_NUMBERS, -1]], ['padding', [...NO_GIVEN_NUMBERS, 2 ** 31]]]) {
    tryAll(name, state, (value) => new TextureCache({ page, [name]: value }), values, 'BAD_NUMBER', false);
  }
});

test('numbers of a sheet', () => {
  const nothing = () => null;
  const sprites = [{ width: 4, height: 4 }];
  tryAll('sprite', nothing, (width, height) => pack([...sprites, { width, height }]), NO_LENGTHS, 'BAD_NUMBER', true);
  for (const name of ['padding', 'effort']) {
    tryAll(name, nothing, (value) => pack(sprites, { [name]: value }), [...NO_GIVEN_NUMBERS, -1], 'BAD_NUMBER', false);
  }
  const noSeeds = NO_GIVEN_NUMBERS.filter((value) => value !== 2 ** 32 && value !== 5n).concat([-1n, 2n ** 64n]);
  tryAll('seed', nothing, (seed) => pack(sprites, { seed }), noSeeds, 'BAD_NUMBER', false);
  tryAll('turn', nothing, (turn) => pack(sprites, { turn }), NO_GIVEN_NUMBERS.filter((value) => value !== true), 'BAD_OPTION', false);
  for (const sheets of [{ kind: 'squares' }, { kind: 'size', width: 5 }, { kind: 'round' }, { kind: 'toString' }, {}, 5, null,
    { kind: 'powers', greatest: 64, width: 5 }]) {
    refused(() => pack(sprites, { sheets }), 'BAD_OPTION', JSON.stringify(sheets));
  }
  for (const value of [null, undefined, 5, {}, { length: 1, 0: sprites[0] }]) {
    for (const call of [pack, packDense, packPages, fill]) refused(() => call(value), 'BAD_OPTION', named(value));
    refused(() => packGroups(value, []), 'BAD_OPTION', named(value));
    refused(() => packGroups(sprites, value), 'BAD_OPTION', named(value));
  }
  const noGroups = NO_COUNTS.filter((value) => value !== null).concat([2 ** 32 - 1]);
  tryAll('group', nothing, (value) => packGroups(sprites, [null, value]), noGroups, 'BAD_NUMBER', false);
});

test('options of the wrong kind, and with names that are not known', () => {
  const atlas = filledAtlas();
  const before = stateOf(atlas);
  const size = { width: 1, height: 1 };
  const cases = [
    [null, 'BAD_OPTION'], [5, 'BAD_OPTION'], ['x', 'BAD_OPTION'], [true, 'BAD_OPTION'], [() => 5, 'BAD_OPTION'],
    [{ smallSizeTreshold: 5 }, 'BAD_OPTION'], [{ toString: 5 }, 'BAD_OPTION'], [{ alignment: 4 }, 'BAD_OPTION'],
    [{ alignment: null }, 'BAD_OPTION'], [{ alignment: { width: 1 } }, 'BAD_OPTION'], [{ alignment: { ...size, depth: 1 } }, 'BAD_OPTION'],
    [{ alignment: { width: 1, height: 0.5 } }, 'BAD_NUMBER'], [{ smallSizeThreshold: NaN }, 'BAD_NUMBER'],
    [{ largeSizeThreshold: 2 ** 31 }, 'BAD_NUMBER'], [{ smallSizeThreshold: null }, 'BAD_NUMBER'],
    [{ alignment: { width: 0, height: 1 } }, 'BAD_CALL'], [{ smallSizeThreshold: 300 }, 'BAD_CALL'],
  ];
  for (const [options, code] of cases) {
    const of = named(options);
    refused(() => new Atlas(5, 5, options), code, of);
    refused(() => new SimpleAtlas(5, 5, options), code, of);
    refused(() => new PagedAtlas(5, 5, 2, options), code, of);
    refused(() => atlas.reset(5, 5, options), code, of);
    refused(() => new TextureCache({ page, atlas: options }), code === 'BAD_CALL' ? 'BAD_ATLAS' : code, of);
  }
  assert.deepEqual(stateOf(atlas), before);
  for (const options of [undefined, null, {}, { page: 5 }, { page, pagse: 1 }]) {
    refused(() => new TextureCache(options), 'BAD_OPTION', named(options));
  }
});

test('a value that meddles while it is read', () => {
  const atlas = filledAtlas();
  const [first, second] = atlas.allocated();
  refused(() => atlas.deallocateAll({ * [Symbol.iterator]() { atlas.deallocate(first.id); yield first.id; } }), 'NOT_LIVE', 'freed');
  assert.deepEqual(atlas.allocated(), [second]);
  atlas.deallocateAll({ * [Symbol.iterator]() { yield second.id; new Atlas(900, 900).rearrange(); } });
  assert.ok(atlas.isEmpty);
  const thrown = new Error('of the caller');
  assert.equal(refused(() => atlas.reset(5, 5, { get smallSizeThreshold() { throw thrown; } }), 'BAD_OPTION', 'thrown').cause, thrown);
  assert.deepEqual(atlas.size, { width: 100, height: 100 });
  refused(() => atlas.reset(5, 5, { get smallSizeThreshold() { atlas.dispose(); return 1; } }), 'DISPOSED', 'disposed');
  const sprites = [{ width: 3, height: 5 }, { width: 4, height: 4 }];
  const meddling = { * [Symbol.iterator]() { yield 1; pack(Array(50).fill({ width: 9, height: 9 })); yield 1; } };
  assert.deepEqual(packGroups(sprites, meddling), packGroups(sprites, [1, 1]));
  let reads = 0;
  const once = { get alignment() { reads += 1; return { width: 4, height: 4 }; } };
  assert.deepEqual(new Atlas(64, 64, once).options.alignment, { width: 4, height: 4 });
  assert.equal(reads, 1);
});
