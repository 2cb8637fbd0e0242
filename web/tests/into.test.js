// Calls that write into what the caller has: they answer as those that make new objects.
import assert from 'node:assert/strict';
import { test } from 'node:test';

import * as wollemigo from '../node.js';
import { cacheState, refused, stateOf } from './support.js';

const { Atlas, TextureCache } = wollemigo;
await wollemigo.load();

function drawFrom(seed) {
  let state = seed;
  return (bound) => {
    state = (Math.imul(state, 1103515245) + 12345) >>> 0;
    return (state >>> 8) % bound;
  };
}

const blank = () => ({ number: -1, page: -1, rectangle: {}, inner: {} });
const options = { page: { width: 32, height: 32 }, largestPage: { width: 64, height: 48 }, pages: 2, padding: 1 };
const keysOf = { strings: (i) => `glyph ${i}`, numbers: (i) => i * 4294967297, bigints: (i) => (1n << 62n) + BigInt(i) };

test('allocateInto answers as allocate', () => {
  const [one, other, below] = [new Atlas(256, 256), new Atlas(256, 256), drawFrom(1)];
  const box = { id: 0, x: 0, y: 0, width: 0, height: 0 };
  let refusals = 0;
  for (let i = 0; i < 3000; i++) {
    const [width, height] = [below(40), 1 + below(40)];
    const wanted = other.allocate(width, height);
    const before = { ...box };
    assert.equal(one.allocateInto(width, height, box), wanted !== null);
    assert.deepEqual(box, wanted ?? before);
    refusals += wanted === null;
    const live = one.allocated();
    if (live.length > 0 && below(2) === 0) for (const atlas of [one, other]) atlas.deallocate(live[i % live.length].id);
  }
  assert.ok(refusals > 100);
  assert.deepEqual(stateOf(one), stateOf(other));
});

for (const [name, keyOf] of Object.entries(keysOf)) {
  test(`touch and getInto answer as get; keys are ${name}`, () => {
    const [one, other, third, below] = [new TextureCache(options), new TextureCache(options), new TextureCache(options), drawFrom(2)];
    for (let i = 0; i < 4000; i++) {
      const [key, place] = [keyOf(below(60)), blank()];
      const wanted = other.get(key);
      assert.equal(one.getInto(key, place), wanted !== null);
      assert.deepEqual(place, wanted ?? blank());
      assert.equal(third.touch(key), wanted !== null);
      if (wanted === null) for (const cache of [one, other, third]) cache.insert(key, 13, 9);
      if (i % 9 === 0) for (const cache of [one, other, third]) cache.beginFrame();
    }
    assert.ok(other.statistics.evictions > 100);
    const keys = Array.from({ length: 60 }, (_, i) => keyOf(i));
    const changes = [...other.changes()];
    for (const cache of [one, third]) {
      assert.deepEqual(cacheState(cache, keys), cacheState(other, keys));
      assert.deepEqual(cache.oldest(), other.oldest());
      assert.deepEqual([...cache.changes()], changes);
    }
  });

  test(`insertAll answers as insert; keys are ${name}`, () => {
    const [one, other, below] = [new TextureCache(options), new TextureCache(options), drawFrom(3)];
    for (let frame = 0; frame < 200; frame++) {
      const numbers = Array.from({ length: 1 + below(30) }, () => below(160));
      const keys = numbers.map(keyOf);
      const sizes = Int32Array.from(numbers.flatMap((number) => [number % 17, 4 + number % 11]));
      const out = new Int32Array(11 * keys.length);
      one.beginFrame();
      other.beginFrame();
      const many = one.insertAll(name === 'numbers' ? Float64Array.from(keys) : name === 'bigints' ? BigUint64Array.from(keys) : keys, sizes, out);
      keys.forEach((key, i) => {
        if (i > many) return;
        const wanted = other.insert(key, sizes[2 * i], sizes[2 * i + 1]);
        assert.equal(wanted === null, i === many);
        if (wanted === null) return;
        const { number, page, rectangle: r, inner: n, isNew } = wanted;
        assert.deepEqual([...out.subarray(11 * i, 11 * i + 11)],
          [isNew ? 1 : 0, number, page, r.x, r.y, r.width, r.height, n.x, n.y, n.width, n.height]);
      });
      assert.deepEqual([...one.changes()], [...other.changes()]);
    }
    assert.ok(one.statistics.evictions > 100);
    assert.deepEqual(one.statistics, other.statistics);
  });
}

test('insertAll stops where a frame is full, and at what is refused', () => {
  const cache = new TextureCache({ page: { width: 64, height: 64 } });
  const sizes = Int32Array.of(64, 40, 64, 24, 64, 10);
  const out = new Int32Array(33).fill(7);
  cache.beginFrame();
  assert.equal(cache.insertAll(['a', 'b', 'c'], sizes, out), 2);
  assert.deepEqual([...out.subarray(22)], Array(11).fill(7));
  cache.beginFrame();
  assert.equal(cache.insertAll(['c'], sizes.subarray(4), out), 1);
  const cases = [
    [['d', 'e'], [1, 1, 65, 1], 'NEVER_FITS', 1], [['d', 'c'], [1, 1, 9, 9], 'OTHER_SIZE', 1], [['d', null], [1, 1, 1, 1], 'BAD_KEY', 1],
    [['d', 'e', 'f'], [1, 1, 1, 1, 0.5, 1], 'BAD_NUMBER', 2],
  ];
  for (const [keys, sides, code, index] of cases) {
    cache.clear();
    cache.insert('c', 64, 10);
    assert.equal(refused(() => cache.insertAll(keys, sides, new Int32Array(33)), code, code).index, index);
    assert.equal(cache.length, 1 + index);
  }
});

test('what is written into', () => {
  const [atlas, cache] = [new Atlas(64, 64), new TextureCache(options)];
  cache.insert('a', 5, 5);
  cache.insert('b', 5, 5);
  const before = [stateOf(atlas), cache.length];
  const thrown = new Error('of the caller');
  const setter = { set x(_) { throw thrown; } };
  for (const value of [null, undefined, 5, 'x', () => 5]) {
    refused(() => atlas.allocateInto(5, 5, value), 'BAD_OPTION', String(value));
    refused(() => cache.getInto('a', value), 'BAD_OPTION', String(value));
    refused(() => cache.insertAll(['c'], [5, 5], value), 'BAD_OPTION', String(value));
  }
  assert.equal(refused(() => atlas.allocateInto(5, 5, setter), 'BAD_OPTION', 'setter').cause, thrown);
  refused(() => atlas.allocateInto(5, 5, Object.freeze({ id: 5 })), 'BAD_OPTION', 'frozen');
  for (const place of [{}, { rectangle: {} }, { rectangle: setter, inner: {} }, new Proxy({}, { get() { throw thrown; } })]) {
    assert.ok(refused(() => cache.getInto('a', place), 'BAD_OPTION', 'place').cause instanceof Error);
  }
  for (const out of [new Int32Array(10), new Float64Array(11), new Proxy(new Int32Array(11), {}), [1, 2], Object.create(Int32Array.prototype)]) {
    refused(() => cache.insertAll(['c'], [5, 5], out), 'BAD_OPTION', 'out');
  }
  for (const keys of [null, 5, { length: 1, 0: 'c' }]) refused(() => cache.insertAll(keys, [5, 5], new Int32Array(11)), 'BAD_OPTION', 'keys');
  refused(() => cache.insertAll(['c'], [5], new Int32Array(11)), 'BAD_OPTION', 'sizes');
  assert.deepEqual([stateOf(atlas), cache.length].map((each) => each.live ?? each), before.map((each) => each.live ?? each));
  const meddling = { * [Symbol.iterator]() { yield 'c'; cache.dispose(); yield 'd'; } };
  refused(() => cache.insertAll(meddling, [5, 5, 5, 5], new Int32Array(22)), 'DISPOSED', 'disposed');
  const words = [];
  const place = { rectangle: {}, inner: { set y(value) { words.push(value); } }, set number(_) { atlas.allocate(9, 9); } };
  const other = new TextureCache(options);
  other.insert('a', 5, 6);
  other.getInto('a', place);
  assert.deepEqual([place.rectangle, place.inner.width, words], [{ x: 0, y: 0, width: 7, height: 8 }, 5, [1]]);
});

test('a setter that makes an end of the atlas takes no box of the caller with it', () => {
  const acts = {
    clear: (atlas) => atlas.clear(),
    reset: (atlas) => atlas.reset(64, 64),
    rearrange(atlas, id) {
      atlas.deallocate(id);
      atlas.rearrange();
    },
    resizeAndRearrange(atlas, id) {
      atlas.deallocate(id);
      atlas.resizeAndRearrange(64, 64);
    },
    deallocate: (atlas, id) => atlas.deallocate(id),
    grow: (atlas) => atlas.grow(128, 64),
  };
  for (const [name, act] of Object.entries(acts)) {
    const atlas = new Atlas(64, 64);
    let own;
    const box = {
      set x(_) {
        act(atlas, this.id);
        own = atlas.allocate(5, 5);
        throw new Error('of the caller');
      },
    };
    refused(() => atlas.allocateInto(5, 5, box), 'BAD_OPTION', name);
    assert.deepEqual(atlas.allocated(), [own], name);
  }
});

test('a list of a class that has a length of its own', () => {
  const cache = new TextureCache(options);
  class Broken extends Int32Array { get length() { throw new Error('of the caller'); } }
  class Long extends Int32Array { get length() { return 1e9; } }
  for (const Words of [Broken, Long]) {
    const out = new Words(22);
    cache.clear();
    assert.equal(cache.insertAll(Words.of(7, 8), Words.of(5, 6, 5, 6), out), 2);
    assert.deepEqual([out[0], out[11], cache.peek(8).inner.height], [1, 1, 6]);
    refused(() => cache.insertAll([1, 2, 3], [5, 6, 5, 6, 5, 6], out), 'BAD_OPTION', 'out');
    refused(() => cache.insertAll([1, 2, 3], Words.of(5, 6), new Int32Array(33)), 'BAD_OPTION', 'sizes');
    assert.equal(cache.length, 2);
  }
});

/** Frees a box and allocates until its id comes again, for another box: so a freed slot's generations go round. */
function comeAgain(atlas, id, { width, height }) {
  atlas.deallocate(id);
  for (let turns = 0; turns < 1000; turns++) {
    const box = atlas.allocate(width, height);
    if (box.id === id) return box;
    atlas.deallocate(box.id);
  }
  throw new Error('the id never comes again');
}

test('a setter that throws frees no box but its own', () => {
  const sides = { width: 9, height: 7 };
  const ends = {
    'frees it, until its id is that of another box': (atlas, id) => comeAgain(atlas, id, sides),
    'frees it by a list, until then': (atlas, id) => {
      const { x, y } = atlas.get(id);
      atlas.deallocateAll([id]);
      const again = atlas.allocate(9, 7);
      assert.deepEqual([again.x, again.y], [x, y]);
      return comeAgain(atlas, again.id, sides);
    },
    'clears, and allocates': (atlas) => (atlas.clear(), atlas.allocate(9, 7)),
    'rearranges': (atlas) => atlas.rearrange().changes[0].after,
    'has another box written, whose setter throws': (atlas) => {
      refused(() => atlas.allocateInto(5, 5, { set id(_) { throw new Error('inner'); } }), 'BAD_OPTION', 'inner');
      return null;
    },
    'does nothing': () => null,
  };
  for (const [name, end] of Object.entries(ends)) {
    const atlas = new Atlas(64, 64);
    let wanted = null;
    const box = { set id(id) { wanted = end(atlas, id); throw new Error('of the caller'); } };
    refused(() => atlas.allocateInto(9, 7, box), 'BAD_OPTION', name);
    assert.deepEqual(atlas.allocated(), wanted === null ? [] : [wanted], name);
  }
});

test('what insertAll writes lies over nothing that it reads', () => {
  const cache = new TextureCache(options);
  const memory = new Int32Array(64);
  memory.set([5, 5, 6, 6, 7, 7]);
  const sizes = memory.subarray(0, 6);
  for (const [keys, given, out] of [
    [['a', 'b', 'c'], sizes, memory], [['a', 'b', 'c'], sizes, memory.subarray(5, 38)], [sizes.subarray(0, 3), [5, 5, 6, 6, 7, 7], memory],
    [['a', 'b', 'c'], new Float64Array(memory.buffer, 128, 6), memory.subarray(0, 33)],
  ]) {
    refused(() => cache.insertAll(keys, given, out), 'BAD_OPTION', 'out over what is read');
    assert.equal(cache.length, 0);
  }
  assert.equal(cache.insertAll(['a', 'b', 'c'], sizes, memory.subarray(6)), 3);
  assert.equal(cache.insertAll(['d'], memory.subarray(62), memory), 1, 'what lies behind all that is written');
  assert.deepEqual(['a', 'b', 'c'].map((key) => cache.peek(key).inner.width), [5, 6, 7]);
});
