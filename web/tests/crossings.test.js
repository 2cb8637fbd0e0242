// How often a call goes into the module: each goes there once, and an insertion once more for each change but the first, and where they
// end.
import assert from 'node:assert/strict';
import { test } from 'node:test';

import * as wollemigo from '../node.js';

const calls = new Map();
const { instantiate } = WebAssembly;
/** Counts the calls of each function of a module. */
WebAssembly.instantiate = async (bytes, imports) => {
  const { instance } = await instantiate(bytes, imports);
  const counted = Object.entries(instance.exports).map(([name, value]) => [name, typeof value !== 'function' ? value : Object.defineProperty(
    (...given) => {
      calls.set(name.slice(12), (calls.get(name.slice(12)) ?? 0) + 1);
      return value(...given);
    }, 'length', { value: value.length })]);
  return { instance: { exports: Object.fromEntries(counted) } };
};
await wollemigo.load();
WebAssembly.instantiate = instantiate;

const MANY = 1000;
const names = Array.from({ length: MANY }, (_, i) => `glyph ${i}`);

/** How often which function was called meanwhile. */
function crossings(act) {
  calls.clear();
  act();
  return Object.fromEntries(calls);
}

for (const [kind, keys] of [['strings', names], ['numbers', names.map((_, i) => i)], ['bigints', names.map((_, i) => BigInt(i))]]) {
  test(`each call of a cache goes into the module once; keys are ${kind}`, () => {
    const cache = new wollemigo.TextureCache({ page: { width: 1024, height: 1024 } });
    const [sizes, out] = [keys.flatMap(() => [8, 8]), new Int32Array(11 * MANY)];
    cache.insert(keys[0], 8, 8);
    assert.deepEqual(crossings(() => keys.slice(1).forEach((key) => cache.insert(key, 8, 8))), { cache_insert_halves: MANY - 1 }, 'new keys');
    assert.deepEqual(crossings(() => keys.forEach((key) => cache.insert(key, 8, 8))), { cache_insert_halves: MANY }, 'held keys');
    assert.deepEqual(crossings(() => cache.insertAll(keys, sizes, out)), { cache_insert_halves: MANY }, 'held keys, by a list');
    assert.deepEqual(crossings(() => keys.forEach((key) => cache.get(key))), { cache_get_halves: MANY });
    assert.deepEqual(crossings(() => keys.forEach((key) => cache.touch(key))), { cache_get_halves: MANY });
    assert.equal([...cache.changes()].length, 1);
  });
}

test('an insertion with changes asks for the others', () => {
  const cache = new wollemigo.TextureCache({ page: { width: 32, height: 32 } });
  const pairs = { cache_insert_halves: 1, cache_next_change: 1 };
  assert.deepEqual(crossings(() => cache.insert('a', 32, 16)), pairs, 'a page is added');
  assert.deepEqual(crossings(() => cache.insert('b', 32, 16)), { cache_insert_halves: 1 });
  cache.beginFrame();
  assert.deepEqual(crossings(() => cache.insert('c', 32, 32)), { cache_insert_halves: 1, cache_next_change: 2 }, 'two are evicted');
  assert.deepEqual([...cache.changes()].map(({ kind, key }) => [kind, key]), [['pageAdded', undefined], ['evicted', 'a'], ['evicted', 'b']]);
});

test('a call of an atlas goes into the module once', () => {
  const atlas = new wollemigo.Atlas(1024, 1024);
  const [boxes, box] = [[], { id: 0, x: 0, y: 0, width: 0, height: 0 }];
  assert.deepEqual(crossings(() => { for (let i = 0; i < MANY; i++) boxes.push(atlas.allocate(8, 8)); }), { atlas_allocate: MANY });
  assert.deepEqual(crossings(() => { for (let i = 0; i < MANY; i++) atlas.allocateInto(8, 8, box); }), { atlas_allocate: MANY });
  assert.deepEqual(crossings(() => boxes.forEach(({ id }) => atlas.deallocate(id))), { atlas_deallocate: MANY });
});
