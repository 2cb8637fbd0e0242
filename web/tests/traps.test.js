// After a trap nothing of its module is used, and another can be started.
import assert from 'node:assert/strict';
import { readFileSync } from 'node:fs';
import { test } from 'node:test';

import * as wollemigo from '../node.js';
import { stub } from './stub.js';
import { refused } from './support.js';

const { Atlas, PagedAtlas, SimpleAtlas, TextureCache, load, pack, packDense, packGroups } = wollemigo;
const bytes = readFileSync(new URL('../wollemigo.wasm', import.meta.url));
const names = WebAssembly.Module.exports(new WebAssembly.Module(bytes)).filter(({ kind }) => kind === 'function').map(({ name }) => name);
const page = { width: 64, height: 64 };

test('nothing goes before the module is there', async () => {
  for (const call of [() => new Atlas(5, 5), () => new SimpleAtlas(5, 5), () => new PagedAtlas(5, 5, 1), () => new TextureCache({ page }), () => pack([]),
    () => packDense([]), () => packGroups([], [])]) {
    refused(call, 'NOT_LOADED', 'call');
  }
  const exports = names.filter((name) => name !== 'guillotiere_pack');
  for (const source of ['/no/such/file', new Uint8Array(8), new Uint8Array([1, 2, 3]), new Response('no', { status: 404 }), 5, null, {},
    { then: (_, fail) => fail(new Error('of the caller')) }, stub(exports, ''), stub([], '')]) {
    await assert.rejects(() => load(source), (error) => error instanceof wollemigo.WollemigoError && error.code === 'LOAD_FAILED'
      && error.cause !== undefined);
  }
  refused(() => new Atlas(5, 5), 'NOT_LOADED', 'after what failed');
});

async function trapIn(name, call) {
  await load(stub(names, `guillotiere_${name}`));
  const [atlas, simple, cache] = [new Atlas(5, 5), new SimpleAtlas(5, 5), new TextureCache({ page })];
  const error = refused(() => call({ atlas, simple, cache }), 'TRAPPED', name);
  assert.ok(error.cause instanceof WebAssembly.RuntimeError);
  const calls = [
    () => atlas.allocate(1, 1), () => atlas.isEmpty, () => simple.allocate(1, 1), () => cache.beginFrame(), () => cache.changes(),
    () => new Atlas(5, 5), () => pack([]), () => packDense([]), () => packGroups([], []), () => SimpleAtlas.from(atlas),
    () => atlas.clone(), () => simple.initFrom(atlas),
  ];
  for (const each of calls) refused(each, 'TRAPPED', `after ${name}: ${each}`);
  return [atlas, simple, cache];
}

test('a trap in a call, after which a new module is started', async () => {
  const cases = {
    atlas_allocate: ({ atlas }) => atlas.allocate(1, 1), atlas_deallocate: ({ atlas }) => atlas.deallocate(3),
    cache_get_halves: ({ cache }) => cache.get('a'), cache_insert_halves: ({ cache }) => cache.insert('a', 1, 1),
    cache_next_change: ({ cache }) => cache.trim(0), pack: () => pack([]),
    pack_dense: () => packDense([]), pack_groups: () => packGroups([], []),
    atlas_live: ({ atlas }) => atlas.allocated(), atlas_clone: ({ atlas }) => atlas.clone(), cache_clone: ({ cache }) => cache.clone(),
    cache_reserve_slots: ({ cache }) => cache.reserveSlots(4), cache_older: ({ cache }) => [...cache],
    simple_free: ({ simple }) => simple.dispose(),
    atlas_resize_and_rearrange: ({ atlas }) => atlas.resizeAndRearrange(5, 5), cache_new: null,
  };
  const old = [];
  for (const [name, call] of Object.entries(cases)) if (call !== null) old.push(await trapIn(name, call));
  await load(bytes);
  const [made, simple] = [new Atlas(100, 100), new SimpleAtlas(100, 100)];
  assert.equal(made.allocate(20, 60).id, 3);
  for (const [atlas, formerSimple, cache] of old) {
    refused(() => simple.initFrom(atlas), 'TRAPPED', 'an atlas of a former module');
    refused(() => atlas.allocate(1, 1), 'TRAPPED', 'an atlas of a former module');
    for (const each of [atlas, formerSimple, cache]) each.dispose();
  }
  assert.deepEqual(simple.allocate(100, 100), { x: 0, y: 0, width: 100, height: 100 });
  await load('/no/such/file');
  assert.equal(made.allocated().length, 1);
});

test('a call for which no stack is left', async () => {
  const atlas = new Atlas(100, 100);
  const deeper = () => {
    atlas.allocate(1, 1);
    deeper();
  };
  assert.throws(deeper);
  let answer;
  try {
    answer = atlas.allocated().length;
  } catch (error) {
    answer = error.code;
  }
  if (answer === 'TRAPPED') await load();
  else assert.ok(answer > 0);
  assert.equal(new Atlas(100, 100).allocate(20, 60).id, 3);
});
