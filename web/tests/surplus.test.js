// An argument beyond those that a call takes is refused, and nothing changes.
import assert from 'node:assert/strict';
import { test } from 'node:test';

import * as wollemigo from '../node.js';
import { cacheState, pagedState, refused, simpleState, stateOf } from './support.js';

const { Atlas, PagedAtlas, SimpleAtlas, TextureCache } = wollemigo;
await wollemigo.load();
const page = { width: 64, height: 64 };
const [sprites, out] = [[page], new Int32Array(11)];

/** Arguments with which each call of a class is made: those of its own, all given. */
const CALLS = {
  Atlas: {
    allocate: [5, 5], allocateInto: [5, 5, {}], areas: null, canFit: [5, 5], canGrowTo: [120, 120], clear: [], clone: [], cuts: [], allocated: [],
    deallocate: [3], deallocateAll: [[3]], dispose: [], freeBoxes: [], get: [3], grow: [120, 120], isEmpty: null, options: null, rearrange: [],
    reserve: [5], reset: [5, 5, {}], resizeAndRearrange: [120, 120], size: null, slots: null, toJSON: null,
    unusableArea: [5, 5], largestFree: [],
  },
  SimpleAtlas: {
    allocate: [5, 5], canGrowTo: [120, 120], clear: [], dispose: [], grow: [120, 120], initFrom: [new Atlas(5, 5)], isEmpty: null, options: null,
    reset: [5, 5, {}], size: null, slots: null, toJSON: null,
  },
  PagedAtlas: {
    allocate: [5, 5], allocated: [0], areas: [0], clear: [], deallocate: [0, 3], dispose: [], get: [0, 3], grow: [0, 120, 120], pageCount: null,
    pageSize: [0], shrink: [], toJSON: null,
  },
  TextureCache: {
    areas: [0], beginFrame: [], changes: [], clear: [], clone: [], compact: [1], dispose: [], endBatch: [1], get: ['a'],
    getInto: ['a', { rectangle: {}, inner: {} }], has: ['a'],
    insert: ['b', 5, 5], insertAll: [['b'], [5, 5], out], length: null, newest: [], numbers: null, older: ['a'], oldest: [], options: null,
    pageCount: null, pageSize: [0], peek: ['a'], remove: ['a'], repack: [0], repackKeepingAll: [0], reserve: [5], reserveChanges: [5],
    reserveSlots: [5], shrink: [], statistics: null, toJSON: null,
    touch: ['a'], trim: [0], unusableArea: [0, 5, 5],
  },
};

function owners() {
  const [atlas, simple, cache] = [new Atlas(100, 100), new SimpleAtlas(100, 100), new TextureCache({ page })];
  const paged = new PagedAtlas(100, 100, 2);
  atlas.allocate(20, 60);
  paged.allocate(20, 60);
  simple.allocate(20, 60);
  cache.insert('a', 20, 20);
  return { Atlas: atlas, SimpleAtlas: simple, PagedAtlas: paged, TextureCache: cache };
}

const stateOfAll = ({ Atlas: atlas, SimpleAtlas: simple, PagedAtlas: paged, TextureCache: cache }) => (
  JSON.stringify([stateOf(atlas), simpleState(simple), pagedState(paged), cacheState(cache, ['a', 'b']), wollemigo.memory().atlases]));

for (const [name, calls] of Object.entries(CALLS)) {
  test(`an argument more than ${name} takes`, () => {
    const made = owners();
    const before = stateOfAll(made);
    const methods = Object.getOwnPropertyNames(wollemigo[name].prototype).filter((each) => each !== 'constructor');
    assert.deepEqual([...methods, 'dispose'].sort(), Object.keys(calls).sort());
    for (const [call, given] of Object.entries(calls)) {
      for (const more of given === null ? [] : [undefined, 5, null]) {
        refused(() => made[name][call](...given, more), 'SURPLUS', `${name}.${call} with ${more}`);
        assert.equal(stateOfAll(made), before, call);
      }
    }
    for (const [call, given] of Object.entries(calls)) if (given !== null) owners()[name][call](...given);
    assert.equal(JSON.stringify({ it: made[name] }), `{"it":${JSON.stringify(made[name].toJSON())}}`);
  });
}

test('an argument more than other calls take', async () => {
  const cases = {
    Atlas: () => new Atlas(5, 5, {}, 5, 5), SimpleAtlas: () => new SimpleAtlas(5, 5, {}, 5), PagedAtlas: () => new PagedAtlas(5, 5, 1, {}, 5),
    TextureCache: () => new TextureCache({ page }, 5),
    from: () => SimpleAtlas.from(new Atlas(5, 5), 5), memory: () => wollemigo.memory(5), pack: () => wollemigo.pack(sprites, {}, 5),
    packDense: () => wollemigo.packDense(sprites, {}, 5), packPages: () => wollemigo.packPages(sprites, {}, 5),
    packGroups: () => wollemigo.packGroups(sprites, [0], {}, 5), fill: () => wollemigo.fill(sprites, {}, 5),
  };
  for (const [name, call] of Object.entries(cases)) refused(call, 'SURPLUS', name);
  await assert.rejects(() => wollemigo.load(undefined, 5), (error) => error.code === 'SURPLUS');
});

test('the box that the id of a former call names is listed by freeBoxes, and free is no call', () => {
  const atlas = new Atlas(64, 64);
  assert.equal(atlas.free, undefined);
  assert.deepEqual(atlas.freeBoxes(), [{ x: 0, y: 0, width: 64, height: 64 }]);
});
