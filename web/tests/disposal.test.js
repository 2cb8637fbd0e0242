// What is let go by hand, and what memory tells.
import assert from 'node:assert/strict';
import { test } from 'node:test';

import * as wollemigo from '../node.js';
import { refused } from './support.js';

const { Atlas, PagedAtlas, SimpleAtlas, TextureCache } = wollemigo;
await wollemigo.load();
const page = { width: 64, height: 64 };

/** Each method and getter of a class with arguments that are right. */
const USES = {
  Atlas: {
    allocate: [1, 1], deallocate: [3], deallocateAll: [[]], get: [3], canFit: [1, 1], reserve: [1], grow: [200, 200],
    canGrowTo: [200, 200], rearrange: [], resizeAndRearrange: [5, 5], clear: [], reset: [5, 5], allocated: [], freeBoxes: [], cuts: [],
    clone: [], allocateInto: [1, 1, {}], unusableArea: [1, 1], largestFree: [],
  },
  SimpleAtlas: { allocate: [1, 1], grow: [200, 200], canGrowTo: [200, 200], clear: [], reset: [5, 5], initFrom: [new Atlas(5, 5)] },
  PagedAtlas: {
    allocate: [1, 1], deallocate: [0, 3], get: [0, 3], grow: [0, 200, 200], shrink: [], clear: [], pageSize: [0], areas: [0], allocated: [0],
  },
  TextureCache: {
    beginFrame: [], get: ['a'], peek: ['a'], insert: ['a', 1, 1], remove: ['a'], has: ['a'], changes: [], clear: [], trim: [1], repack: [0],
    repackKeepingAll: [0], endBatch: [1], compact: [1],
    shrink: [], pageSize: [0], areas: [0], newest: [], oldest: [], older: ['a'], reserve: [1], reserveSlots: [4],
    reserveChanges: [1], clone: [],
    unusableArea: [0, 1, 1], touch: ['a'], getInto: ['a', {}], insertAll: [['a'], [1, 1], new Int32Array(11)],
  },
};
const MAKERS = {
  Atlas: () => new Atlas(100, 100), SimpleAtlas: () => new SimpleAtlas(100, 100), PagedAtlas: () => new PagedAtlas(100, 100, 2),
  TextureCache: () => new TextureCache({ page }),
};

test('each call of what was disposed of', () => {
  for (const [name, make] of Object.entries(MAKERS)) {
    const it = make();
    const described = Object.getOwnPropertyDescriptors(wollemigo[name].prototype);
    const methods = Object.keys(described).filter((each) => !['constructor', 'toJSON'].includes(each) && described[each].value !== undefined);
    const getters = Object.keys(described).filter((each) => described[each].get !== undefined);
    assert.deepEqual(methods.sort(), Object.keys(USES[name]).sort());
    assert.ok(getters.length > (name === 'PagedAtlas' ? 0 : 2));
    it.dispose();
    it.dispose();
    for (const method of methods) refused(() => it[method](...USES[name][method]), 'DISPOSED', `${name}.${method}`);
    for (const getter of getters) refused(() => it[getter], 'DISPOSED', `${name}.${getter}`);
    if (name === 'TextureCache') refused(() => [...it], 'DISPOSED', 'a loop');
    assert.deepEqual(it.toJSON(), { state: 'DISPOSED' });
    if (Symbol.dispose !== undefined) it[Symbol.dispose]();
  }
  const gone = new Atlas(5, 5);
  gone.dispose();
  refused(() => SimpleAtlas.from(gone), 'DISPOSED', 'from');
});

test('what memory tells', () => {
  const before = wollemigo.memory();
  const counts = ({ atlases, simpleAtlases, pagedAtlases, caches }) => [atlases, simpleAtlases, pagedAtlases, caches];
  assert.ok(before.bytes >= 131072 && before.bytes % 65536 === 0);
  const made = [new Atlas(5, 5), new Atlas(5, 5).clone(), new SimpleAtlas(5, 5), new PagedAtlas(5, 5, 2), new TextureCache({ page }),
    new TextureCache({ page }).clone()];
  refused(() => new Atlas(0, 5), 'BAD_CALL', 'none is made');
  const [atlases, simples, pages, caches] = counts(before);
  assert.deepEqual(counts(wollemigo.memory()), [atlases + 3, simples + 1, pages + 1, caches + 3]);
  for (const each of made) for (let i = 0; i < 2; i++) each.dispose();
  assert.deepEqual(counts(wollemigo.memory()), [atlases + 1, simples, pages, caches + 1]);
});

test('a loop that disposes of what it makes takes no more than one', () => {
  for (let i = 0; i < 10; i++) new Atlas(5, 5).dispose();
  const { bytes } = wollemigo.memory();
  for (let i = 0; i < 20000; i++) new Atlas(5, 5).dispose();
  assert.equal(wollemigo.memory().bytes, bytes);
});

test('the options for glyphs', () => {
  const { smallSizeThreshold, largeSizeThreshold } = new Atlas(64, 64, wollemigo.GLYPHS).options;
  assert.deepEqual([smallSizeThreshold, largeSizeThreshold], [0, 5000]);
  assert.deepEqual(new TextureCache({ page, atlas: wollemigo.GLYPHS }).options.atlas.largeSizeThreshold, 5000);
});

test('a loop over changes ends where its cache is disposed of', () => {
  const cache = new TextureCache({ page });
  cache.insert(1, 1, 1);
  const changes = cache.changes();
  cache.dispose();
  refused(() => changes.next(), 'DISPOSED', 'next');
});

test('a place for a handle is used again', () => {
  for (let i = 0; i < 20000; i++) {
    const [one, other] = [new Atlas(5, 5), new SimpleAtlas(5, 5)];
    one.dispose();
    assert.deepEqual(other.allocate(5, 5), { x: 0, y: 0, width: 5, height: 5 });
    other.dispose();
  }
});

test('more objects than there are places at first', () => {
  const all = Array.from({ length: 2000 }, (_, i) => new SimpleAtlas(1 + i, 1));
  for (const [i, each] of all.entries()) assert.equal(each.size.width, 1 + i);
  for (const each of all) each.dispose();
});
