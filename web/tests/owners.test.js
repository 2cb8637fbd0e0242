// Each call of each class, made on each thing that isn't of that class: it is refused, and nothing changes.
import assert from 'node:assert/strict';
import { test } from 'node:test';

import * as wollemigo from '../node.js';
import { cacheState, pagedState, refused, simpleState, stateOf } from './support.js';

const { Atlas, PagedAtlas, SimpleAtlas, TextureCache } = wollemigo;
await wollemigo.load();
const page = { width: 64, height: 64 };

function filled() {
  const [atlas, simple, cache] = [new Atlas(100, 50), new SimpleAtlas(90, 40), new TextureCache({ page, pages: 2 })];
  const paged = new PagedAtlas(80, 40, 2);
  const { id } = atlas.allocate(20, 30);
  paged.allocate(10, 10);
  simple.allocate(10, 10);
  cache.insert('a', 10, 10);
  return { atlas, simple, paged, cache, id };
}

function stateOfAll({ atlas, simple, paged, cache }) {
  return [stateOf(atlas), simpleState(simple), pagedState(paged), cacheState(cache, ['a']), cache.pageSize(0), cache.areas(0)];
}

/** Each call that a class has, by its name: methods, and what its properties call. */
function callsOf({ prototype }) {
  const found = [];
  for (const name of Reflect.ownKeys(prototype)) {
    const { value, get } = Object.getOwnPropertyDescriptor(prototype, name);
    if (name !== 'constructor' && typeof (value ?? get) === 'function') found.push([String(name), value ?? get]);
  }
  return found;
}

/** Arguments that an object of the right class would take. */
function argumentsFor(made, name, { atlas, id }) {
  const ofPages = { deallocate: [0, id], get: [0, id], grow: [0, 200, 200], allocated: [0] };
  if (made === PagedAtlas && name in ofPages) return ofPages[name];
  if (made === TextureCache && name === 'get') return ['a'];
  const known = { deallocate: [id], get: [id], deallocateAll: [[id]], initFrom: [atlas], pageSize: [0], areas: [0], repack: [0], repackKeepingAll: [0],
    endBatch: [1], compact: [1], trim: [0], reserve: [5], reserveSlots: [5], reserveChanges: [5], older: ['a'], peek: ['a'], touch: ['a'], getInto: ['a', {}],
    insertAll: [[], [], new Int32Array(0)],
    allocateInto: [5, 5, {}], has: ['a'], remove: ['a'], insert: ['b', 5, 5], unusableArea: [0, 5, 5] };
  return known[name] ?? [200, 200];
}

test('a call on what is of another class', () => {
  const all = filled();
  const before = stateOfAll(all);
  const classes = [[Atlas, all.atlas], [SimpleAtlas, all.simple], [PagedAtlas, all.paged], [TextureCache, all.cache]];
  let tried = 0;
  for (const [made, own] of classes) {
    const strangers = [...classes.filter(([other]) => other !== made).map(([, other]) => other), Object.create(made.prototype),
      new Proxy(own, {}), Reflect.construct(made === Atlas ? SimpleAtlas : Atlas, [5, 5], made), {}, null, undefined, 5, 'x', made];
    for (const [name, call] of callsOf(made)) {
      const words = argumentsFor(made, name, all);
      for (const stranger of strangers) {
        refused(() => call.apply(stranger, words.slice(0, call.length)), 'BAD_THIS', `${made.name} ${name}`);
        tried += 1;
      }
    }
  }
  assert.ok(tried > 500, `${tried} calls`);
  assert.deepEqual(stateOfAll(all), before);
});

test('an atlas that is none', () => {
  const { simple, cache } = filled();
  for (const value of [simple, cache, Object.create(Atlas.prototype), new Proxy(new Atlas(5, 5), {}), Atlas, null]) {
    refused(() => simple.initFrom(value), 'BAD_OPTION', 'initFrom');
    refused(() => SimpleAtlas.from(value), 'BAD_OPTION', 'from');
  }
});

test('the class that the others have in common', () => {
  const common = Object.getPrototypeOf(Atlas);
  for (const words of [[], ['atlas_free', () => 0], [{ name: 'Atlas', free: 'atlas_free' }, () => 0]]) {
    refused(() => Reflect.construct(common, words), 'BAD_THIS', 'made');
  }
  for (const value of [{}, null, undefined, 5, Atlas, new Proxy(new Atlas(5, 5), {})]) {
    refused(() => common.prototype.dispose.call(value), 'BAD_THIS', 'dispose');
  }
  const { atlas } = filled();
  common.prototype.dispose.call(atlas);
  refused(() => atlas.isEmpty, 'DISPOSED', 'disposed');
});

test('a class of a caller', () => {
  class Glyphs extends Atlas {
    get slots() { return { used: 1e9 }; }

    get size() { return {}; }
  }
  const glyphs = new Glyphs(50, 50);
  const box = glyphs.allocate(5, 5);
  assert.deepEqual(glyphs.allocated(), [box]);
  assert.equal(glyphs.rearrange().changes.length, 1);
  assert.equal(glyphs.cuts().width, 50);
});
