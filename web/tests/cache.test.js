// A cache: places, changes, and keys of all kinds, beside a list of what a caller knows.
import assert from 'node:assert/strict';
import { test } from 'node:test';

import * as wollemigo from '../node.js';
import { NO_NUMBERS, named, refused } from './support.js';

const { TextureCache } = wollemigo;
await wollemigo.load();
const SIDE = { width: 16, height: 16 };

function box(x, y, width, height) {
  return { x, y, width, height };
}

function whole(number, page, y = 0) {
  return { number, page, rectangle: box(0, y, 16, 16), inner: box(0, y, 16, 16) };
}

test('pages come, grow, and keys give way', () => {
  const cache = new TextureCache({ page: SIDE, largestPage: { width: 16, height: 32 }, pages: 2 });
  assert.deepEqual(cache.insert('a', 16, 16), { ...whole(0, 0), isNew: true });
  assert.deepEqual([...cache.changes()], [{ kind: 'pageAdded', page: 0, ...SIDE }]);
  const second = whole(1, 0, 16);
  assert.deepEqual(cache.insert('b', 16, 16), { ...second, isNew: true });
  assert.deepEqual([...cache.changes()], [{ kind: 'pageGrown', page: 0, width: 16, height: 32 }]);
  cache.insert('c', 16, 16);
  cache.insert('d', 16, 16);
  assert.equal(cache.insert('e', 1, 1), null);
  assert.deepEqual([...cache.changes()].map((change) => change.kind), ['pageAdded', 'pageGrown']);
  cache.beginFrame();
  assert.deepEqual(cache.get('a'), whole(0, 0));
  assert.deepEqual(cache.insert('a', 16, 16), { ...whole(0, 0), isNew: false });
  assert.deepEqual(cache.insert('e', 16, 16), { ...second, isNew: true });
  assert.equal(cache.numbers, 4);
  assert.deepEqual([...cache.changes()], [{ kind: 'evicted', key: 'b', from: second }]);
  assert.deepEqual([cache.has('b'), cache.length, cache.pageCount, cache.pageSize(1)], [false, 4, 2, { width: 16, height: 32 }]);
  assert.deepEqual(cache.statistics, { hits: 2, misses: 0, evictions: 1, forced: 0 });
  refused(() => cache.pageSize(2), 'NO_PAGE', 'pageSize');
  refused(() => cache.repack(2), 'NO_PAGE', 'repack');
  const cases = [['a', 15, 16, 'OTHER_SIZE'], ['f', 17, 16, 'NEVER_FITS'], ['f', 16, 33, 'NEVER_FITS'], ['a', 16, -1, 'OTHER_SIZE']];
  for (const [key, width, height, code] of cases) refused(() => cache.insert(key, width, height), code, `${key} ${width} ${height}`);
  assert.deepEqual([cache.length, cache.has('f'), [...cache.changes()]], [4, false, []]);
});

test('a blank key takes no room, and is found, listed and trimmed', () => {
  const cache = new TextureCache({ page: SIDE, pages: 1 });
  const nothing = { x: 0, y: 0, width: 0, height: 0 };
  const place = { number: 0, page: 0, rectangle: nothing, inner: nothing };
  assert.deepEqual(cache.insert('space', 0, 5), { ...place, isNew: true });
  assert.deepEqual([[...cache.changes()], cache.pageCount, cache.length], [[], 0, 1]);
  cache.insert('a', 16, 16);
  cache.beginFrame();
  cache.insert('b', 16, 16);
  assert.deepEqual([cache.has('a'), cache.get('space'), cache.newest()], [false, place, { key: 'space', place }]);
  assert.deepEqual(cache.insert('space', 0, 5), { ...place, isNew: false });
  refused(() => cache.insert('space', 1, 5), 'OTHER_SIZE', 'space');
  cache.trim(0);
  assert.deepEqual([...cache.changes()].at(-1), { kind: 'evicted', key: 'space', from: place });
});

test('a batch ends: the key that was used last goes, and the frame goes on', () => {
  const cache = new TextureCache({ page: SIDE, pages: 2 });
  cache.beginFrame();
  for (const key of ['a', 'b']) cache.insert(key, 16, 16);
  assert.equal(cache.insert('c', 16, 16), null);
  cache.endBatch(1);
  assert.deepEqual([...cache.changes()].at(-1), { kind: 'evicted', key: 'b', from: whole(1, 1) });
  assert.deepEqual(cache.insert('c', 16, 16), { ...whole(1, 1), isNew: true });
  cache.trim(1);
  assert.deepEqual([cache.has('a'), cache.insert('b', 16, 16)], [true, null]);
});

test('keys of the last page move to the page before it, and the page goes', () => {
  const cache = new TextureCache({ page: SIDE, pages: 2 });
  cache.insert('a', 16, 16);
  const from = cache.insert('b', 8, 8);
  const { number } = from;
  assert.equal(cache.compact(64), 0);
  cache.remove('a');
  for (const each of cache.changes()) assert.equal(each.kind, 'pageAdded');
  assert.deepEqual([cache.compact(63), cache.compact(64n), cache.compact(64)], [0, 64, 0]);
  cache.shrink();
  const square = { x: 0, y: 0, width: 8, height: 8 };
  const to = { number, page: 0, rectangle: square, inner: square };
  const { isNew, ...was } = from;
  assert.deepEqual([...cache.changes()], [{ kind: 'moved', key: 'b', from: was, to }, { kind: 'pageRemoved', page: 1 }]);
  assert.deepEqual([isNew, cache.peek('b'), cache.pageCount], [true, to, 1]);
});

test('what is free on a page and of no use', () => {
  const cache = new TextureCache({ page: SIDE });
  refused(() => cache.unusableArea(0, 1, 1), 'NO_PAGE', 'unusableArea');
  for (const [key, height] of [['a', 8], ['b', 8]]) cache.insert(key, 16, height);
  cache.remove(cache.peek('a').rectangle.y === 0 ? 'a' : 'b');
  assert.equal(cache.areas(0).free, 128);
  assert.deepEqual([[16, 8], [17, 8], [16, 9], [-1, 9]].map(([width, height]) => cache.unusableArea(0, width, height)), [0, 128, 128, 128]);
});

test('pages at the end that hold nothing go', () => {
  const cache = new TextureCache({ page: SIDE, pages: 3 });
  for (const key of ['a', 'b', 'c']) cache.insert(key, 16, 16);
  cache.remove('a');
  cache.remove('c');
  cache.shrink();
  assert.deepEqual([...cache.changes()].slice(3), [{ kind: 'pageRemoved', page: 2 }]);
  assert.deepEqual([cache.pageCount, cache.peek('b')], [2, whole(1, 1)]);
  cache.clear();
  cache.shrink();
  assert.deepEqual([...cache.changes()].map(({ kind, page }) => [kind, page]), [['pageRemoved', 1], ['pageRemoved', 0]]);
  assert.equal(cache.pageCount, 0);
});

test('bad options', () => {
  const cases = [
    [{ page: { width: 0, height: 1 } }, 'EMPTY_PAGE'], [{ page: SIDE, largestPage: { width: 15, height: 16 } }, 'LARGEST_PAGE'],
    [{ page: SIDE, pages: 0 }, 'NO_PAGES'], [{ page: SIDE, padding: -1 }, 'BAD_PADDING'],
    [{ page: SIDE, atlas: { smallSizeThreshold: 500 } }, 'BAD_ATLAS'], [{ page: SIDE, padding: 8 }, 'NOTHING_FITS'],
  ];
  for (const [options, code] of cases) refused(() => new TextureCache(options), code, code);
});

test('a page grows only where the largest page says so', () => {
  const cache = new TextureCache({ page: SIDE });
  cache.insert(1, 16, 16);
  assert.equal(cache.insert(2, 1, 1), null);
  assert.deepEqual([...cache.changes()], [{ kind: 'pageAdded', page: 0, ...SIDE }]);
});

test('keys that are the same, and keys that are not', () => {
  const cache = new TextureCache({ page: { width: 256, height: 256 } });
  const keys = ['', '0', 'é', 'e\u0301', '\ud800', '__proto__', 'x'.repeat(100000), 0, 1, 2 ** 53 - 1, 2n ** 53n, 2n ** 63n - 1n, 4294967296];
  for (const [i, key] of keys.entries()) assert.ok(cache.insert(key, 1 + i, 1).isNew);
  assert.equal(cache.length, keys.length);
  for (const [i, key] of keys.entries()) {
    assert.equal(cache.peek(key).inner.width, 1 + i);
    assert.deepEqual(cache.get(key), cache.peek(key));
  }
  for (const key of [2, 2 ** 32 + 1, 2 ** 53 - 2, 2n ** 62n, 2n ** 63n - 2n, 'y']) assert.equal(cache.get(key), null);
  for (const [one, other] of [[0, 0n], [-0, 0], [1, 1n], [2 ** 53 - 1, 2n ** 53n - 1n], [4294967296, 4294967296n]]) {
    assert.deepEqual(cache.peek(one), cache.peek(other));
  }
  cache.trim(0);
  const told = [...cache.changes()].filter((change) => change.kind === 'evicted').map((change) => change.key);
  assert.deepEqual(told, keys);
  assert.equal(cache.length, 0);
});

test('a string that was let go is a new key', () => {
  const cache = new TextureCache({ page: SIDE });
  const ways = [() => cache.remove('a'), () => cache.clear(), () => cache.trim(0), () => { cache.beginFrame(); cache.insert('b', 16, 16); cache.remove('b'); }];
  for (const letGo of ways) {
    assert.ok(cache.insert('a', 16, 16).isNew);
    letGo();
    assert.ok(!cache.has('a') && cache.get('a') === null && cache.remove('a') === null);
  }
  assert.deepEqual([...cache.changes()].map(({ kind, key }) => key ?? kind), ['pageAdded', 'a', 'a']);
});

test('changes are handed over once, in order, and wait where a loop ends early', () => {
  const cache = new TextureCache({ page: SIDE });
  for (const key of ['a', 'b', 'c']) {
    cache.insert(key, 16, 16);
    cache.beginFrame();
  }
  for (const change of cache.changes()) {
    assert.equal(change.kind, 'pageAdded');
    break;
  }
  const rest = cache.changes();
  assert.equal(rest.next().value.key, 'a');
  cache.insert('d', 16, 16);
  assert.deepEqual([...rest].map((change) => change.key), ['b', 'c']);
  assert.deepEqual([...cache.changes()], []);
});

test('what a cache knows of itself', () => {
  const options = { page: { width: 32, height: 16 }, largestPage: { width: 32, height: 32 }, pages: 2, padding: 1 };
  const cache = new TextureCache(options);
  const atlas = { alignment: { width: 1, height: 1 }, smallSizeThreshold: 32, largeSizeThreshold: 256 };
  assert.deepEqual(cache.options, { ...options, atlas });
  assert.deepEqual([cache.newest(), cache.oldest(), cache.older('a')], [null, null, null]);
  refused(() => cache.areas(0), 'NO_PAGE', 'areas');
  cache.reserve(10);
  for (const [key, side] of [['a', 4], [7, 6], ['c', 2]]) cache.insert(key, side, side);
  assert.deepEqual(cache.areas(0), { allocated: 36 + 64 + 16, free: 512 - 36 - 64 - 16 });
  cache.get('a');
  const keys = [];
  for (let next = cache.newest(); next !== null; next = cache.older(next.key)) {
    assert.deepEqual(next.place, cache.peek(next.key));
    keys.push(next.key);
  }
  assert.deepEqual(keys, ['a', 'c', 7]);
  assert.deepEqual(cache.oldest(), { key: 7, place: cache.peek(7) });
});

test('moved keys are told with both places', () => {
  const cache = new TextureCache({ page: { width: 64, height: 64 }, padding: 1 });
  for (const [key, side] of [['a', 5], [7, 20], ['c', 9]]) cache.insert(key, side, side);
  cache.remove(7);
  const before = { a: cache.peek('a'), c: cache.peek('c') };
  for (const each of cache.changes()) assert.equal(each.kind, 'pageAdded');
  cache.repack(0);
  const moved = [...cache.changes()];
  assert.deepEqual(moved.map(({ kind, key }) => [kind, key]), [['moved', 'c'], ['moved', 'a']]);
  for (const { key, from, to } of moved) {
    assert.deepEqual(from, before[key]);
    assert.deepEqual(to, cache.peek(key));
  }
});

test('a repacking that keeps all keys', () => {
  const cache = new TextureCache({ page: { width: 16, height: 16 }, pages: 1 });
  for (const [key, width, height] of [['a', 6, 8], ['b', 10, 9], ['c', 6, 8]]) cache.insert(key, width, height);
  assert.equal([...cache.changes()].length, 1);
  assert.equal(cache.repackKeepingAll(0), false);
  refused(() => cache.repackKeepingAll(1), 'NO_PAGE', 'repackKeepingAll');
  assert.deepEqual([[...cache.changes()], cache.length, cache.statistics.evictions], [[], 3, 0]);
  cache.remove('a');
  assert.equal(cache.repackKeepingAll(0), true);
  const moved = [...cache.changes()].map(({ kind, key, to }) => [kind, key, to.rectangle.x, to.rectangle.y]);
  assert.deepEqual(moved, [['moved', 'c', 10, 0], ['moved', 'b', 0, 0]]);
});

// On a page of 16 by 16 a key takes 8 by 8 with its border, so that 192 pixels are free. A second one has room only once it is gone.
test('evictions are forced where a page has the area, and no room', () => {
  const counted = (padding, width, height) => {
    const cache = new TextureCache({ page: SIDE, pages: 1, padding });
    cache.insert('a', 8 - 2 * padding, 8 - 2 * padding);
    cache.beginFrame();
    assert.equal(cache.insert('b', width, height).isNew, true);
    const { evictions, forced } = cache.statistics;
    return [evictions, forced];
  };
  assert.deepEqual([counted(0, 16, 12), counted(0, 16, 13)], [[1, 1], [1, 0]]); // 192 and 208 pixels
  assert.deepEqual([counted(1, 14, 10), counted(1, 14, 11)], [[1, 1], [1, 0]]); // the same with the border; 154 without
});

test('two forced evictions count as two, and what a trim evicts as none', () => {
  const cache = new TextureCache({ page: SIDE, pages: 1 });
  for (const key of ['a', 'b']) cache.insert(key, 16, 4);
  cache.beginFrame();
  cache.insert('c', 8, 16); // 128 pixels are free, below the two
  cache.trim(0);
  assert.deepEqual([...cache.changes()].filter(({ kind }) => kind === 'evicted').map(({ key }) => key), ['a', 'b', 'c']);
  assert.deepEqual(cache.statistics, { hits: 0, misses: 0, evictions: 3, forced: 2 });
});

test('a caller who follows the changes knows the place of each key', () => {
  const cache = new TextureCache({ page: { width: 64, height: 64 }, largestPage: { width: 128, height: 64 }, pages: 3, padding: 1 });
  const known = new Map();
  let state = 1;
  const below = (bound) => { state = (Math.imul(state, 1103515245) + 12345) >>> 0; return (state >>> 8) % bound; };
  const follow = () => {
    for (const change of cache.changes()) {
      if (change.kind === 'evicted' || change.kind === 'moved') assert.deepEqual(known.get(change.key), change.from);
      if (change.kind === 'evicted') known.delete(change.key);
      if (change.kind === 'moved') known.set(change.key, change.to);
    }
  };
  for (let i = 0; i < 20000; i++) {
    const number = below(120);
    const key = number % 2 === 0 ? number : `key ${number}`;
    if (below(40) === 0) cache.beginFrame();
    if (below(300) === 0 && cache.pageCount > 0) cache.repack(below(cache.pageCount));
    if (below(30) === 0) {
      cache.remove(key);
      follow();
      known.delete(key);
    }
    const entry = cache.get(key) === null ? cache.insert(key, 4 + number % 30, 4 + number % 17) : null;
    follow();
    if (entry !== null) known.set(key, { number: entry.number, page: entry.page, rectangle: entry.rectangle, inner: entry.inner });
    assert.equal(known.size, cache.length);
  }
  for (const [key, place] of known) assert.deepEqual(cache.peek(key), place);
  assert.ok(cache.statistics.evictions > 500);
});

test('a copy goes on by itself, with the changes that wait', () => {
  const cache = new TextureCache({ page: SIDE, pages: 3 });
  for (const key of ['a', 'b', 3]) cache.insert(key, 16, 16);
  cache.changes().next();
  cache.beginFrame();
  const copy = cache.clone();
  const added = (page) => ({ kind: 'pageAdded', page, ...SIDE });
  const [change] = cache.changes();
  assert.deepEqual(change, added(1));
  change.page = 9; // it is the caller's
  assert.deepEqual([...copy.changes()], [added(1), added(2)]);
  assert.deepEqual([copy.options, copy.statistics, [...copy]], [cache.options, cache.statistics, [...cache]]);
  assert.deepEqual(copy.insert('c', 16, 16), { ...whole(0, 0), isNew: true }); // in place of the least recently used
  assert.deepEqual([...copy.changes()], [{ kind: 'evicted', key: 'a', from: whole(0, 0) }]);
  assert.deepEqual(['a', 'c', 'b', 3].map((key) => [cache.has(key), copy.has(key)]), [[true, false], [false, true], [true, true], [true, true]]);
  cache.insert('d', 16, 16); // a string of its own: no key of the copy is taken for it
  assert.deepEqual([copy, cache].map((it) => [...it].map(({ key }) => key)), [['c', 3, 'b'], ['d', 3, 'b']]);
  cache.dispose();
  assert.deepEqual(copy.get('b'), whole(1, 1));
  copy.dispose();
  refused(() => copy.clone(), 'DISPOSED', 'clone');
});

test('a loop goes through the keys that are held at its start, in the order of use', () => {
  const cache = new TextureCache({ page: { width: 64, height: 64 } });
  assert.deepEqual([...cache], []);
  for (const key of ['a', 2, 2n ** 60n, '']) cache.insert(key, key === '' ? 0 : 4, 4);
  cache.get(2);
  const known = [...cache];
  assert.deepEqual(known.map(({ key }) => key), [2, '', 2n ** 60n, 'a']);
  for (const { key, place } of known) assert.deepEqual(place, cache.peek(key));
  const seen = [];
  for (const { key } of cache) {
    seen.push(key);
    cache.get('a');
    cache.remove(key);
  }
  assert.deepEqual([seen, cache.length], [known.map(({ key }) => key), 0]);
});

test('what is in reserve needs no memory', () => {
  const many = 20000;
  const cache = new TextureCache({ page: { width: 1024, height: 1024 } });
  cache.insert('first', 1, 1);
  const bytes = () => wollemigo.memory().bytes;
  const took = [() => cache.reserve(many), () => cache.reserveSlots(4 * many), () => cache.reserveChanges(many + 1)].map((take) => {
    const before = bytes();
    take();
    return bytes() - before;
  });
  // An entry, 4 slots and a change each.
  assert.ok(took[0] >= many * 32 && took[1] >= 4 * many * 40 && took[2] >= many * 48, `${took}`);
  const before = bytes();
  for (let key = 0; key < many; key++) cache.insert(key, 1 + (key % 7), 1 + (key % 5));
  cache.trim(0);
  assert.deepEqual([bytes(), cache.length, [...cache.changes()].length], [before, 0, many + 2]);
  refused(() => cache.reserveSlots(16777216), 'SLOTS', 'reserveSlots'); // one is used
  for (const call of ['reserve', 'reserveChanges']) refused(() => cache[call](4294967295), 'MEMORY', call);
  for (const call of ['reserve', 'reserveSlots', 'reserveChanges']) {
    for (const value of NO_NUMBERS) refused(() => cache[call](value), 'BAD_NUMBER', `${call} ${named(value)}`);
  }
});
