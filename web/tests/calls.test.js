// Calls and their answers, in tables; those of C that they take after are in bindings/tests.
import assert from 'node:assert/strict';
import { test } from 'node:test';

import * as wollemigo from '../node.js';
import { refused, simpleState, stateOf } from './support.js';

const { Atlas, MOST_SLOTS, SimpleAtlas, TextureCache, fill, pack, packDense, packGroups, packPages } = wollemigo;
await wollemigo.load();

function box(x, y, width, height) {
  return { x, y, width, height };
}

test('an atlas: its whole life', () => {
  const atlas = new Atlas(100, 100);
  const granted = atlas.allocate(20, 60);
  assert.deepEqual(granted, { id: 3, ...box(0, 0, 20, 60) });
  assert.deepEqual(atlas.get(3), box(0, 0, 20, 60));
  assert.equal(atlas.get(4), null);
  assert.deepEqual(atlas.areas, { allocated: 1200, free: 8800 });
  assert.deepEqual(atlas.largestFree(), box(20, 0, 80, 100));
  assert.deepEqual([[20, 40], [80, 100], [20, 41], [81, 1], [0, 5]].map(([width, height]) => atlas.unusableArea(width, height)),
    [0, 800, 800, 8800, 8800]);
  assert.equal(atlas.slots.limit, MOST_SLOTS);
  assert.ok(atlas.canFit(80, 100) && !atlas.canFit(81, 100) && !atlas.canFit(0, 1));
  const copy = atlas.clone();
  atlas.deallocate(3);
  assert.ok(atlas.isEmpty && !copy.isEmpty && copy instanceof Atlas);
  refused(() => atlas.deallocate(3), 'NOT_LIVE', 'twice');
  assert.deepEqual(copy.allocated(), [granted]);
  copy.grow(150, 100);
  refused(() => copy.grow(149, 200), 'BAD_CALL', 'a side shrinks');
  assert.ok(copy.canGrowTo(150, 100) && !copy.canGrowTo(149, 200));
  assert.deepEqual(copy.size, { width: 150, height: 100 });
  copy.clear();
  assert.deepEqual(copy.freeBoxes(), [box(0, 0, 150, 100)]);
  copy.reset(64, 32, { alignment: { width: 8, height: 1 }, largeSizeThreshold: 40 });
  assert.deepEqual(copy.options, { alignment: { width: 8, height: 1 }, smallSizeThreshold: 32, largeSizeThreshold: 40 });
  assert.deepEqual(copy.allocate(3, 3), { id: copy.allocated()[0].id, ...box(0, 0, 8, 3) });
});

test('what is placed anew, and what finds no room', () => {
  const atlas = new Atlas(64, 64);
  const [large, small] = [atlas.allocate(40, 40), atlas.allocate(10, 10)];
  const { changes, failures } = atlas.resizeAndRearrange(32, 32);
  assert.deepEqual(changes.map((change) => change.before), [small]);
  assert.deepEqual(failures, [large]);
  assert.deepEqual(changes.map((change) => change.after), atlas.allocated());
  assert.deepEqual(changes[0].after, { id: changes[0].after.id, ...box(0, 0, 10, 10) });
  const moved = atlas.rearrange();
  assert.equal(moved.changes.length, 1);
  assert.deepEqual(moved.failures, []);
  for (const [width, height] of [[0, 5], [5, 0], [-1, 5]]) refused(() => atlas.resizeAndRearrange(width, height), 'BAD_CALL', 'empty');
});

test('freeing all or none', () => {
  const atlas = new Atlas(64, 64);
  const ids = [1, 2, 3, 4].map((side) => atlas.allocate(side, side).id);
  const before = stateOf(atlas);
  for (const list of [[ids[0], ids[0]], [ids[1], 999], [...ids, ids[3]]]) refused(() => atlas.deallocateAll(list), 'NOT_LIVE', 'list');
  assert.deepEqual(stateOf(atlas), before);
  atlas.deallocateAll([]);
  atlas.deallocateAll(new Uint32Array(ids.slice(0, 2)));
  atlas.deallocateAll(new Set(ids.slice(2)));
  assert.ok(atlas.isEmpty);
});

test('more boxes than one page of memory lists', () => {
  const atlas = new Atlas(512, 512);
  const granted = [];
  for (let box = atlas.allocate(4, 4); box !== null; box = atlas.allocate(4, 4)) granted.push(box);
  assert.equal(granted.length, 16384);
  assert.deepEqual(atlas.allocated(), granted.sort((a, b) => a.id % 16777216 - b.id % 16777216));
  atlas.deallocateAll(granted.map(({ id }) => id));
  assert.deepEqual(atlas.freeBoxes(), [box(0, 0, 512, 512)]);
});

test('bad calls of an atlas, and the limit on its slots', () => {
  for (const [width, height, limit] of [[0, 1], [1, 0], [-5, 5], [5, 5, 0], [5, 5, MOST_SLOTS + 1]]) {
    refused(() => new Atlas(width, height, undefined, limit), 'BAD_CALL', `${width} ${height} ${limit}`);
  }
  const atlas = new Atlas(64, 64, {}, 1);
  const before = stateOf(atlas);
  refused(() => atlas.allocate(5, 5), 'SLOTS', 'allocate');
  refused(() => atlas.reserve(1), 'SLOTS', 'reserve');
  assert.deepEqual(stateOf(atlas), before);
  const { id, ...whole } = atlas.allocate(64, 64);
  assert.deepEqual(whole, box(0, 0, 64, 64));
  refused(() => atlas.grow(65, 65), 'SLOTS', 'grow');
  assert.deepEqual(atlas.allocated(), [{ id, ...whole }]);
  assert.deepEqual(new Atlas(2147483647, 2147483647).freeBoxes(), [box(0, 0, 2147483647, 2147483647)]);
});

test('a simple atlas', () => {
  const simple = new SimpleAtlas(100, 300);
  for (const y of [0, 100, 200]) assert.deepEqual(simple.allocate(100, 100), box(0, y, 100, 100));
  assert.equal(simple.allocate(1, 1), null);
  simple.grow(100, 301);
  assert.deepEqual(simple.allocate(100, 1), box(0, 300, 100, 1));
  simple.clear();
  assert.ok(simple.isEmpty);
  const before = simpleState(simple);
  refused(() => simple.grow(99, 500), 'BAD_CALL', 'a side shrinks');
  refused(() => simple.reset(0, 5), 'BAD_CALL', 'empty');
  refused(() => new SimpleAtlas(0, 5), 'BAD_CALL', 'empty');
  assert.deepEqual(simpleState(simple), before);
  assert.ok(simple.canGrowTo(100, 301) && !simple.canGrowTo(99, 500));
  const atlas = new Atlas(20, 10, { alignment: { width: 2, height: 2 } });
  atlas.allocate(20, 4);
  const rest = SimpleAtlas.from(atlas);
  assert.deepEqual(rest.options, atlas.options);
  assert.deepEqual(rest.allocate(19, 5), box(0, 4, 20, 6));
  assert.equal(rest.allocate(1, 1), null);
  assert.equal(atlas.areas.free, 120);
  simple.initFrom(atlas);
  assert.deepEqual(simple.size, { width: 20, height: 10 });
});

test('sheets that were worked by hand', () => {
  const sprite = { width: 3, height: 5 };
  const cases = [
    [[sprite], { padding: 1 }, [7, 7], [1, 1, 3, 5, false]],
    [[sprite], { padding: 1, sheets: { kind: 'powers', greatest: 64 } }, [8, 8], [1, 1, 3, 5, false]],
    [[sprite], { padding: 1, sheets: { kind: 'heights', width: 20, greatest: 64 } }, [20, 7], [1, 1, 3, 5, false]],
    [[{ width: 10, height: 10 }], { padding: 2, sheets: { kind: 'size', width: 14, height: 14 } }, [14, 14], [2, 2, 10, 10, false]],
    [[{ width: 4, height: 8 }], { turn: true, effort: 100, sheets: { kind: 'size', width: 8, height: 4 } }, [8, 4], [0, 0, 8, 4, true]],
  ];
  for (const [sprites, options, [width, height], [x, y, w, h, turned]] of cases) {
    assert.deepEqual(pack(sprites, options), { width, height, places: [{ ...box(x, y, w, h), turned }] });
  }
  assert.equal(pack([{ width: 10, height: 10 }], { padding: 2, sheets: { kind: 'size', width: 13, height: 14 } }), null);
  assert.equal(pack([{ width: 4, height: 8 }], { sheets: { kind: 'size', width: 8, height: 4 }, effort: 100 }), null);
  assert.deepEqual(pack([]), { width: 1, height: 1, places: [] });
});

test('a sheet with no guillotine cuts', () => {
  // By height they come as 10 x 6, 6 x 4, 4 x 2 and 4 x 2.
  const sprites = [[4, 2], [10, 6], [4, 2], [6, 4]].map(([width, height]) => ({ width, height }));
  const places = [[6, 6, 4, 2], [0, 0, 10, 6], [6, 8, 4, 2], [0, 6, 6, 4]].map((each) => ({ ...box(...each), turned: false }));
  assert.deepEqual(packDense(sprites), { width: 10, height: 10, places });
  assert.equal(packDense(sprites, { sheets: { kind: 'squares', greatest: 9 } }), null);
  assert.deepEqual(packDense([]), { width: 1, height: 1, places: [] });
  const turned = { turn: true, sheets: { kind: 'size', width: 8, height: 4 } };
  assert.deepEqual(packDense([{ width: 4, height: 8 }], turned), { width: 8, height: 4, places: [{ ...box(0, 0, 8, 4), turned: true }] });
});

test('several sheets, and one that is filled', () => {
  const four = { width: 4, height: 4 };
  const sheets = { kind: 'squares', greatest: 8 };
  const pages = packPages([four, four, four, four, four], { sheets });
  assert.deepEqual(pages.sizes, [{ width: 8, height: 8 }, four]);
  assert.deepEqual(pages.places.filter(({ page }) => page === 1), [{ page: 1, ...box(0, 0, 4, 4), turned: false }]);
  const corners = pages.places.filter(({ page }) => page === 0).map(({ x, y, width, height }) => [x, y, width, height].join(' '));
  assert.deepEqual(corners.sort(), ['0 0 4 4', '0 4 4 4', '4 0 4 4', '4 4 4 4']);
  assert.equal(packPages([four, { width: 9, height: 1 }], { sheets }), null);
  assert.deepEqual(packPages([]), { sizes: [], places: [] });
  const wide = { width: 9, height: 1 };
  assert.deepEqual(fill([four, wide], { sheets }), { width: 8, height: 8, left: 1, places: [{ ...box(0, 0, 4, 4), turned: false }, null] });
  assert.deepEqual(fill([], { sheets, padding: 2 }), { width: 8, height: 8, left: 0, places: [] });
  const turned = { turn: true, effort: 100, sheets: { kind: 'size', width: 8, height: 4 } };
  for (const place of [fill([{ width: 4, height: 8 }], turned).places[0], packPages([{ width: 4, height: 8 }], turned)?.places[0]]) {
    assert.deepEqual([place.x, place.y, place.width, place.height, place.turned], [0, 0, 8, 4, true]);
  }
});

test('groups on several sheets', () => {
  // Squares of 4, of which one of 8 takes four: the group of each, and its sheet.
  const four = { width: 4, height: 4 };
  const [six, sheets] = [Array(6).fill(four), { kind: 'squares', greatest: 8 }];
  const cases = [
    [[0, 1, 0, 1, 0, 1], '010101'], [[7, 7, 0, 0, 4294967294, 4294967294], '000011'], [[null, 1, 1, 1, null, null], '000011'],
    [[null, null, null, null, 1, 1], '001100'], [[1, 1, 1, 1, 1, null], '000011'], [new Set([null, 5]), '000011'],
  ];
  for (const [groups, wanted] of cases) {
    const { sizes, places } = packGroups(six, groups, { sheets });
    assert.equal(places.map(({ page }) => page).join(''), wanted);
    assert.equal(sizes.length, 2);
    for (const { width, height, turned } of places) assert.deepEqual([width, height, turned], [4, 4, false]);
  }
  assert.deepEqual(packGroups(six, [], { sheets }), packPages(six, { sheets }));
  assert.deepEqual(packGroups([four], [0, 0, 0]), { sizes: [four], places: [{ page: 0, ...box(0, 0, 4, 4), turned: false }] });
  assert.equal(packGroups([four, { width: 9, height: 1 }], [1, 1], { sheets }), null);
  assert.deepEqual(packGroups([], [0]), { sizes: [], places: [] });
});

test('bad sheets', () => {
  const sprites = [{ width: 1, height: 1 }, { width: 2, height: 0 }];
  assert.equal(refused(() => pack(sprites), 'EMPTY_SPRITE', 'empty').sprite, 1);
  assert.equal(refused(() => pack([{ width: 2147483647, height: 1 }], { padding: 1 }), 'GREAT_SPRITE', 'great').sprite, 0);
  const cases = [
    [{ sheets: { kind: 'size', width: 0, height: 1 } }, 'EMPTY_SHEET'], [{ sheets: { kind: 'squares', least: 0, greatest: 9 } }, 'EMPTY_SHEET'],
    [{ sheets: { kind: 'squares', least: 10, greatest: 9 } }, 'EMPTY_RANGE'], [{ alignment: { width: 0, height: 1 } }, 'EMPTY_ALIGNMENT'],
    [{ padding: 65536 }, 'BAD_CALL'],
  ];
  for (const [options, code] of cases) {
    for (const call of [pack, packDense, packPages, fill]) refused(() => call(sprites.slice(0, 1), options), code, code);
    refused(() => packGroups(sprites.slice(0, 1), [0], options), code, code);
  }
  const grouped = (of) => packGroups(of, [0, 0]);
  for (const call of [packDense, packPages, grouped, fill]) assert.equal(refused(() => call(sprites), 'EMPTY_SPRITE', 'empty').sprite, 1);
});

test('the seed and the effort of a sheet', () => {
  const sprites = Array.from({ length: 40 }, (_, i) => ({ width: 3 + i * 7 % 23, height: 2 + i * 5 % 19 }));
  const one = pack(sprites, { effort: 200, seed: 5 });
  assert.deepEqual(pack(sprites, { effort: 200, seed: 5n }), one);
  assert.ok(pack(sprites, { effort: 200, seed: 2n ** 64n - 1n }).width <= pack(sprites).width);
});

test('errors are errors', () => {
  const error = refused(() => new Atlas(0, 0), 'BAD_CALL', 'empty');
  assert.ok(error instanceof Error && String(error).startsWith('WollemigoError: '));
  assert.ok(!('sprite' in error) && error.cause === undefined);
});
