// Boxes on several pages; those of C that these take after are in bindings/tests/paged.c.
import assert from 'node:assert/strict';
import { test } from 'node:test';

import * as wollemigo from '../node.js';
import { pagedState, refused } from './support.js';

const { PagedAtlas } = wollemigo;
await wollemigo.load();

test('pages come where no other has room, and the last ones go where nothing is on them', () => {
  const layers = new PagedAtlas(64, 64, 3);
  assert.equal(layers.pageCount, 0);
  const [one, two, three] = [layers.allocate(64, 40), layers.allocate(50, 40), layers.allocate(64, 64)];
  assert.deepEqual(one, { page: 0, id: one.id, x: 0, y: 0, width: 64, height: 40 });
  assert.deepEqual([one.page, two.page, three.page, layers.pageCount], [0, 1, 2, 3]);
  assert.deepEqual([[64, 24], [64, 24], [14, 40]].map(([width, height]) => layers.allocate(width, height).page), [0, 1, 1]);
  assert.equal(layers.allocate(1, 1), null);
  layers.deallocate(0, one.id);
  assert.equal(layers.allocate(10, 40).page, 0);
  assert.equal(layers.shrink(), 3);
  layers.deallocate(2, three.id);
  assert.equal(layers.pageCount, 3);
  assert.deepEqual([layers.shrink(), layers.pageCount], [2, 2]);
  layers.clear();
  assert.deepEqual([layers.pageCount, layers.allocated(0), layers.allocated(1)], [2, [], []]);
  assert.deepEqual([layers.shrink(), layers.pageCount], [0, 0]);
  layers.dispose();
});

test('what is told of a page', () => {
  const layers = new PagedAtlas(100, 50, 4, { alignment: { width: 4, height: 8 } });
  const [one, two] = [layers.allocate(98, 30), layers.allocate(70, 48)];
  const { page, id, ...rectangle } = two;
  assert.deepEqual([page, rectangle.width, rectangle.height], [1, 72, 48]);
  assert.deepEqual(layers.get(1, id), rectangle);
  assert.deepEqual([layers.get(1, 99), layers.get(2, id), layers.get(4294967295, 4294967295)], [null, null, null]);
  assert.deepEqual(layers.allocated(0), [{ id: one.id, x: 0, y: 0, width: 100, height: 32 }]);
  assert.deepEqual(layers.areas(1), { allocated: 72 * 48, free: 5000 - 72 * 48 });
  assert.deepEqual(layers.pageSize(1), { width: 100, height: 50 });
  for (const call of ['pageSize', 'areas', 'allocated']) refused(() => layers[call](2), 'NO_PAGE', call);
});

test('a page that grows has room for more, and the next page is as small as before', () => {
  const layers = new PagedAtlas(64, 64, 2);
  refused(() => layers.grow(0, 128, 64), 'NO_PAGE', 'none there');
  const one = layers.allocate(60, 60);
  const before = pagedState(layers);
  for (const [width, height] of [[63, 128], [128, 63], [0, -1]]) refused(() => layers.grow(0, width, height), 'BAD_CALL', 'shrinks');
  assert.match(refused(() => layers.grow(0, 128, 63), 'BAD_CALL', 'height').message, /^height is 63, and must be at least 64/);
  refused(() => layers.deallocate(1, one.id), 'NOT_LIVE', 'another page');
  refused(() => layers.deallocate(0, 99), 'NOT_LIVE', 'another id');
  assert.deepEqual(pagedState(layers), before);
  layers.grow(0, 128, 64);
  assert.deepEqual([layers.allocate(60, 60).page, layers.allocate(60, 60).page], [0, 1]);
  assert.deepEqual([layers.pageSize(0), layers.pageSize(1)], [{ width: 128, height: 64 }, { width: 64, height: 64 }]);
  assert.deepEqual(layers.get(0, one.id), { x: 0, y: 0, width: 60, height: 60 });
});

test('what makes none, and no page at all', () => {
  for (const [width, height] of [[0, 5], [5, 0], [-1, 5]]) refused(() => new PagedAtlas(width, height, 2), 'BAD_CALL', 'empty');
  refused(() => new PagedAtlas(5, 5, 2, { alignment: { width: 0, height: 1 } }), 'BAD_CALL', 'alignment');
  refused(() => new PagedAtlas(5, 5, 2, { smallSizeThreshold: 300 }), 'BAD_CALL', 'thresholds');
  const none = new PagedAtlas(5, 5, 0);
  assert.deepEqual([none.allocate(1, 1), none.pageCount, none.shrink()], [null, 0, 0]);
  assert.deepEqual(new PagedAtlas(5, 5, 4294967295).allocate(6, 1), null);
});

test('more boxes on a page than one page of memory lists', () => {
  const layers = new PagedAtlas(256, 256, 2);
  const granted = [];
  for (let box = layers.allocate(4, 4); box !== null; box = layers.allocate(4, 4)) granted.push(box);
  assert.equal(granted.length, 8192);
  for (const page of [0, 1]) {
    const wanted = granted.filter((each) => each.page === page).map(({ page: _, ...box }) => box);
    assert.deepEqual(layers.allocated(page), wanted.sort((a, b) => a.id % 16777216 - b.id % 16777216));
  }
  for (const { page, id } of granted) layers.deallocate(page, id);
  assert.equal(layers.shrink(), 0);
});
