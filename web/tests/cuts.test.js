// The tree of cuts: by hand, and beside what else the atlas tells of its boxes.
import assert from 'node:assert/strict';
import { test } from 'node:test';

import * as wollemigo from '../node.js';

const { Atlas } = wollemigo;
await wollemigo.load();

const free = (x, y, width, height) => ({ kind: 'free', x, y, width, height });
const live = (id, x, y, width, height) => ({ kind: 'live', id, x, y, width, height });
const container = (axis, x, y, width, height, ...members) => ({ kind: 'container', x, y, width, height, axis, members });

test('a request, from the cut to the release', () => {
  const atlas = new Atlas(100, 100);
  const whole = container('vertical', 0, 0, 100, 100, free(0, 0, 100, 100));
  assert.deepEqual(atlas.cuts(), whole);
  const { id } = atlas.allocate(20, 60);
  assert.deepEqual(atlas.cuts(), container('vertical', 0, 0, 100, 100,
    container('horizontal', 0, 0, 100, 100,
      container('vertical', 0, 0, 20, 100, live(id, 0, 0, 20, 60), free(0, 60, 20, 40)),
      free(20, 0, 80, 100))));
  atlas.deallocate(id);
  assert.deepEqual(atlas.cuts(), whole);
});

test('what is granted whole, and what a growth appends', () => {
  const atlas = new Atlas(50, 30);
  const { id } = atlas.allocate(50, 30);
  assert.deepEqual(atlas.cuts(), container('vertical', 0, 0, 50, 30, live(id, 0, 0, 50, 30)));
  atlas.grow(50, 40);
  assert.deepEqual(atlas.cuts(), container('vertical', 0, 0, 50, 40, live(id, 0, 0, 50, 30), free(0, 30, 50, 10)));
  atlas.grow(70, 40);
  assert.deepEqual(atlas.cuts(), container('horizontal', 0, 0, 70, 40,
    container('vertical', 0, 0, 50, 40, live(id, 0, 0, 50, 30), free(0, 30, 50, 10)), free(50, 0, 20, 40)));
});

/** Goes through all members. Gives the live and the free boxes, and how many members there are. */
function leaves(whole) {
  const [live, free, left] = [[], [], [whole]];
  let many = 0;
  while (left.length > 0) {
    const { axis, members, ...box } = left.pop();
    const [start, extent] = axis === 'horizontal' ? ['x', 'width'] : ['y', 'height'];
    let at = box[start];
    let before = '';
    assert.ok(members.length > 0);
    for (const each of members) {
      const { kind, ...rest } = each;
      assert.ok(!(kind === 'free' && before === 'free'));
      before = kind;
      many += 1;
      // Along the axis one after the other, and across it as wide as the container.
      const across = { x: box.x, y: box.y, width: box.width, height: box.height, [start]: at, [extent]: each[extent] };
      assert.deepEqual({ x: each.x, y: each.y, width: each.width, height: each.height }, across);
      at += each[extent];
      if (kind === 'container') {
        assert.notEqual(each.axis, axis);
        left.push(each);
      } else {
        (kind === 'live' ? live : free).push(rest);
      }
    }
    assert.equal(at, box[start] + box[extent]);
  }
  return { live, free, many };
}

test('random calls', () => {
  let state = 1;
  const below = (bound) => {
    state = (Math.imul(state, 1103515245) + 12345) >>> 0;
    return (state >>> 8) % bound;
  };
  const order = (a, b) => a.y - b.y || a.x - b.x;
  const atlas = new Atlas(300, 200);
  let ids = [];
  for (let turn = 0; turn < 3000; turn++) {
    const { width, height } = atlas.size;
    const draw = below(100);
    if (draw < 60) ids.push(atlas.allocate(1 + below(40), 1 + below(40))?.id);
    else if (draw < 97) ids.splice(below(ids.length || 1), 1).forEach((id) => id !== undefined && atlas.deallocate(id));
    else if (draw < 99 && width < 2000) atlas.grow(width + below(20), height + below(20));
    else if (draw === 99) ids = atlas.rearrange().changes.map(({ after }) => after.id);
    ids = ids.filter((id) => id !== undefined);
    if (turn % 10 > 0) continue;
    const told = leaves(atlas.cuts());
    assert.deepEqual(told.live.sort(order), atlas.allocated().sort(order));
    assert.deepEqual(told.free.sort(order), atlas.freeBoxes().sort(order));
    assert.equal(told.many, atlas.slots.used);
  }
});

test('containers in one another as deep as there are boxes', () => {
  const atlas = new Atlas(40000, 40000);
  for (let i = 0; i < 20000; i++) atlas.allocate(i % 2 ? 40000 - i : 1, i % 2 ? 1 : 40000 - i);
  assert.equal(leaves(atlas.cuts()).many, atlas.slots.used);
});
