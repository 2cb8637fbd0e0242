// Each sentence of web/play/how.html that states a rule: requests are drawn, and what the library answers is what the sentence says.
import assert from 'node:assert/strict';
import { readFileSync } from 'node:fs';
import { test } from 'node:test';

import { Atlas, TextureCache, load } from '../node.js';

await load();
const page = readFileSync(new URL('../play/how.html', import.meta.url), 'utf8').replace(/<[^>]*>/g, '').replace(/\s+/g, ' ');
const areaOf = ({ width, height }) => width * height;
const same = (one, other) => one.x === other.x && one.y === other.y && one.width === other.width && one.height === other.height;
const within = (inner, outer) => inner.x >= outer.x && inner.y >= outer.y && inner.x + inner.width <= outer.x + outer.width
  && inner.y + inner.height <= outer.y + outer.height;

function drawFrom(seed) {
  let state = seed;
  return (bound) => {
    state = (Math.imul(state, 1103515245) + 12345) >>> 0;
    return (state >>> 8) % bound;
  };
}

/** A test of these sentences of the page. */
function says(sentences, check) {
  test(sentences.join(' '), () => {
    for (const sentence of sentences) assert.ok(page.includes(sentence), `the page doesn't say: ${sentence}`);
    check();
  });
}

/** Random requests and freeings; before each request `look` is given the free boxes, the size and what was answered. */
function requests({ seed, side, largest, many }, look) {
  const [atlas, below, live] = [new Atlas(side, side), drawFrom(seed), []];
  for (let i = 0; i < many; i++) {
    const [width, height] = [1 + below(largest), 1 + below(largest)];
    const holes = atlas.freeBoxes();
    const box = atlas.allocate(width, height);
    look({ atlas, holes, width, height, box });
    if (box !== null) live.push(box.id);
    if (live.length > 0 && (box === null || below(3) === 0)) atlas.deallocate(live.splice(below(live.length), 1)[0]);
  }
  atlas.dispose();
}

/** Small requests, medium and large ones. */
const MIXES = [{ seed: 1, side: 300, largest: 40, many: 3000 }, { seed: 2, side: 1000, largest: 200, many: 3000 },
  { seed: 3, side: 3000, largest: 700, many: 4000 }];
const eachRequest = (look) => MIXES.forEach((mix) => requests(mix, look));

says(['A request takes the upper left corner of a free box, and two cuts divide what is left of it.',
  'Two pieces remain, one beside the new box and one below.',
  'There are two ways to cut, since the far corner may belong to either piece; it goes to the larger one, so that one piece is as large as it '
    + 'can be and the other is a small rest.'], () => {
  let cuts = 0;
  eachRequest(({ atlas, holes, width, height, box }) => {
    if (box === null) return;
    const hole = holes.find(({ x, y }) => x === box.x && y === box.y);
    assert.ok(hole !== undefined && within(box, hole));
    const [across, down] = [hole.width - width, hole.height - height];
    const [beside, below] = [{ x: box.x + width, y: box.y, width: across, height: hole.height },
      { x: box.x, y: box.y + height, width: hole.width, height: down }];
    const isBeside = areaOf(beside) > areaOf(below);
    const wanted = isBeside ? [beside, { ...below, width }] : [{ ...beside, height }, below];
    const is = atlas.freeBoxes().filter((free) => within(free, hole));
    const other = isBeside ? [{ ...beside, height }, below] : [beside, { ...below, width }];
    const isAs = (pieces) => pieces.filter((each) => areaOf(each) > 0).every((each) => is.some((free) => same(free, each)));
    assert.ok(isAs(wanted) || areaOf(beside) === areaOf(below) && isAs(other), JSON.stringify([hole, box, is]));
    cuts += across > 0 && down > 0;
  });
  assert.ok(cuts > 3000, `${cuts} cuts`);
});

says(['If one of them is free, they join; where all of a row has joined, the cut that made it is undone, and the row above looks at its neighbours.',
  'In the last step one freed box heals the whole atlas.', 'no two free neighbours of a row are ever left apart.'], () => {
  const [below, atlas] = [drawFrom(4), new Atlas(400, 300)];
  let live = [];
  for (let round = 0; round < 60; round++) {
    for (let box = atlas.allocate(5 + below(70), 5 + below(70)); box !== null; box = atlas.allocate(5 + below(70), 5 + below(70))) live.push(box.id);
    while (live.length > (round % 3) * 4) {
      atlas.deallocate(live.splice(below(live.length), 1)[0]);
      const rows = [atlas.cuts()];
      for (let row = rows.pop(); row !== undefined; row = rows.pop()) {
        const kinds = row.members.map(({ kind }) => kind);
        assert.ok(!kinds.some((kind, at) => kind === 'free' && kinds[at + 1] === 'free'));
        assert.ok(kinds.length > 1 || row.width === 400 && row.height === 300, 'a row of one member is undone');
        rows.push(...row.members.filter(({ kind }) => kind === 'container'));
      }
    }
    if (live.length === 0) assert.deepEqual(atlas.freeBoxes(), [{ x: 0, y: 0, width: 400, height: 300 }]);
  }
});

const classOf = ({ width, height }) => (Math.max(width, height) >= 256 ? 2 : Math.max(width, height) >= 32 ? 1 : 0);

says(['Each free box belongs to a class by its longer side: small below 32 pixels, medium from 32 on, large from 256 on.',
  'A request goes to the lowest class in which anything fits.',
  'There a box with a side of just the right length wins, since only one piece remains of it; otherwise the one that leaves the least margin '
    + 'at its tighter side.',
  'For a request that is large itself, from 256 on, a side of just the right length wins too.',
  'Only where no box has one, the rule is turned round, and the box that leaves the most margin at its tighter side is taken'], () => {
  const seen = new Map();
  eachRequest(({ holes, width, height, box }) => {
    const fitting = holes.filter((hole) => hole.width >= width && hole.height >= height);
    assert.equal(box === null, fitting.length === 0);
    if (box === null) return;
    const lowest = Math.min(...fitting.map(classOf));
    const rivals = fitting.filter((hole) => classOf(hole) === lowest);
    const marginOf = (hole) => Math.min(hole.width - width, hole.height - height);
    const exact = rivals.filter((hole) => marginOf(hole) === 0);
    const isLarge = classOf({ width, height }) === 2;
    const best = (isLarge ? Math.max : Math.min)(...rivals.map(marginOf));
    const allowed = exact.length > 0 ? exact : rivals.filter((hole) => marginOf(hole) === best);
    assert.ok(allowed.some(({ x, y }) => x === box.x && y === box.y), JSON.stringify({ width, height, box, rivals }));
    const kind = `${classOf({ width, height })} ${exact.length > 0} ${allowed.length < rivals.length}`;
    seen.set(kind, (seen.get(kind) ?? 0) + 1);
  });
  // Of each class there were requests with such a side, and without, which had to choose.
  for (const kind of [0, 1, 2]) for (const isExact of [true, false]) assert.ok(seen.get(`${kind} ${isExact} true`) >= 15, JSON.stringify([...seen]));
});

says(['Nothing that lies in the atlas moves', 'What is new is free, in one strip or in two.',
  'Where the parts of the atlas lie side by side, the strip below spans the whole width, corner and all; where they lie below one another, the '
    + 'strip on the right spans the whole height.', 'A free part at the old edge becomes one with the strip beside it.'], () => {
  const [below, seen] = [drawFrom(5), { horizontal: 0, vertical: 0, joined: 0 }];
  for (let turn = 0; turn < 800; turn++) {
    const atlas = new Atlas(turn % 2 ? 100 : 128, 96);
    for (let i = 0; i < 1 + turn % 12; i++) atlas.allocate(1 + below(60), 1 + below(60));
    // After that the parts lie side by side.
    if (turn % 2) atlas.grow(128, 96);
    for (let i = 0; i < turn % 9; i++) atlas.allocate(1 + below(60), 1 + below(60));
    const [live, { axis, members }, [width, height]] = [atlas.allocated(), atlas.cuts(), [129 + below(90), 97 + below(90)]];
    atlas.grow(width, height);
    assert.deepEqual(atlas.allocated(), live);
    const fresh = atlas.freeBoxes().filter((box) => box.x + box.width > 128 || box.y + box.height > 96);
    assert.equal(fresh.length, 2);
    const isAcross = axis === 'horizontal';
    const last = members.at(-1).kind === 'free' ? members.at(-1) : null;
    const along = isAcross ? { x: last?.x ?? 128, y: 0, width: width - (last?.x ?? 128), height: 96 }
      : { x: 0, y: last?.y ?? 96, width: 128, height: height - (last?.y ?? 96) };
    const whole = isAcross ? { x: 0, y: 96, width, height: height - 96 } : { x: 128, y: 0, width: width - 128, height };
    for (const wanted of [along, whole]) assert.ok(fresh.some((box) => same(box, wanted)), JSON.stringify({ axis, last, fresh }));
    seen[axis] += 1;
    seen.joined += last !== null;
    atlas.dispose();
  }
  assert.ok(Object.values(seen).every((many) => many > 50), JSON.stringify(seen));
});

says(['Where there is no room for a new key, the one that was not used for the longest time is evicted, then the next, until the new one fits.',
  'Keys of the frame that is being drawn are never evicted'], () => {
  const [cache, below, order] = [new TextureCache({ page: { width: 72, height: 56 } }), drawFrom(6), []];
  let [evictions, sizes, nulls] = [0, new Map(), 0];
  for (let frame = 0; frame < 3000; frame++) {
    const inFrame = new Set();
    cache.beginFrame();
    for (let i = 0; i < 8; i++) {
      const key = below(60);
      if (!sizes.has(key)) sizes.set(key, [5 + below(20), 5 + below(20)]);
      const before = [...order];
      const place = cache.insert(key, ...sizes.get(key));
      const gone = [...cache.changes()].filter(({ kind }) => kind === 'evicted').map((change) => change.key);
      assert.deepEqual(gone, before.slice(0, gone.length), 'the longest unused go, one after another');
      assert.ok(gone.every((each) => !inFrame.has(each)));
      order.splice(0, gone.length);
      evictions += gone.length;
      nulls += place === null;
      if (place === null) continue;
      if (order.includes(key)) order.splice(order.indexOf(key), 1);
      order.push(key);
      inFrame.add(key);
    }
  }
  assert.ok(evictions > 5000 && nulls > 5, `${evictions} evictions, ${nulls} nulls`);
});

says(['the live boxes are placed anew, the largest first, in an empty atlas.', 'No call moves a box but this one and its form that changes the size.',
  'changes says of each box that found a place where it was and where it is; its id is another one, too.', 'A rearrangement may lose boxes.',
  'Those that found no room are in failures, and are live no more.'], () => {
  const below = drawFrom(7);
  let [lost, kept] = [0, 0];
  for (let turn = 0; turn < 400; turn++) {
    const atlas = new Atlas(160, 160);
    for (let i = 0; i < 60; i++) atlas.allocate(8 + below(40), 8 + below(40));
    const ids = atlas.allocated().map(({ id }) => id).filter(() => below(16) === 0);
    atlas.deallocateAll(ids);
    const before = atlas.allocated();
    const { changes, failures } = atlas.rearrange();
    assert.deepEqual([...changes.map((change) => change.before), ...failures].sort((a, b) => a.id - b.id), before.sort((a, b) => a.id - b.id));
    assert.deepEqual(changes.map((change) => change.after).sort((a, b) => a.id - b.id), atlas.allocated().sort((a, b) => a.id - b.id));
    for (const { id } of failures) assert.ok(atlas.get(id) === null || changes.some(({ after }) => after.id === id));
    // The same as requests to an empty atlas, the largest first.
    const [anew, areas] = [new Atlas(160, 160), [...changes.map((change) => change.before), ...failures].map(areaOf)];
    const order = changes.map(({ before: box }) => areaOf(box));
    assert.deepEqual(order, [...order].sort((a, b) => b - a));
    assert.equal(areas.length, before.length);
    const placed = [...changes.map((change) => ({ ...change.before, to: change.after })), ...failures.map((box) => ({ ...box, to: null }))];
    if (new Set(placed.map(areaOf)).size === placed.length) {
      placed.sort((a, b) => areaOf(b) - areaOf(a));
      for (const { width, height, to } of placed) {
        const box = anew.allocate(width, height);
        assert.equal(box === null, to === null);
        if (box !== null) assert.ok(same(box, to));
      }
      kept += 1;
    }
    lost += failures.length;
    for (const each of [atlas, anew]) each.dispose();
  }
  assert.ok(lost > 30 && kept > 50, `${lost} lost, ${kept} compared`);
});

test('a copy that is rearranged loses nothing of the atlas', () => {
  const below = drawFrom(8);
  let [failed, done] = [0, 0];
  for (let turn = 0; turn < 300; turn++) {
    let atlas = new Atlas(160, 160);
    for (let i = 0; i < 40; i++) atlas.allocate(8 + below(40), 8 + below(40));
    const before = atlas.allocated();
    const copy = atlas.clone();
    const { failures } = copy.rearrange();
    if (failures.length === 0) {
      atlas.dispose();
      atlas = copy;
      done += 1;
    } else {
      copy.dispose();
      assert.deepEqual(atlas.allocated(), before);
      failed += 1;
    }
    assert.equal(atlas.allocated().length, before.length);
    atlas.dispose();
  }
  assert.ok(failed > 20 && done > 20, `${failed} failed, ${done} done`);
});
