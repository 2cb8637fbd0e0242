// Figure 1: a box is cut off, and what is freed joins again.
import { Atlas } from '../index.js';
import { Code, Steps, View, fill, frame, slider } from './how_figure.js';
import { count, make } from './page.js';

const [WIDTH, HEIGHT] = [128, 96];
const codeOf = (width, height) => `const atlas = new Atlas(${WIDTH}, ${HEIGHT});
const a = atlas.allocate(${width}, ${height});
const b = atlas.allocate(44, 40); // null: no room
const c = atlas.allocate(30, 30);
if (b !== null) atlas.deallocate(b.id);
if (a !== null) atlas.deallocate(a.id);
if (c !== null) atlas.deallocate(c.id);
console.log(atlas.freeBoxes());`;
const callsOf = (width, height) => [['a', width, height], ['b', 44, 40], ['c', 30, 30], ['b'], ['a'], ['c']];

const keyOf = ({ x, y, width, height }) => `free ${x} ${y} ${width} ${height}`;
const isWithin = (inner, { x, y, width, height }) => inner.x >= x && inner.y >= y && inner.x + inner.width <= x + width
  && inner.y + inner.height <= y + height;

/** What lies in the atlas after each call, and which call it was. */
function states(calls) {
  const atlas = new Atlas(WIDTH, HEIGHT);
  const named = new Map();
  const found = [];
  const keep = (call) => found.push({ call, free: atlas.freeBoxes(), live: [...named].map(([name, box]) => ({ name, ...box })) });
  keep(null);
  for (const [name, width, height] of calls) {
    if (width === undefined) {
      if (named.has(name)) atlas.deallocate(named.get(name).id);
      named.delete(name);
    } else {
      const box = atlas.allocate(width, height);
      if (box !== null) named.set(name, box);
    }
    keep({ name, width, height });
  }
  atlas.dispose();
  return found;
}

const sides = ({ width, height }) => `${width} × ${height}`;
const areaOf = ({ width, height }) => width * height;

/** The free box that a request was cut out of, and the two pieces that there would be, were it cut the other way; null where there is one
 * way only. */
function otherCut(before, after, name) {
  const box = after.live.find((each) => each.name === name);
  const hole = box && before.free.find(({ x, y }) => x === box.x && y === box.y);
  if (!hole || box.width === hole.width || box.height === hole.height) return null;
  const beside = { x: box.x + box.width, y: box.y, width: hole.width - box.width };
  const below = { x: box.x, y: box.y + box.height, height: hole.height - box.height };
  const isBeside = after.free.some((free) => free.x === beside.x && free.y === beside.y && free.height === hole.height);
  const pieces = isBeside ? [{ ...beside, height: box.height }, { ...below, width: hole.width }]
    : [{ ...beside, height: hole.height }, { ...below, width: box.width }];
  return { isBeside, pieces, taken: after.free.filter((free) => isWithin(free, hole)) };
}

/** What a request did, in words. */
function grantWords(before, after, name, other) {
  const box = after.live.find((each) => each.name === name);
  if (!box) return `Box ${name} finds no room.`;
  const hole = before.free.find(({ x, y }) => x === box.x && y === box.y);
  const begun = `Box ${name} takes the corner of the free box of ${sides(hole)}.`;
  if (other === null) return `${begun} ${areaOf(box) === areaOf(hole) ? 'It fills it' : 'A side is just as long, so one piece is left'}.`;
  return `${begun} Of what is left the piece ${other.isBeside ? 'beside it' : 'below it'} is the larger one, and so the far corner is given to that: `
    + `${other.taken.map(sides).join(' and ')}.`;
}

function freeingWords(before, after, name) {
  const box = before.live.find((each) => each.name === name);
  if (!box) return `There is no box ${name} to free.`;
  const joined = before.free.filter((free) => !after.free.some((each) => keyOf(each) === keyOf(free))).length;
  const begun = `Box ${name} is freed`;
  if (joined === 0) return `${begun}. No free box is beside it in its row, so it stays a free box by itself.`;
  const now = after.free.find((free) => isWithin(box, free));
  return `${begun}, and ${joined === 1 ? 'a free box' : `${joined} free boxes`} with it ${joined === 1 ? 'becomes' : 'become'} one of ${sides(now)}${
    after.live.length === 0 ? ': the whole atlas, in one piece' : ''}.`;
}

function captionOf(all, at, isOther) {
  if (at === 0) return 'One free box: the whole atlas.';
  const [before, after, { call }] = [all[at - 1], all[at], all[at]];
  if (call.width === undefined) return freeingWords(before, after, call.name);
  const other = otherCut(before, after, call.name);
  if (!isOther || other === null) return grantWords(before, after, call.name, other);
  const most = (pieces) => Math.max(...pieces.map(areaOf));
  return `A drawing of the other way to cut: ${other.pieces.map(sides).join(' and ')} would be left, the larger of ${
    count(most(other.pieces))} pixels in place of ${count(most(other.taken))}.`;
}

export function cutFigure(figure) {
  const [code, view] = [new Code(codeOf(48, 60)), new View(WIDTH, HEIGHT, `An atlas of ${WIDTH} by ${HEIGHT} pixels`)];
  const shown = { all: states(callsOf(48, 60)), asked: { width: 48, height: 60 }, isOther: false };
  const show = (at) => {
    const { free, live, call } = shown.all[at];
    const before = shown.all[Math.max(0, at - 1)];
    const known = new Set(before.free.map(keyOf));
    const names = new Set(before.live.map(({ name }) => name));
    const other = shown.isOther && call?.width !== undefined ? otherCut(before, shown.all[at], call.name) : null;
    const drawn = other === null ? free : [...free.filter((box) => !other.taken.includes(box)), ...other.pieces];
    view.show([
      ...drawn.map((box) => (
        { key: keyOf(box), ...box, label: `${box.width}×${box.height}`, looks: at > 0 && !known.has(keyOf(box)) ? 'free fresh' : 'free' })),
      ...live.map((box) => ({ key: box.name, ...box, label: box.name, looks: at > 0 && !names.has(box.name) ? 'live fresh' : 'live' })),
    ]);
    // What joined is dashed in the box that it became.
    const fresh = free.filter((box) => !known.has(keyOf(box)));
    const gone = [...before.free.filter((box) => !free.some((each) => keyOf(each) === keyOf(box))),
      ...before.live.filter(({ name }) => !live.some((each) => each.name === name))];
    view.mark(...(at > 3 ? gone.filter((box) => fresh.some((each) => isWithin(box, each))).map((box) => frame(box, 'was')) : []));
    code.point(codeOf(shown.asked.width, shown.asked.height).split('\n')[at]);
  };
  const steps = new Steps({ name: 'Step', many: shown.all.length, captions: (at) => captionOf(shown.all, at, shown.isOther), show, pause: 1900 });
  const own = ['width', 'height'].map((side) => slider(`${side} of a`, {
    least: 4, greatest: side === 'width' ? WIDTH : HEIGHT, value: shown.asked[side], told: (value) => `${value} pixels`,
    onInput: (value) => {
      shown.asked[side] = value;
      const { width, height } = shown.asked;
      shown.all = states(callsOf(width, height));
      code.show(codeOf(width, height));
      if (steps.at === 0) steps.slider.set(1);
      else steps.go(steps.at);
    },
  }));
  const other = make('button', { textContent: 'Cut the other way', ariaPressed: 'false' });
  other.addEventListener('click', () => {
    shown.isOther = !shown.isOther;
    other.setAttribute('aria-pressed', String(shown.isOther));
    steps.go(steps.at);
  });
  fill(figure, [view.svg, steps.element, make('div', { className: 'controls' }, ...own.map(({ element }) => element), other)], code.element);
  steps.slider.set(1);
  return { steps, code, get states() { return shown.all; }, set: (width, height) => [width, height].forEach((value, at) => own[at].set(value)) };
}
