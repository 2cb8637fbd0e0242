/** The random calls of bindings/tests/digest.c by the package: their sum is the one that the program tells. */
import { Atlases } from './atlas.js';
import { Cache } from './cache.js';
import { Paged } from './paged.js';
import { Simple } from './simple.js';
import { Draw, SEVENS, Sum, answered, numberOf } from './sum.js';

const SPRITES = 24;

function sheets(kind, side, least, greatest) {
  return [{ kind: 'size', width: side, height: side }, { kind: 'squares', least, greatest }, { kind: 'powers', greatest },
    { kind: 'heights', width: side, greatest }][kind];
}

/** Sprites and options as C draws them. */
function drawn(draw) {
  const many = draw.below(SPRITES + 1);
  const sprites = Array.from({ length: SPRITES }, () => (
    { width: draw.oneIn(10) ? draw.side(40) : 1 + draw.below(40), height: 1 + draw.below(40) })).slice(0, many);
  const kind = draw.below(draw.oneIn(10) ? 6 : 4);
  const side = 40 + draw.below(200);
  const least = draw.oneIn(10) ? draw.side(300) : 1;
  const padding = draw.oneIn(10) ? draw.below(70000) : draw.below(3);
  const alignment = { width: draw.oneIn(10) ? draw.side(9) : 1, height: 1 };
  const [turn, effort, seed] = [draw.below(2) === 1, draw.below(20), draw.state];
  const room = draw.oneIn(10) ? Math.floor(many / 2) : SPRITES;
  return { sprites, kind, side, least, room, options: { padding, alignment, turn, effort, seed } };
}

/** C tells first that it knows no such kind of sheets or no such padding, and then that there is too little room. */
function asked({ sprites, kind, side, least, room, options }, greatest, call) {
  if (kind > 3 || options.padding > 65535) return { value: null, status: numberOf('BAD_CALL') };
  if (room < sprites.length) return { value: null, status: numberOf('SHORT') };
  return answered(() => call(sprites, { ...options, sheets: sheets(kind, side, least, greatest) }));
}

function addPlaced(sum, place) {
  sum.box(place);
  sum.add(place === null ? 7 : place.turned);
}

function pack(call, draw, sum) {
  const { value, status, sprite } = asked(drawn(draw), 256, call);
  sum.add(status === 0 && value === null ? numberOf('NO_ROOM') : status);
  sum.size(value ?? SEVENS.size);
  sum.wide(sprite ?? 7);
  for (let i = 0; i < SPRITES; i++) addPlaced(sum, value?.places[i] ?? null);
}

function addSeveral({ value, status, sprite }, sum) {
  sum.add(status === 0 && value === null ? numberOf('NO_ROOM') : status);
  sum.wide(value?.sizes.length ?? 7);
  sum.wide(sprite ?? 7);
  for (let i = 0; i < SPRITES; i++) {
    sum.size(value?.sizes[i] ?? SEVENS.size);
    sum.wide(value?.places[i]?.page ?? 7);
    addPlaced(sum, value?.places[i] ?? null);
  }
}

function packPages(api, draw, sum) {
  const it = drawn(draw);
  it.side = 40 + draw.below(40);
  addSeveral(asked(it, it.side, api.packPages), sum);
}

const NO_GROUP = 4294967295;

/** The number of a group that C draws; null where that is no group. */
function drawnGroup(draw) {
  const number = draw.oneIn(4) ? NO_GROUP : draw.below(draw.oneIn(10) ? NO_GROUP : 5);
  return number === NO_GROUP ? null : number;
}

function packGroups(api, draw, sum) {
  const it = drawn(draw);
  it.side = 40 + draw.below(40);
  const groups = Array.from({ length: SPRITES }, () => drawnGroup(draw));
  const numbers = draw.oneIn(5) ? draw.below(SPRITES + 1) : it.sprites.length;
  addSeveral(asked(it, it.side, (sprites, options) => api.packGroups(sprites, groups.slice(0, numbers), options)), sum);
}

function fill(api, draw, sum) {
  const it = drawn(draw);
  it.side = 40 + draw.below(40);
  const { value, status, sprite } = asked(it, it.side, api.fill);
  sum.add(status);
  sum.wide(value?.left ?? 7);
  sum.size(value ?? SEVENS.size);
  sum.wide(sprite ?? 7);
  for (let i = 0; i < SPRITES; i++) {
    const place = value?.places[i];
    sum.add(place === undefined ? 7 : place === null ? 0 : 1);
    if (place) addPlaced(sum, place);
  }
}

/** All kinds of calls, and how often each comes. */
function kinds(api, draw, sum, hasNames) {
  const atlases = new Atlases(api, draw, sum);
  const simple = new Simple(api, draw, sum, atlases);
  const paged = new Paged(api, draw, sum);
  const cache = new Cache(api, draw, sum, hasNames);
  return [
    [3600, () => atlases.allocate()], [2500, () => atlases.deallocate()], [60, () => atlases.deallocateAll()],
    [300, () => atlases.lookUp()], [300, () => atlases.ask()], [150, () => atlases.describe()], [20, () => atlases.listAll()],
    [60, () => atlases.grow()], [50, () => atlases.reserve()], [6, () => atlases.startAgain()], [12, () => atlases.rearrange()],
    [40, () => atlases.make()], [10, () => atlases.copy()], [4, () => atlases.free()], [800, () => simple.take()],
    [10, () => simple.make()], [20, () => simple.startAgain()], [40, () => simple.grow()], [100, () => simple.describe()],
    [8, () => paged.make()], [700, () => paged.take()], [500, () => paged.giveBack()], [60, () => paged.ask()], [30, () => paged.change()],
    [900, () => cache.insert()], [700, () => cache.ask()], [80, () => cache.letGo()], [100, () => cache.nextFrame()],
    [80, () => cache.describe()], [6, () => cache.make()], [8, () => pack(api.pack, draw, sum)],
    [30, () => cache.know()], [4, () => packPages(api, draw, sum)], [4, () => fill(api, draw, sum)],
    [4, () => pack(api.packDense, draw, sum)], [4, () => packGroups(api, draw, sum)],
  ];
}

/** The lines that the program prints: the sum after every 10,000 calls and after the last. */
export function digest(api, calls, { seed = 1, hasNames = false } = {}) {
  const draw = new Draw(seed);
  const sum = new Sum();
  const all = kinds(api, draw, sum, hasNames);
  const weight = all.reduce((total, [each]) => total + each, 0);
  let lines = '';
  for (let done = 1; done <= calls; done++) {
    let pick = draw.below(weight);
    let at = 0;
    for (; pick >= all[at][0]; at++) pick -= all[at][0];
    all[at][1]();
    if (done % 10000 === 0 || done === calls) lines += `${done} ${sum.text()}\n`;
  }
  return lines;
}
