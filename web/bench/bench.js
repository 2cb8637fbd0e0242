/** What is measured of the package; bench/native.c does the first two by C. Each figure is the least of many short rounds, in
 * nanoseconds a call, since a machine that does other things as well only ever makes a round longer. */
import { Skyline } from './skyline.js';

const ROUNDS = 500;

class Draw {
  state = 12345;

  below(bound) {
    this.state = (Math.imul(this.state, 1103515245) + 12345) >>> 0;
    return (this.state >>> 8) % bound;
  }
}

function least(calls, round) {
  let found = Infinity;
  for (let i = 0; i < ROUNDS; i++) {
    const begun = performance.now();
    round(calls);
    found = Math.min(found, performance.now() - begun);
  }
  return found * 1e6 / calls;
}

/** A freeing and a grant, of 3,000 boxes with sides of 5 to 44 in 2048 x 2048. */
function pair(api) {
  const atlas = new api.Atlas(2048, 2048);
  const draw = new Draw();
  const granted = () => {
    const width = 5 + draw.below(40);
    return atlas.allocate(width, 5 + draw.below(40)).id;
  };
  const live = Array.from({ length: 3000 }, granted);
  const time = least(4000, (calls) => {
    for (let i = 0; i < calls; i++) {
      const at = draw.below(live.length);
      atlas.deallocate(live[at]);
      live[at] = granted();
    }
  });
  const sum = live.reduce((total, id) => (Math.imul(total, 31) + id) >>> 0, 0);
  atlas.dispose();
  return { time, sum };
}

/** A hit of a cache that holds 1,000 keys. */
function hit(api, keyOf) {
  return hitBy(api, keyOf, (cache, key) => cache.get(key).inner.x);
}

function hitBy(api, keyOf, call) {
  const cache = new api.TextureCache({ page: { width: 1024, height: 1024 }, pages: 4, padding: 1 });
  const keys = Array.from({ length: 1000 }, (_, i) => keyOf(i));
  for (const key of keys) cache.insert(key, 10, 20);
  let sum = 0;
  const time = least(16000, (calls) => {
    for (let i = 0; i < calls; i++) sum += call(cache, keys[i % 1000]);
  });
  cache.dispose();
  return { time, sum };
}

/** As `hit`, where no object is made. */
function touch(api, keyOf) {
  return hitBy(api, keyOf, (cache, key) => (cache.touch(key) ? 1 : 0));
}

/** Its rounds with a look-up in a `Map` in place of the hit. */
function mapped(api, keyOf) {
  const map = new Map();
  const kept = (i) => {
    const key = keyOf(i);
    map.set(key, i + 1);
    return key;
  };
  return hitBy(api, kept, (_, key) => (map.get(key) > 0 ? 1 : 0));
}

/** An insertion in a page of 256 x 256 that is full, with what it evicts, and the reading of what was done. */
function evict(api, keyOf) {
  const cache = new api.TextureCache({ page: { width: 256, height: 256 }, padding: 1 });
  const keys = Array.from({ length: 4000 }, (_, i) => keyOf(i));
  let [at, sum] = [0, 0];
  const time = least(2000, (calls) => {
    for (let i = 0; i < calls; i++) {
      cache.beginFrame();
      at = (at + 1) % keys.length;
      cache.insert(keys[at], 5 + at * 7 % 20, 5 + at * 5 % 20);
      for (const change of cache.changes()) sum += change.kind.length;
    }
  });
  cache.dispose();
  return { time, sum };
}

/** Boxes with sides of 5 to 44 until one has no room, in 2048 x 2048: nanoseconds a box, and how much of it is filled. */
function fill(make) {
  let [area, many, time] = [0, 0, Infinity];
  for (let round = 0; round < 12; round++) {
    const atlas = make(2048, 2048);
    const draw = new Draw();
    const begun = performance.now();
    for (area = 0, many = 0; ; many++) {
      const width = 5 + draw.below(40);
      const box = atlas.allocate(width, 5 + draw.below(40));
      if (box === null) break;
      area += box.width * box.height;
    }
    time = Math.min(time, (performance.now() - begun) * 1e6 / many);
    atlas.dispose?.();
  }
  return { time, many, fullness: area / (2048 * 2048) };
}

/** 1,000 sprites with sides of 5 to 44 in the least square: milliseconds, and its side. */
function sheet(pack) {
  const draw = new Draw();
  const sprites = Array.from({ length: 1000 }, () => {
    const width = 5 + draw.below(40);
    return { width, height: 5 + draw.below(40) };
  });
  let [side, time] = [0, Infinity];
  for (let round = 0; round < 5; round++) {
    const begun = performance.now();
    side = pack(sprites);
    time = Math.min(time, performance.now() - begun);
  }
  const area = sprites.reduce((total, { width, height }) => total + width * height, 0);
  return { time, side, fullness: area / (side * side) };
}

/** The least side at which the skyline takes all, the highest first. */
function bySkyline(sprites) {
  const sorted = [...sprites].sort((a, b) => b.height - a.height || b.width - a.width);
  let [low, high] = [1, 4096];
  while (low < high) {
    const side = (low + high) >> 1;
    const skyline = new Skyline(side, side);
    if (sorted.every(({ width, height }) => skyline.allocate(width, height) !== null)) high = side;
    else low = side + 1;
  }
  return low;
}

const glyph = (i) => `glyph ${i}`;
const number = (i) => i;

/** What is measured, by its name. */
export const MEASURES = {
  pair,
  numbers: (api) => hit(api, number),
  strings: (api) => hit(api, glyph),
  touched: (api) => touch(api, glyph),
  touchedNumbers: (api) => touch(api, number),
  loop: (api) => hitBy(api, glyph, (_, key) => (key.length > 0 ? 1 : 0)),
  map: (api) => mapped(api, glyph),
  evicted: (api) => evict(api, number),
  evictedStrings: (api) => evict(api, glyph),
  atlas: (api) => fill((width, height) => new api.Atlas(width, height)),
  simple: (api) => fill((width, height) => new api.SimpleAtlas(width, height)),
  skyline: () => fill((width, height) => new Skyline(width, height)),
  pack: (api) => sheet((sprites) => api.pack(sprites).width),
  packSkyline: () => sheet(bySkyline),
};

/** All of them, each by a copy of this module of its own, since an engine makes code from what a function was called with before. */
export async function measured(api) {
  const told = {};
  for (const name of Object.keys(MEASURES)) {
    const copy = await import(`./bench.js?${name}`);
    told[name] = copy.MEASURES[name](api);
  }
  return told;
}
