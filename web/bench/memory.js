/** What objects take of the module's memory. `node web/bench/memory.js` prints a table, in bytes of one of 10,000. */
import { Atlas, PagedAtlas, SimpleAtlas, TextureCache, load, memory } from '../node.js';

const MANY = 10000;
const filled = (object, boxes) => {
  for (let i = 0; i < boxes; i++) object.allocate(10 + i % 50, 10 + i % 40);
  return object;
};
const KINDS = {
  'a new atlas': () => new Atlas(1024, 1024),
  'an atlas with a box': () => filled(new Atlas(1024, 1024), 1),
  'with 10 boxes': () => filled(new Atlas(1024, 1024), 10),
  'with 100 boxes': () => filled(new Atlas(1024, 1024), 100),
  'a new simple atlas': () => new SimpleAtlas(1024, 1024),
  'a simple atlas with a box': () => filled(new SimpleAtlas(1024, 1024), 1),
  'with 10 boxes ': () => filled(new SimpleAtlas(1024, 1024), 10),
  'new pages': () => new PagedAtlas(1024, 1024, 4),
  'pages with a box': () => filled(new PagedAtlas(1024, 1024, 4), 1),
  'a new cache': () => new TextureCache({ page: { width: 1024, height: 1024 } }),
  'a cache with a key': () => {
    const cache = new TextureCache({ page: { width: 1024, height: 1024 } });
    cache.beginFrame();
    cache.insert('a', 20, 60);
    return cache;
  },
};

await load();
const kept = []; // so that nothing is collected
console.log('| one of 10,000 | bytes |\n|---|---|');
for (const [name, make] of Object.entries(KINDS)) {
  const before = memory().bytes;
  for (let i = 0; i < MANY; i++) kept.push(make());
  console.log(`| ${name.trim()} | ${Math.round((memory().bytes - before) / MANY)} |`);
}
