/** How full an atlas stays while glyphs come and go, by the thresholds of its options. `node web/bench/thresholds.js` prints a table.
 *
 * Glyphs with sides of 6 to 29 are asked for, one by one, in 1024 x 1024; where one has no room, live ones drawn at random are freed
 * until it has. The first 100,000 requests fill the atlas; how full it is is the mean over the next 100,000. */
import { Atlas, load } from '../node.js';

const SETTINGS = [[32, 256], [0, 256], [0, 5000], [0, 0]];
const MANY = 100000;

function held(seed, smallSizeThreshold, largeSizeThreshold, sides) {
  const atlas = new Atlas(1024, 1024, { smallSizeThreshold, largeSizeThreshold });
  let [state, area, sum] = [seed, 0, 0];
  const below = (bound) => {
    state = (Math.imul(state, 1103515245) + 12345) >>> 0;
    return (state >>> 8) % bound;
  };
  const live = [];
  const begun = performance.now();
  for (let i = 0; i < 2 * MANY; i++) {
    const [width, height] = sides(below);
    let box = atlas.allocate(width, height);
    while (box === null) {
      const at = below(live.length);
      atlas.deallocate(live[at].id);
      area -= live[at].width * live[at].height;
      live[at] = live.at(-1);
      live.pop();
      box = atlas.allocate(width, height);
    }
    live.push(box);
    area += box.width * box.height;
    if (i >= MANY) sum += area;
  }
  const time = (performance.now() - begun) * 1e6 / (2 * MANY);
  atlas.dispose();
  return { full: 100 * sum / MANY / 1024 / 1024, time };
}

const KINDS = {
  'glyphs, 6 to 29': (below) => [6 + below(24), 6 + below(24)],
  'glyphs, and one in fifty with sides of 64 to 191': (below) => {
    const [least, range] = below(50) === 0 ? [64, 128] : [6, 24];
    return [least + below(range), least + below(range)];
  },
};

await load();
for (const [name, sides] of Object.entries(KINDS)) {
  for (const [small, large] of SETTINGS) {
    const runs = [1, 2, 3].map((seed) => held(seed, small, large, sides));
    const mean = (key) => runs.reduce((sum, each) => sum + each[key], 0) / runs.length;
    console.log(`${name} | thresholds ${small} and ${large} | ${mean('full').toFixed(1)} % | ${mean('time').toFixed(0)} ns a request`);
  }
}
