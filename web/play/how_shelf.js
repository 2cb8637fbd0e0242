// Figure 6: the same requests and freeings to an atlas and to a shelf packer.
import { Atlas } from '../index.js';
import { Code, Steps, View, fill } from './how_figure.js';
import { make } from './page.js';
import { Shelves } from './packers.js';

const [SIDE, CALLS, SEED] = [160, 240, 3];
const CODE = `const atlas = new Atlas(${SIDE}, ${SIDE});
const [asked, held] = [[], new Map()];
let [state, refused] = [${SEED}, 0];
const below = (bound) => {
  state = (Math.imul(state, 1103515245) + 12345) >>> 0;
  return (state >>> 8) % bound;
};
for (let call = 0; call < ${CALLS}; call += 1) {
  if (asked.length > 0 && below(5) < 2) {
    const [one] = asked.splice(below(asked.length), 1);
    if (held.has(one)) atlas.deallocate(held.get(one));
    held.delete(one);
  } else {
    const box = atlas.allocate(8 + below(30), 8 + below(30));
    asked.push(call);
    if (box === null) refused += 1;
    else held.set(call, box.id);
  }
}
console.log(held.size, refused);`;

/** The calls of the lines: of a request its sides, of a freeing the number of the call that asked. */
function callsOf() {
  let state = SEED;
  const below = (bound) => {
    state = (Math.imul(state, 1103515245) + 12345) >>> 0;
    return (state >>> 8) % bound;
  };
  const asked = [];
  return Array.from({ length: CALLS }, (_, call) => {
    if (asked.length > 0 && below(5) < 2) return { freed: asked.splice(below(asked.length), 1)[0] };
    asked.push(call);
    return { width: 8 + below(30), height: 8 + below(30) };
  });
}

/** What a packer holds after each call, and how many requests it refused. */
function played(packer, free, calls) {
  const held = new Map();
  let refused = 0;
  const found = [{ boxes: [], refused }];
  calls.forEach(({ freed, width, height }, call) => {
    if (freed !== undefined) {
      if (held.has(freed)) free(held.get(freed));
      held.delete(freed);
    } else {
      const box = packer.allocate(width, height);
      if (box) held.set(call, box);
      else refused += 1;
    }
    found.push({ boxes: [...held].map(([key, { x, y, width: w, height: h }]) => ({ key, x, y, width: w, height: h })), refused });
  });
  return found;
}

const share = (boxes) => `${Math.round(100 * boxes.reduce((sum, { width, height }) => sum + width * height, 0) / SIDE ** 2)} %`;
const told = ({ boxes, refused }) => `holds ${boxes.length} boxes, is ${share(boxes)} full, and refused ${refused}`;

export function shelfFigure(figure) {
  const [calls, atlas, shelves] = [callsOf(), new Atlas(SIDE, SIDE), new Shelves(SIDE, SIDE)];
  const found = { atlas: played(atlas, ({ id }) => atlas.deallocate(id), calls), shelves: played(shelves, (box) => shelves.free(box), calls) };
  atlas.dispose();
  const views = { atlas: new View(SIDE, SIDE, 'The atlas'), shelves: new View(SIDE, SIDE, 'The shelf packer') };
  const code = new Code(CODE);
  const show = (at) => {
    for (const [name, view] of Object.entries(views)) {
      view.show([{ key: 'whole', x: 0, y: 0, width: SIDE, height: SIDE, looks: 'free' },
        ...found[name][at].boxes.map((box) => ({ ...box, looks: 'live' }))]);
    }
    code.point(at === 0 || calls[at - 1].freed === undefined ? 'const box = ' : 'if (held');
  };
  const steps = new Steps({ name: 'Call', many: CALLS + 1, show, pause: 120, told: (at) => `${at} of ${CALLS}`,
    captions: (at) => `The atlas ${told(found.atlas[at])}; the shelf packer ${told(found.shelves[at])}.` });
  const named = (view, name) => make('div', {}, view.svg, make('p', { textContent: name }));
  const pair = make('div', { className: 'pair' }, named(views.atlas, 'An atlas'), named(views.shelves, 'A shelf packer'));
  fill(figure, [pair, steps.element], code.element);
  steps.slider.set(CALLS);
  return { steps, calls, found, code };
}
