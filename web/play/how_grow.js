// Figure 3: an atlas grows, and nothing in it moves.
import { Atlas } from '../index.js';
import { Caption, Code, View, draw, fill, slider } from './how_figure.js';
import { count, make } from './page.js';

const [WIDTH, HEIGHT, WIDEST, HIGHEST] = [128, 96, 224, 160];
const SIZES = [[48, 64], [30, 40], [50, 24], [30, 20], [20, 36], [34, 30]];
const codeOf = (width, height) => `const atlas = new Atlas(${WIDTH}, ${HEIGHT});
const sizes = [
  ${SIZES.slice(0, 3).map((each) => `[${each.join(', ')}]`).join(', ')},
  ${SIZES.slice(3).map((each) => `[${each.join(', ')}]`).join(', ')},
];
for (const [w, h] of sizes) atlas.allocate(w, h);
const before = atlas.allocated();
atlas.grow(${width}, ${height}); // no side shrinks
const after = atlas.allocated();
console.log(before, after); // the same`;

export function growFigure(figure) {
  const atlas = new Atlas(WIDTH, HEIGHT);
  for (const [width, height] of SIZES) atlas.allocate(width, height);
  const view = new View(WIDEST, HIGHEST, 'An atlas that grows');
  const [outline, caption] = [draw('rect', { class: 'outline' }), new Caption()];
  const [asked, shown] = [{ width: WIDTH, height: HEIGHT }, { live: [], free: [] }];
  const code = new Code(codeOf(WIDTH, HEIGHT));
  view.mark(outline, draw('rect', { width: WIDTH, height: HEIGHT, class: 'was' }));

  function update() {
    const { width, height } = asked;
    const grown = atlas.clone();
    if (width > WIDTH || height > HEIGHT) grown.grow(width, height);
    Object.assign(shown, { live: grown.allocated(), free: grown.freeBoxes() });
    grown.dispose();
    const isNew = (box) => box.x + box.width > WIDTH || box.y + box.height > HEIGHT;
    view.show([
      ...shown.free.map((box) => ({ key: `free ${box.x} ${box.y}`, ...box, looks: isNew(box) ? 'free fresh' : 'free' })),
      ...shown.live.map((box, at) => ({ key: box.id, ...box, label: String.fromCharCode(97 + at), looks: 'live' })),
    ]);
    Object.assign(outline.style, { width: `${width}px`, height: `${height}px` });
    const area = shown.free.reduce((sum, box) => sum + box.width * box.height, 0);
    const added = shown.free.filter(isNew).length;
    caption.tell(`${width} × ${height}: ${count(area)} pixels are free, in ${shown.free.length} boxes${
      added === 0 ? '' : `, ${added === 1 ? 'one' : 'two'} of which ${added === 1 ? 'is' : 'are'} new`}.`);
    code.show(codeOf(width, height));
    code.point('atlas.grow');
  }

  const sides = [['width', WIDTH, WIDEST], ['height', HEIGHT, HIGHEST]].map(([side, least, greatest]) => slider(side, {
    least, greatest, value: least, told: (value) => `${value} pixels`,
    onInput: (value) => {
      asked[side] = value;
      update();
    },
  }));
  fill(figure, [view.svg, make('div', { className: 'controls' }, ...sides.map(({ element }) => element)), caption.element], code.element);
  sides[0].set(176);
  return { set: (width, height) => [width, height].forEach((value, at) => sides[at].set(value)), shown, atlas, code };
}
