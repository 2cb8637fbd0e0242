// Figure 2: which free box a request takes, and why not another.
import { Atlas } from '../index.js';
import { Caption, Code, View, fill, frame, slider } from './how_figure.js';
import { make } from './page.js';

const [WIDTH, HEIGHT, LARGE] = [240, 150, 96];
const SIZES = [[44, 24], [28, 48], [108, 20], [36, 44], [44, 52], [108, 16], [108, 24], [100, 40], [112, 32], [108, 12], [28, 56], [20, 56],
  [44, 20], [32, 28], [60, 24]];
const CLASSES = ['small', 'medium', 'large'];
const row = (sizes) => `  ${sizes.map((each) => `[${each.join(', ')}]`).join(', ')},\n`;
const rows = (sizes) => sizes.map((_, at) => (at % 5 ? '' : row(sizes.slice(at, at + 5)))).join('');
const codeOf = (width, height) => `const atlas = new Atlas(${WIDTH}, ${HEIGHT}, {
  smallSizeThreshold: 32, largeSizeThreshold: ${LARGE},
});
const boxes = [
${rows(SIZES)}].map(([w, h]) => atlas.allocate(w, h));
boxes.forEach((each, at) => {
  if (at % 2 === 1) atlas.deallocate(each.id);
});
const box = atlas.allocate(${width}, ${height});
if (box === null) console.log('no room');
else console.log(box.x, box.y);`;

/** An atlas of which every other box was freed. */
function prepared() {
  const atlas = new Atlas(WIDTH, HEIGHT, { smallSizeThreshold: 32, largeSizeThreshold: LARGE });
  const boxes = SIZES.map(([width, height]) => atlas.allocate(width, height));
  boxes.forEach((box, at) => at % 2 === 1 && atlas.deallocate(box.id));
  return atlas;
}

function classOf({ width, height }, { smallSizeThreshold, largeSizeThreshold }) {
  const side = Math.max(width, height);
  return side >= largeSizeThreshold ? 2 : side >= smallSizeThreshold ? 1 : 0;
}

/** What the rule says of each free box, in words; the library said which is picked. */
function verdicts(holes, width, height, picked, options) {
  const fits = (hole) => hole.width >= width && hole.height >= height;
  const lowest = Math.min(...holes.filter(fits).map((hole) => classOf(hole, options)));
  const isLarge = classOf({ width, height }, options) === 2;
  return holes.map((hole) => {
    const [across, down] = [hole.width - width, hole.height - height];
    const rank = classOf(hole, options);
    if (across < 0 || down < 0) return { looks: 'dim', words: across < 0 ? `too narrow by ${-across}` : `too low by ${-down}` };
    if (rank > lowest) return { looks: 'fits', words: 'has room, but is kept' };
    const isExact = across === 0 || down === 0;
    const margin = isExact ? 'a side is just right' : `leaves ${Math.min(across, down)}${isLarge ? ', the more the better' : ''}`;
    const isPicked = picked !== null && picked.x === hole.x && picked.y === hole.y;
    return { looks: isPicked ? 'candidate picked' : 'candidate', words: isPicked ? `picked: ${margin}` : margin };
  });
}

export function pickFigure(figure) {
  const [atlas, view] = [prepared(), new View(WIDTH, HEIGHT, 'An atlas with live and free boxes')];
  const table = make('table', { ariaLabel: 'The free boxes, and what the rule says of each' });
  const [holes, live, { options }] = [atlas.freeBoxes().sort((a, b) => a.y - b.y || a.x - b.x), atlas.allocated(), atlas];
  const asked = { width: 20, height: 20 };
  const code = new Code(codeOf(20, 20));
  const caption = new Caption();
  const shown = { picked: null, verdicts: [] };

  function update() {
    const { width, height } = asked;
    const trial = atlas.clone();
    const picked = trial.allocate(width, height);
    trial.dispose();
    const told = verdicts(holes, width, height, picked, options);
    Object.assign(shown, { picked, verdicts: told });
    const letter = (at) => String.fromCharCode(65 + at);
    view.show([
      ...live.map((box) => ({ key: box.id, ...box, looks: 'live dim' })),
      ...holes.map((hole, at) => ({ key: `free ${at}`, ...hole, label: letter(at), looks: `free ${told[at].looks}` })),
    ]);
    view.mark(...(picked ? [frame({ ...picked, width, height }, 'request')] : []));
    table.replaceChildren(make('tr', {}, ...['box', 'sides', 'class', 'rule'].map((textContent) => make('th', { textContent, scope: 'col' }))),
      ...holes.map((hole, at) => {
        const words = [letter(at), `${hole.width} × ${hole.height}`, CLASSES[classOf(hole, options)], told[at].words];
        return make('tr', { className: told[at].looks }, ...words.map((textContent) => make('td', { textContent })));
      }));
    const number = told.filter(({ looks }) => looks.startsWith('candidate')).length;
    caption.tell(picked === null ? `No free box has room for ${width} × ${height}.`
      : `${width} × ${height} lies at ${picked.x}, ${picked.y}. ${number === 1 ? 'One box was' : `${number} boxes were`} in question.`);
    code.show(codeOf(width, height));
    code.point('const box = ');
  }

  const sides = ['width', 'height'].map((side) => slider(side, {
    least: 4, greatest: 140, value: 20, told: (value) => `${value} pixels`,
    onInput: (value) => {
      asked[side] = value;
      update();
    },
  }));
  fill(figure, [view.svg, make('div', { className: 'controls' }, ...sides.map(({ element }) => element)), caption.element], table, code.element);
  update();
  return { set: (width, height) => [width, height].forEach((value, at) => sides[at].set(value)), shown, holes, atlas, code };
}
