// Figure 5: boxes are placed anew, and one finds no room. A slider moves them from where they were to where they are, one after another.
import { Atlas } from '../index.js';
import { Caption, Code, View, fill, frame, slider } from './how_figure.js';
import { count, isStill, make } from './page.js';

const SIDE = 160;
const SIZES = [[36, 44], [28, 16], [20, 44], [40, 40], [32, 40], [36, 24], [36, 24], [36, 40], [32, 20], [32, 44], [40, 16], [32, 24], [40, 40],
  [36, 12], [44, 24], [44, 16], [40, 28], [36, 16], [44, 28], [12, 36], [28, 16], [44, 32], [32, 32], [12, 44], [12, 16], [12, 12]];
const isFreed = (at) => at % 6 === 1;
const rows = SIZES.map((_, at) => (at % 5 ? '' : `  ${SIZES.slice(at, at + 5).map((each) => `[${each.join(', ')}]`).join(', ')},\n`)).join('');
const CODE = `let atlas = new Atlas(${SIDE}, ${SIDE});
const boxes = [
${rows}].map(([w, h]) => atlas.allocate(w, h));
boxes.forEach((each, at) => {
  if (at % 6 === 1) atlas.deallocate(each.id);
});

const copy = atlas.clone();
const { changes, failures } = copy.rearrange();
if (failures.length === 0) { // none is lost
  atlas.dispose();
  atlas = copy;
  // Copy pixels out of a copy of the texture.
  for (const { before, after } of changes)
    console.log('moved', before.id, after.id);
} else {
  copy.dispose(); // all stays as it was
  for (const { id, width, height } of failures)
    console.log('lost', id, width, height);
}`;
const TIME = 4500; // milliseconds for all boxes
const SHARE = 0.2; // of that time, for one box

/** An atlas of which boxes of odd sizes have come and gone, and the calls as lines of the tool. */
function worn() {
  const [atlas, lines] = [new Atlas(SIDE, SIDE), [`atlas ${SIDE} ${SIDE}`]];
  const boxes = SIZES.map(([width, height]) => {
    lines.push(`alloc ${width} ${height}`);
    return atlas.allocate(width, height);
  });
  boxes.filter((_, at) => isFreed(at)).forEach(({ id }) => {
    lines.push(`free ${id}`);
    atlas.deallocate(id);
  });
  return { atlas, lines };
}

const areaOf = ({ width, height }) => width * height;
const sum = (boxes) => boxes.reduce((all, box) => all + areaOf(box), 0);
const largest = (boxes) => boxes.reduce((best, box) => (areaOf(box) > areaOf(best) ? box : best), { width: 0, height: 0 });
const told = ({ width, height }) => `${width} × ${height}`;

function captionOf(part, { before, after, failures }) {
  if (part === 0) {
    return `${count(sum(before))} pixels are free, in ${before.length} boxes; the largest, outlined, has ${told(largest(before))}. `
      + 'One box is dashed: it will find no room.';
  }
  if (part < 1) return 'A drawing of the way between two answers of the library: the largest box is placed first, then the next.';
  const lost = failures.map(told).join(', ');
  return `The largest free box has ${told(largest(after))} now. But the box of ${lost}, dashed where it was, is lost: `
    + 'no free box had room for it when its turn came.';
}

export function moveFigure(figure) {
  const { atlas, lines } = worn();
  const before = atlas.freeBoxes();
  const { changes, failures } = atlas.rearrange();
  const answers = { before, after: atlas.freeBoxes(), failures };
  changes.sort((a, b) => areaOf(b.before) - areaOf(a.before));
  const view = new View(SIDE, SIDE, 'An atlas that is rearranged');
  const [code, caption] = [new Code(CODE), new Caption()];
  view.svg.classList.add('still');
  const ease = (part) => part * part * (3 - 2 * part);
  const placed = ({ before: from, after: to }, at, part) => {
    const begun = (1 - SHARE) * at / changes.length;
    const own = ease(Math.min(1, Math.max(0, (part - begun) / SHARE)));
    const [x, y] = [from.x + own * (to.x - from.x), from.y + own * (to.y - from.y)];
    const looks = own > 0 && own < 1 ? 'live fresh' : 'live';
    return { key: from.id, x, y, width: from.width, height: from.height, label: String(at + 1), looks };
  };

  function show(part) {
    const isEnd = part === 1;
    const holes = part === 0 ? before : isEnd ? answers.after : [];
    view.show([{ key: 'whole', x: 0, y: 0, width: SIDE, height: SIDE, looks: 'free' },
      ...holes.map((box) => ({ key: `free ${box.x} ${box.y} ${isEnd}`, ...box, looks: box === largest(holes) ? 'free fresh' : 'free' })),
      ...(part === 0 ? failures.map((box) => ({ key: box.id, ...box, looks: 'live' })) : []),
      ...changes.map((change, at) => placed(change, at, part)).sort((a, b) => a.looks.length - b.looks.length)]);
    view.mark(...(part === 0 || isEnd ? failures.map((box) => frame(box, 'was')) : []));
    caption.tell(captionOf(part, answers));
    code.point(part === 0 ? 'const copy' : isEnd ? 'copy.dispose' : 'const { changes');
  }

  const { control, button } = moving(show);
  fill(figure, [view.svg, make('div', { className: 'controls' }, button, control.element), caption.element], code.element);
  show(0);
  return { set: (part) => control.set(Math.round(200 * part)), lines, changes, ...answers, code };
}

/** A slider over the way, and a button that moves it forth, or back. */
function moving(show) {
  const control = slider('Moved', { greatest: 200, value: 0, told: (value) => `${Math.round(value / 2)} %`, onInput: (value) => show(value / 200) });
  const button = make('button', { className: 'main', textContent: 'Rearrange' });
  let running = 0;
  const stop = () => {
    cancelAnimationFrame(running);
    running = 0;
  };
  for (const kind of ['pointerdown', 'input']) control.field.addEventListener(kind, stop);
  const buttonWords = () => { button.textContent = Number(control.field.value) === 200 ? 'Back' : 'Rearrange'; };
  const set = control.set;
  control.set = (value) => {
    set(value);
    buttonWords();
  };
  control.field.addEventListener('input', buttonWords);
  button.addEventListener('click', () => {
    stop();
    const isBack = Number(control.field.value) === 200;
    if (isBack || isStill()) {
      control.set(isBack ? 0 : 200);
      return;
    }
    const begun = performance.now() - TIME * Number(control.field.value) / 200;
    const next = (now) => {
      const part = Math.min(1, (now - begun) / TIME);
      control.set(Math.round(200 * part));
      running = part < 1 ? requestAnimationFrame(next) : 0;
    };
    running = requestAnimationFrame(next);
  });
  return { control, button };
}
