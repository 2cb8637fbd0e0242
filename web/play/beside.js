// The session's requests played to other packers as well: what each grants, how full it is after each call, how long it takes.
import { Atlas } from '../index.js';
import { colours } from './drawing.js';
import { draw } from './how_figure.js';
import { GrowingSkyline, MaximalRectangles, Shelves } from './packers.js';
import { count, find, make, time } from './page.js';
import { isStart, parsed } from './session.js';

const QUICK = 20000; // lines: in a longer session nothing is compared until it is asked for
const LEAST = 30; // milliseconds that are measured at once, since a browser's clock may tick only each millisecond
const TURNS = 5; // of which the shortest counts
const SIDE = 220; // of a drawing, in pixels of the page
const POINTS = 500; // of a curve, at most some more
const CHANGING = ['grow', 'clear', 'rearrange', 'resize'];

/** The library's atlas, which takes back the boxes that it handed out. */
class Ours {
  constructor(width, height, options) {
    Object.assign(this, { atlas: new Atlas(width, height, options), options });
  }

  reset(width, height) {
    this.atlas.reset(width, height, this.options);
  }

  allocate(width, height) {
    return this.atlas.allocate(width, height);
  }

  free({ id }) {
    this.atlas.deallocate(id);
  }

  grow(width, height) {
    this.atlas.grow(width, height);
  }

  rearrange(held) {
    this.moved(held, this.atlas.rearrange());
  }

  resize(held, width, height) {
    this.moved(held, this.atlas.resizeAndRearrange(width, height));
  }

  /** Boxes that were placed anew have other ids, and those that found no place are gone. */
  moved(held, { changes }) {
    const after = new Map(changes.map((change) => [change.before.id, change.after]));
    held.forEach((box, at) => { held[at] = box && after.get(box.id); });
  }
}

const PACKERS = [
  { name: 'this atlas', kind: Ours },
  { name: 'a shelf packer', kind: Shelves },
  { name: 'a skyline packer', kind: GrowingSkyline },
  { name: 'maximal rectangles', kind: MaximalRectangles },
];

/** The calls of a session since its atlas was made. A request has the number of its line, and a freeing that of the box's request. */
function scriptOf({ lines, replies }) {
  const first = lines.findLastIndex((line, at) => isStart(line) && replies[at][0] === 'ok');
  const [width, height, alignX = 1, alignY = 1, small = 32, large = 256] = parsed(lines[first]).numbers;
  const options = { alignment: { width: alignX, height: alignY }, smallSizeThreshold: small, largeSizeThreshold: large };
  const [calls, names] = [[], new Map()];
  for (let at = first + 1; at < lines.length; at += 1) {
    const { name, numbers: [one, two] } = parsed(lines[at]);
    const [begin, last] = [replies[at][0].split(' '), replies[at].at(-1)];
    if (name === 'alloc' && one > 0 && two > 0) {
      calls.push({ name, at, width: one, height: two });
      if (begin[0] === 'id') names.set(Number(begin[1]), at);
    } else if (name === 'free' && last === 'ok') {
      calls.push({ name, at: names.get(one) });
      names.delete(one);
    } else if (CHANGING.includes(name) && /^(ok|changes .*)$/.test(last)) {
      calls.push({ name, width: one, height: two });
      if (name !== 'grow') rename(names, replies[at]);
    }
  }
  return { width, height, options, calls };
}

/** Has the ids of boxes that were placed anew stand for the lines that their former ids stood for. */
function rename(names, reply) {
  const moves = reply.map((line) => line.split(' ')).filter(([word]) => word === 'moved');
  const lines = moves.map((words) => names.get(Number(words[1])));
  names.clear();
  moves.forEach((words, at) => names.set(Number(words[7]), lines[at]));
}

/** Plays the calls to a packer, which passes over those that it hasn't; gives the boxes that it holds then, by their lines. */
function play(packer, { width, height, calls }, after) {
  const held = [];
  let now = { width, height };
  packer.reset(width, height);
  for (const call of calls) {
    if (call.name === 'alloc') held[call.at] = packer.allocate(call.width, call.height);
    else if (call.name === 'free') {
      if (held[call.at]) packer.free(held[call.at]);
      held[call.at] = null;
    } else if (call.name === 'clear') {
      held.length = 0;
      packer.reset(now.width, now.height);
    } else if (call.name === 'grow') packer.grow(call.width, call.height);
    else packer[call.name]?.(held, call.width, call.height);
    if (call.name === 'grow' || call.name === 'resize') now = packer.resize ? call : { width: packer.width, height: packer.height };
    after?.(call, held, now);
  }
  return held;
}

/** What a packer makes of the calls: its boxes, how many requests it grants and refuses, and how full it is and was at most. */
function outcome(kind, script) {
  const packer = new kind(script.width, script.height, script.options);
  const found = { granted: 0, refused: 0, full: 0, most: 0, size: script, curve: [0] };
  const sides = [];
  let area = 0;
  const held = play(packer, script, (call, boxes, now) => {
    const isGranted = Boolean(boxes[call.at]);
    if (call.name === 'alloc') {
      found[isGranted ? 'granted' : 'refused'] += 1;
      sides[call.at] = isGranted ? call.width * call.height : 0;
      area += sides[call.at];
    } else if (call.name === 'free') {
      area -= sides[call.at];
      sides[call.at] = 0;
    } else if (call.name !== 'grow') {
      sides.forEach((_, at) => { if (!boxes[at]) sides[at] = 0; });
      area = sides.reduce((sum, each) => sum + each, 0);
    }
    found.size = now;
    found.full = area / (now.width * now.height);
    found.most = Math.max(found.most, found.full);
    found.curve.push(found.full);
  });
  packer.atlas?.dispose();
  return { ...found, boxes: held.filter(Boolean) };
}

/** The time of a call in milliseconds: that of all calls, over and over in a packer that is emptied each time. */
function measured(kind, script) {
  const packer = new kind(script.width, script.height, script.options);
  let least = Infinity;
  for (let [rounds, turn] = [1, 0]; turn < TURNS;) {
    const begun = performance.now();
    for (let round = 0; round < rounds; round += 1) play(packer, script);
    const spent = performance.now() - begun;
    if (spent < LEAST) rounds *= spent > 2 ? Math.ceil(1.2 * LEAST / spent) : 8;
    else {
      least = Math.min(least, spent / (rounds * script.calls.length));
      turn += 1;
    }
  }
  packer.atlas?.dispose();
  return least;
}

const cells = (...words) => words.map((word) => make('td', { textContent: word }));
const percent = (share) => `${(100 * share).toFixed(1)} %`;

/** How full each was after each call, as a curve for each. */
function curvesOf(found) {
  const many = Math.max(1, found[0].curve.length - 1);
  const step = Math.ceil(many / POINTS);
  const lines = found.map(({ curve }, number) => {
    const points = curve.map((share, at) => (at % step === 0 || at === many ? `${100 * at / many},${100 * (1 - share)}` : '')).filter(Boolean);
    return draw('polyline', { points: points.join(' '), class: `curve curve-${number}` });
  });
  const told = found.map(({ name, full }) => `${name} ${percent(full)}`).join(', ');
  const picture = draw('svg', { id: 'beside-curves', viewBox: '0 0 100 100', preserveAspectRatio: 'none', role: 'img',
    'aria-label': `How full each is after each of ${many} calls; at the end: ${told}` }, ...lines);
  const caption = make('figcaption', { textContent: `How full each was, from 0 to 100 %, over ${count(many)} calls` });
  return make('figure', { className: 'wide' }, picture, caption);
}

/** What a curve looks like, before the name of what it is of. */
const sample = (number) => draw('svg', { class: 'sample', viewBox: '0 0 30 10', 'aria-hidden': 'true' },
  draw('line', { x1: 0, y1: 5, x2: 30, y2: 5, class: `curve curve-${number}` }));

export class Beside {
  constructor(player) {
    Object.assign(this, { player, found: [] });
    find('beside').addEventListener('toggle', () => this.show());
    find('beside-measure').addEventListener('click', () => this.show(true));
  }

  /** Compares anew, where that can be seen; the times are measured where that is asked for. */
  show(isMeasured = false) {
    const { session, isRunning } = this.player;
    if (!find('beside').open || isRunning || session.lines.length > QUICK && !isMeasured) return;
    if (this.lines === session.lines && this.many === session.lines.length && !isMeasured) return;
    Object.assign(this, { lines: session.lines, many: session.lines.length });
    const script = scriptOf(session);
    this.found = PACKERS.map(({ name, kind }) => ({ name, ...outcome(kind, script) }));
    if (isMeasured && script.calls.length > 0) PACKERS.forEach(({ kind }, at) => { this.found[at].time = measured(kind, script); });
    find('beside-rows').replaceChildren(...this.found.map((each, number) => make('tr', {}, make('th', { scope: 'row' }, sample(number), each.name),
      ...cells(count(each.granted), count(each.refused), percent(each.full), percent(each.most), each.time ? time(each.time) : '-'))));
    this.draw();
  }

  draw() {
    find('beside-shown').replaceChildren(...this.found.map(({ name, size, boxes }) => {
      const canvas = make('canvas', { role: 'img', ariaLabel: name });
      const [scale, { sheet, live, edge }] = [SIDE * (window.devicePixelRatio || 1) / Math.max(size.width, size.height), colours()];
      Object.assign(canvas, { width: Math.ceil(size.width * scale), height: Math.ceil(size.height * scale) });
      canvas.style.width = `${Math.ceil(canvas.width / (window.devicePixelRatio || 1))}px`;
      const on = canvas.getContext('2d');
      on.fillStyle = sheet;
      on.fillRect(0, 0, canvas.width, canvas.height);
      Object.assign(on, { fillStyle: live, strokeStyle: edge });
      for (const { x, y, width, height } of boxes) {
        const place = [x, y, width, height].map((side) => side * scale);
        on.fillRect(...place);
        on.strokeRect(...place);
      }
      return make('figure', {}, canvas, make('figcaption', { textContent: name }));
    }), curvesOf(this.found));
  }
}
