// A session: lines in the form of atlas_tool (docs/TOOL.md), carried out one by one on an atlas, with the tool's replies.
// Undo carries out all lines but the last once more, in a new atlas.
import { Atlas, replyTo } from './library.js';
import { rowsOf } from './tree.js';

const PARTS = {
  atlas: [['n', 'n'], ['n', 'n', 'n', 'n', 'n', 'n']], alloc: [['n', 'n']], free: [['i']], grow: [['n', 'n']],
  live: [[]], holes: [[]], size: [[]], empty: [[]], clear: [[]], rearrange: [[]], resize: [['n', 'n']], record: [['n', 'n']],
};
const ELSEWHERE = ['simple', 'take', 'from-atlas', 'replay'];
const ASKING = ['live', 'holes', 'size', 'empty'];
export const MOST_LINES = 500000;
export const GREATEST_SIDE = 65536;

function number(word, kind) {
  if (!(kind === 'i' ? /^[0-9]+$/ : /^-?[0-9]+$/).test(word)) return null;
  const value = Number(word);
  const fits = kind === 'i' ? value <= 4294967295 : value >= -2147483648 && value <= 2147483647;
  return fits ? value : null;
}

/** The words of a line: its name and its numbers; or what is wrong with it, in words. */
export function parsed(line) {
  const [name, ...words] = line.split(' ');
  if (ELSEWHERE.includes(name)) return { wrong: `"${name}" is known to the tool, not to this page` };
  if (!Object.hasOwn(PARTS, name)) return { wrong: 'it begins with no command' };
  const kinds = PARTS[name].find((each) => each.length === words.length);
  const numbers = kinds && words.map((word, at) => number(word, kinds[at]));
  if (!kinds || numbers.includes(null) || line.length > 120) return { wrong: `these are not the numbers of "${name}"` };
  return { name, numbers };
}

/** Whether a line makes an atlas. */
export const isStart = (line) => line.startsWith('atlas ') || line.startsWith('record ');

/** The class of a box's sides, by the thresholds of the options (docs/MODEL.md, "Choice"): 0 small, 1 medium, 2 large. */
export function classOf(box, { small, large }) {
  const side = Math.max(box.x1 - box.x0, box.y1 - box.y0);
  return side >= large ? 2 : side >= small ? 1 : 0;
}

const areaOf = (box) => (box.x1 - box.x0) * (box.y1 - box.y0);
const corners = (box) => `${box.x0} ${box.y0} ${box.x1} ${box.y1}`;

export class Session {
  constructor() {
    this.lines = [];
    this.undone = [];
    this.replies = [];
    // Of each line how full the atlas was after it, also of those that can be done again.
    this.chart = [];
    this.begin();
  }

  begin() {
    this.atlas?.dispose();
    this.atlas = null;
    this.options = null;
    this.width = this.height = 0;
    this.live = new Map();
    this.recorded = null;
    this.area = 0; // of what is live
    this.changed();
  }

  // All must be drawn anew.
  changed() {
    this.isNew = true;
    this.added = [];
    this.freed = [];
    this.forget();
  }

  // What is asked of the atlas must be asked anew.
  forget() {
    this.holes = this.tree = null;
  }

  /** Carries out a line, and keeps it with its reply. Gives the reply, an array of lines. */
  add(line) {
    if (this.lines.length >= MOST_LINES) throw new Error(`a session has at most ${MOST_LINES} lines`);
    const call = parsed(line);
    if (call.wrong) throw new Error(call.wrong);
    this.lines.push(line);
    this.undone.length = 0;
    this.chart.length = this.lines.length - 1;
    return this.carry(call);
  }

  carry(call) {
    const reply = this.answer(call);
    this.replies.push(reply);
    this.chart[this.replies.length - 1] = this.area / Math.max(1, this.width * this.height);
    return reply;
  }

  answer({ name, numbers }) {
    const needsAtlas = name !== 'atlas' && name !== 'record';
    if (needsAtlas && (!this.atlas || this.recorded && (name === 'clear' || name === 'empty'))) return ['no atlas'];
    try {
      return this[`do_${name}`](...numbers);
    } catch (error) {
      return [replyTo(error)];
    }
  }

  do_atlas(width, height, alignX = 1, alignY = 1, small = 32, large = 256) {
    const options = { alignX, alignY, small, large };
    const atlas = new Atlas(width, height, options);
    this.begin();
    Object.assign(this, { atlas, options, width, height });
    return ['ok'];
  }

  /** A recorded session: boxes have names, 0, 1, 2 and so on, in the order of the grants, and keep them where they are placed anew. */
  do_record(width, height) {
    const reply = this.do_atlas(width, height);
    this.recorded = { ids: new Map(), names: new Map(), next: 0 };
    return reply;
  }

  /** Has a name stand for the id that a box has now. */
  name(name, id) {
    this.recorded.ids.set(name, id);
    this.recorded.names.set(id, name);
  }

  do_alloc(width, height) {
    const box = this.atlas.allocate(width, height);
    if (!box) return ['none'];
    if (this.recorded) {
      this.name(this.recorded.next, box.id);
      box.id = this.recorded.next;
      this.recorded.next += 1;
    }
    box.line = this.lines.length - 1;
    this.live.set(box.id, box);
    this.area += areaOf(box);
    this.added.push(box);
    this.forget();
    return [`id ${box.id} at ${corners(box)}`];
  }

  do_free(id) {
    if (this.recorded && !this.live.has(id)) return ['refused not live'];
    this.atlas.free(this.recorded ? this.recorded.ids.get(id) : id);
    this.freed.push(this.live.get(id));
    this.area -= areaOf(this.live.get(id));
    this.live.delete(id);
    this.forget();
    return ['ok'];
  }

  do_grow(width, height) {
    this.atlas.grow(width, height);
    Object.assign(this, { width, height });
    this.changed();
    return ['ok'];
  }

  do_clear() {
    this.atlas.clear();
    this.live.clear();
    this.area = 0;
    this.changed();
    return ['ok'];
  }

  do_rearrange() {
    return this.rearranged(this.atlas.rearrange());
  }

  do_resize(width, height) {
    const told = this.atlas.resize(width, height);
    Object.assign(this, { width, height });
    return this.rearranged(told);
  }

  rearranged({ changes, failures }) {
    const line = this.lines.length - 1;
    if (this.recorded) this.renamed(changes, failures);
    this.live.clear();
    for (const { from, to } of changes) this.live.set(to.id, { ...to, line, from });
    for (const box of failures) this.area -= areaOf(box);
    this.changed();
    const moved = changes.map(({ from, to }) => `moved ${from.id} ${corners(from)} to ${to.id} ${corners(to)}`);
    const lost = failures.map((box) => `lost ${box.id} ${corners(box)}`);
    return [...moved, ...lost, `changes ${changes.length} failures ${failures.length}`];
  }

  /** Boxes that were placed anew, and those that were lost, under their names. */
  renamed(changes, failures) {
    const { names } = this.recorded;
    this.recorded.names = new Map();
    for (const { from, to } of changes) {
      from.id = names.get(from.id);
      this.name(from.id, to.id);
      to.id = from.id;
    }
    for (const box of failures) box.id = names.get(box.id);
  }

  do_size() {
    return [`size ${this.width} ${this.height}`];
  }

  do_empty() {
    return [String(this.live.size === 0)];
  }

  do_live() {
    const boxes = this.recorded ? [...this.live.values()].sort((a, b) => a.id - b.id) : this.atlas.live();
    return [...boxes.map((box) => `box ${box.id} ${corners(box)}`), `live ${boxes.length}`];
  }

  do_holes() {
    const holes = [...this.free()].sort((a, b) => a.y0 - b.y0 || a.x0 - b.x0);
    return [...holes.map((box) => `hole ${corners(box)}`), `holes ${holes.length}`];
  }

  /** The free boxes. */
  free() {
    if (!this.holes) this.holes = this.atlas ? this.atlas.holes() : [];
    return this.holes;
  }

  /** The members of the tree of cuts, as rows. */
  cuts() {
    if (!this.tree) this.tree = this.atlas ? rowsOf(this.atlas.cuts(), this.recorded?.names) : [];
    return this.tree;
  }

  // The line that made the first atlas: it isn't undone.
  get first() {
    return this.lines.findIndex((line, at) => isStart(line) && this.replies[at][0] === 'ok');
  }

  get canUndo() {
    return this.lines.length > this.first + 1;
  }

  /** Takes back the last line that changed something, and those after it, which asked. Gives it. */
  undo() {
    const { first } = this;
    const kept = this.lines.slice();
    let line;
    do {
      line = kept.pop();
      this.undone.push(line);
    } while (kept.length > first + 1 && ASKING.includes(line));
    this.replay(kept);
    return line;
  }

  redo() {
    const line = this.undone.pop();
    if (line === undefined) return undefined;
    this.lines.push(line);
    this.carry(parsed(line));
    return line;
  }

  /** Goes to where the session was after so many lines, as undo and redo do; the lines after them can be done again. */
  goTo(many) {
    const all = [...this.lines, ...this.undone.slice().reverse()];
    const kept = Math.min(Math.max(many, this.first + 1), all.length);
    if (kept < this.lines.length) this.replay(all.slice(0, kept));
    for (const line of all.slice(this.lines.length, kept)) {
      this.lines.push(line);
      this.carry(parsed(line));
    }
    this.undone = all.slice(kept).reverse();
  }

  /** Begins anew with these lines, which were parsed before. */
  replay(lines) {
    this.begin();
    this.lines = [];
    this.replies = [];
    for (const line of lines) {
      this.lines.push(line);
      this.carry(parsed(line));
    }
  }
}
