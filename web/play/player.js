// What the controls of the atlas do: calls on a session, by hand or many a second, each drawn with the next frame.
import { Drawing } from './drawing.js';
import { Motion } from './motion.js';
import { GREATEST_SIDE, MOST_LINES, Session, parsed } from './session.js';

const BUDGET = 10; // milliseconds of a frame for calls
const between = (least, greatest) => least + Math.floor(Math.random() * (greatest - least + 1));
const SIDES = {
  glyphs: () => [between(5, 22), between(8, 30)],
  sprites: () => [between(20, 120), between(20, 120)],
  tiles: () => [64, 64],
};

export class Player {
  /** @param room gives the room for the drawing; @param own gives the size that a person typed. */
  constructor({ base, over, room, own, onFrame, onEnd }) {
    Object.assign(this, { room, own, onFrame, onEnd });
    this.session = new Session();
    this.drawing = new Drawing(base, over);
    this.kind = 'glyphs';
    this.mode = 'both';
    this.speed = 30;
    this.isRunning = false;
    this.forget();
  }

  // Counts of time begin anew, and so does the list from which a random box is drawn.
  forget() {
    this.calls = 0;
    this.milliseconds = 0;
    this.frame = { milliseconds: 0, rate: 0 };
    this.pool = [];
    this.owed = 0;
  }

  /** Carries out a line; gives the reply. */
  call(line) {
    const begun = performance.now();
    const reply = this.session.add(line);
    this.milliseconds += performance.now() - begun;
    this.calls += 1;
    const name = line.slice(0, line.indexOf(' '));
    if (name === 'alloc' && reply[0] !== 'none') this.pool.push(this.session.added.at(-1).id);
    if (['atlas', 'record', 'grow', 'resize'].includes(name)) this.fit();
    this.ask();
    return reply;
  }

  begin({ width, height, alignX, alignY, small, large }) {
    this.forget();
    this.session.lines = [];
    this.session.replies = [];
    this.session.undone = [];
    this.session.chart = [];
    const plain = alignX === 1 && alignY === 1 && small === 32 && large === 256;
    return this.call(plain ? `atlas ${width} ${height}` : `atlas ${width} ${height} ${alignX} ${alignY} ${small} ${large}`);
  }

  add() {
    const [width, height] = this.kind === 'own' ? this.own() : SIDES[this.kind]();
    return this.call(`alloc ${width} ${height}`);
  }

  /** A live id at random; undefined where there is none. */
  any() {
    const { live } = this.session;
    if (this.pool.length < live.size || this.pool.length > 2 * live.size + 64) this.pool = [...live.keys()];
    while (this.pool.length > 0) {
      const at = between(0, this.pool.length - 1);
      const id = this.pool[at];
      if (live.has(id)) return id;
      this.pool[at] = this.pool.at(-1);
      this.pool.pop();
    }
    return live.keys().next().value;
  }

  freeAny() {
    const id = this.any();
    return id === undefined ? null : this.call(`free ${id}`);
  }

  /** The size that the button grows to: the shorter side is doubled. */
  grown() {
    const { width, height } = this.session;
    const [wide, high] = width <= height ? [width * 2, height] : [width, height * 2];
    return wide > GREATEST_SIDE || high > GREATEST_SIDE ? null : [wide, high];
  }

  grow() {
    const size = this.grown();
    return size && this.seen(`grow ${size[0]} ${size[1]}`);
  }

  rearrange() {
    return this.seen('rearrange');
  }

  /** Carries out a line, and has what it does be seen as motion. */
  seen(line) {
    const { across, down } = this.drawing;
    const { width, height } = this.session;
    const reply = this.call(line);
    this.drawing.motion = Motion.of(this.session, { across, down, width, height });
    return reply;
  }

  undo() {
    return this.again(() => this.session.canUndo && this.session.undo());
  }

  redo() {
    return this.again(() => this.session.redo());
  }

  goTo(many) {
    this.again(() => this.session.goTo(many));
  }

  again(what) {
    const size = [this.session.width, this.session.height];
    const line = what();
    this.pool = [];
    if (size[0] !== this.session.width || size[1] !== this.session.height) this.fit();
    this.ask();
    return line;
  }

  /** Plays lines instead of the session. Throws, with nothing changed, where one is none of the page's. */
  play(text) {
    const lines = text.replaceAll('\r\n', '\n').split('\n').filter((line) => line !== '');
    if (lines.length > MOST_LINES) throw new Error(`A session has at most ${MOST_LINES} lines.`);
    lines.forEach((line, at) => check(line, at));
    const trial = new Session();
    trial.replay(lines);
    if (!trial.atlas) throw new Error('No line makes an atlas; one such as "atlas 512 384" is needed.');
    this.session.atlas?.dispose();
    this.session = trial;
    this.forget();
    this.fit();
    this.ask();
  }

  run(isRunning) {
    this.isRunning = isRunning;
    this.owed = 0;
    this.before = performance.now();
    this.ask();
  }

  // One call of those that run by themselves. False where there is nothing left to do.
  step() {
    if (this.session.lines.length >= MOST_LINES) return false;
    if (this.mode === 'free') return this.freeAny() !== null;
    if (this.mode === 'add') return this.add()[0] !== 'none';
    if (this.isFull || Math.random() < 0.4) this.isFull = this.freeAny() === null;
    else this.isFull = this.add()[0] === 'none';
    return true;
  }

  steps(now) {
    this.owed = Math.min(this.owed + this.speed * (now - this.before) / 1000, this.speed);
    this.before = now;
    const end = performance.now() + BUDGET;
    while (this.owed >= 1 && performance.now() < end) {
      this.owed -= 1;
      if (!this.step()) {
        this.isRunning = false;
        this.onEnd();
        return;
      }
    }
    // What a frame has no time for isn't caught up.
    this.owed = Math.min(this.owed, 1);
  }

  fit() {
    const room = this.room();
    if (room.width <= 0) return;
    if (this.session.atlas) this.drawing.fit(this.session, room);
    this.ask();
  }

  /** Has the next frame fit the drawing to the room that there is. */
  refit() {
    this.drawing.shown = null;
    this.ask();
  }

  /** Asks for a frame. */
  ask() {
    if (this.asked) return;
    this.asked = true;
    requestAnimationFrame((now) => this.draw(now));
  }

  draw(now) {
    this.asked = false;
    const begun = performance.now();
    if (this.isRunning) this.steps(now);
    if (this.drawing.shown === null && this.session.atlas) this.fit();
    if (this.session.atlas) this.drawing.draw(this.session, this.isRunning, now);
    const { last } = this.frame;
    this.frame.rate = last && now > last ? 0.9 * this.frame.rate + 0.1 * (1000 / (now - last)) : 0;
    this.frame.last = this.isRunning ? now : 0;
    this.onFrame();
    this.frame.milliseconds = performance.now() - begun;
    if (this.isRunning || this.drawing.motion) this.ask();
  }
}

function check(line, at) {
  const call = parsed(line);
  if (call.wrong) throw new Error(`Line ${at + 1} can't be played: ${call.wrong}.`);
  const isSize = ['atlas', 'record', 'grow', 'resize'].includes(call.name);
  if (isSize && Math.max(call.numbers[0], call.numbers[1]) > GREATEST_SIDE) {
    throw new Error(`Line ${at + 1} can't be played: this page draws sides up to ${GREATEST_SIDE} pixels.`);
  }
}
