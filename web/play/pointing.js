// What is pointed at, by mouse, finger or keys: it is outlined, and told beside the atlas with why it lies there.
import { boxAt } from './drawing.js';
import { find, make, say } from './page.js';
import { choiceOf, told } from './why.js';

const REST = 120; // milliseconds until it is looked up why a box lies where it does
const QUICK = 20000; // lines that are carried out anew for that while the atlas runs

const STEPS = { ArrowLeft: [-1, 0], ArrowRight: [1, 0], ArrowUp: [0, -1], ArrowDown: [0, 1] };

export class Pointing {
  /** `onPoint` is given the box that is pointed at, or null. */
  constructor(player, canvas, onPoint) {
    Object.assign(this, { player, canvas, onPoint, box: null, choice: null, at: null });
    canvas.addEventListener('pointermove', (event) => this.pointAt(this.position(event)));
    canvas.addEventListener('pointerleave', (event) => event.pointerType !== 'touch' && this.pointAt(null));
    canvas.addEventListener('pointerdown', (event) => { this.pointer = event.pointerType; });
    canvas.addEventListener('click', (event) => this.clicked(event));
    canvas.addEventListener('keydown', (event) => this.pressed(event));
    canvas.addEventListener('blur', () => this.pointAt(null));
  }

  position(event) {
    const { left, top, width, height } = this.canvas.getBoundingClientRect();
    const { session } = this.player;
    const x = Math.floor((event.clientX - left) / width * session.width);
    return [x, Math.floor((event.clientY - top) / height * session.height)];
  }

  pointAt(at) {
    this.at = at;
    this.refresh();
  }

  /** Looks again at what lies at the place that is pointed at. */
  refresh() {
    const box = this.at && this.player.session.atlas ? boxAt(this.player.session, ...this.at) : null;
    if (box === this.box && !this.extra) return;
    this.extra = null;
    this.box = box;
    this.choice = null;
    clearTimeout(this.timer);
    const { session, isRunning } = this.player;
    const isLooked = box?.id !== undefined && (!isRunning || session.lines.length < QUICK);
    if (isLooked) this.timer = setTimeout(() => this.look(), REST);
    this.show();
    this.onPoint(box);
  }

  look() {
    const { session } = this.player;
    if (session.live.get(this.box?.id) !== this.box) return;
    this.choice = choiceOf(session, this.box);
    this.show();
    if (this.isByKeys) say(this.lines().join(' '));
  }

  lines() {
    if (!this.box) return ['Nothing. Point at a box, or move there by the arrow keys.'];
    const lines = told(this.player.session, this.box, this.choice);
    const isTapped = this.pointer === 'touch' && this.box.id !== undefined;
    return isTapped ? [...lines, 'Tap it once more to free it.'] : lines;
  }

  show() {
    find('told').replaceChildren(...this.lines().map((line) => make('p', { textContent: line })));
    this.outline();
  }

  /** Points at a member of the tree of cuts; null ends it. */
  pointAtMember(member) {
    const isLeaf = member && !member.members;
    this.pointAt(isLeaf ? [member.x, member.y] : null);
    if (!member || isLeaf) return this.also(null);
    const { x, y, width, height } = member;
    return this.also({ x0: x, y0: y, x1: x + width, y1: y + height });
  }

  /** Outlines a box of the lists; null ends it. */
  also(box) {
    this.extra = box;
    this.outline();
  }

  outline() {
    const entries = this.choice?.picked ? [[this.choice.picked, true]] : [];
    if (this.box) entries.push([this.box, false]);
    if (this.extra) entries.push([this.extra, false]);
    this.player.drawing.point(entries);
  }

  // A finger points first; once more at the same box, and it is freed.
  clicked(event) {
    this.isByKeys = false;
    const before = this.tapped;
    this.pointAt(this.position(event));
    this.tapped = this.box;
    if (this.pointer !== 'touch' || before === this.box) this.free();
  }

  free(id = this.box?.id) {
    if (id === undefined) return;
    this.player.call(`free ${id}`);
    this.refresh();
    say(`Box ${id} is free.`);
  }

  pressed(event) {
    if (event.ctrlKey || event.altKey || event.metaKey) return;
    this.isByKeys = true;
    if (event.key in STEPS) this.step(...STEPS[event.key]);
    else if (event.key === 'Enter' || event.key === 'Delete') this.free();
    else return;
    event.preventDefault();
  }

  step(across, down) {
    const { width, height } = this.player.session;
    if (!this.at || !this.box) {
      this.at = [0, 0];
    } else {
      const { x0, y0, x1, y1 } = this.box;
      const x = across < 0 ? x0 - 1 : across > 0 ? x1 : this.at[0];
      const y = down < 0 ? y0 - 1 : down > 0 ? y1 : this.at[1];
      if (x >= 0 && y >= 0 && x < width && y < height) this.at = [x, y];
    }
    this.refresh();
    say(this.lines().join(' '));
  }
}
