// How an atlas comes to what its last line made of it: boxes move to their new places one after another, and what it grows by comes into
// sight. It is drawn for a second or so, and ends where the session goes on.
import { isStill } from './page.js';

const TIME = 1200; // milliseconds
const SHARE = 0.4; // of that time, for one box
const MOST = 3000; // boxes: more are seen where they are at once

const ease = (part) => part * part * (3 - 2 * part);
const between = (from, to, part) => from + part * (to - from);
const areaOf = (box) => (box.x1 - box.x0) * (box.y1 - box.y0);

export class Motion {
  /** `before` has the size that the atlas had, and the pixels of the screen that each of its own took. */
  constructor(session, before) {
    const last = session.lines.length - 1;
    Object.assign(this, { session, many: session.lines.length, before });
    this.boxes = [...session.live.values()].map((to) => ({ from: to.line === last && to.from || to, to }))
      .sort((a, b) => areaOf(b.to) - areaOf(a.to));
  }

  /** The motion to what a session's last line made of it; null where a person wants none, or there is too much to follow. */
  static of(session, before) {
    return isStill() || session.live.size > MOST || !session.live.size ? null : new Motion(session, before);
  }

  /** Draws where all is at a time; gives whether it goes on after that. */
  draw(drawing, session, now) {
    this.begun ??= now;
    const part = (now - this.begun) / TIME;
    if (part >= 1 || session !== this.session || session.lines.length !== this.many) return false;
    const { across, down, on, pixel } = drawing;
    drawing.across = between(this.before.across, across, ease(part));
    drawing.down = between(this.before.down, down, ease(part));
    on.fillStyle = drawing.hatch;
    on.fillRect(0, 0, drawing.base.width, drawing.base.height);
    if (session.width !== this.before.width || session.height !== this.before.height) {
      const [x, y, wide, high] = drawing.place({ x0: 0, y0: 0, x1: this.before.width, y1: this.before.height });
      Object.assign(on, { strokeStyle: drawing.colours.accent, lineWidth: 2 * pixel });
      on.strokeRect(x, y, wide, high);
    }
    const boxes = this.boxes.map((each, at) => this.place(each, at, part, drawing.colours.new));
    drawing.drawBoxes([...boxes.filter(({ fill }) => !fill), ...boxes.filter(({ fill }) => fill)], drawing.colours.live, false, true);
    Object.assign(drawing, { across, down });
    return true;
  }

  /** Where a box is; it has a colour of its own while it is on its way. */
  place({ from, to }, at, part, colour) {
    const own = ease(Math.min(1, Math.max(0, (part - (1 - SHARE) * at / this.boxes.length) / SHARE)));
    const [x, y] = [between(from.x0, to.x0, own), between(from.y0, to.y0, own)];
    const isMoving = own > 0 && own < 1 && (from.x0 !== to.x0 || from.y0 !== to.y0);
    return { x0: x, y0: y, x1: x + to.x1 - to.x0, y1: y + to.y1 - to.y0, fill: isMoving ? colour : undefined };
  }
}
