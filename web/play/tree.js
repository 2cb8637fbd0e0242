// The tree of cuts as a list, each member below the one that holds it. Only the rows in sight are in the page.
import { find, make } from './page.js';

const ROW = 24; // pixels
const DEEPEST = 16; // steps that a row is moved in
const QUICK = 4000; // members: a larger tree is shown once the atlas stands still

const WAYS = { horizontal: 'right', vertical: 'down' };

/** All members of a tree: each with its depth, and the row of the one that holds it. `names` has other names for the boxes' ids. */
export function rowsOf(whole, names) {
  const rows = [];
  const left = [{ member: whole, depth: 0, up: -1 }];
  while (left.length > 0) {
    const row = left.pop();
    if (names && row.member.kind === 'live') row.member.id = names.get(row.member.id);
    const up = rows.push(row) - 1;
    const members = row.member.members ?? [];
    for (let at = members.length - 1; at >= 0; at -= 1) left.push({ member: members[at], depth: row.depth + 1, up });
  }
  return rows;
}

function wordsOf({ member, depth }) {
  const size = `${member.width} × ${member.height}`;
  if (member.kind === 'live') return `box ${member.id}, ${size}`;
  if (member.kind === 'free') return `free, ${size}`;
  return `${depth === 0 ? 'the atlas, ' : ''}${WAYS[member.axis]}: ${size}`;
}

export class Tree {
  /** `onRow` is given the member that is pointed at here, null where none is; `onEnter` the id of the box to free. */
  constructor(player, onRow, onEnter) {
    Object.assign(this, { player, onRow, onEnter, rows: [], active: -1, lit: -1 });
    this.box = find('tree');
    this.inside = this.box.firstElementChild;
    this.box.addEventListener('scroll', () => this.draw());
    this.box.addEventListener('pointermove', (event) => this.over(event));
    this.box.addEventListener('pointerleave', () => this.onRow(null));
    this.box.addEventListener('click', (event) => this.activate(this.rowOf(event)));
    this.box.addEventListener('keydown', (event) => this.pressed(event));
    this.box.addEventListener('blur', () => this.onRow(null));
    new ResizeObserver(() => this.draw()).observe(this.box);
  }

  /** Shows the tree as it is now. */
  refresh() {
    const { session, isRunning } = this.player;
    const isLater = isRunning && session.live.size > QUICK / 2;
    find('tree-note').hidden = !isLater;
    if (isLater) this.box.setAttribute('aria-busy', 'true');
    else this.box.removeAttribute('aria-busy');
    const rows = isLater ? [] : session.cuts();
    if (rows === this.rows) return;
    this.rows = rows;
    this.leaves = new Map();
    rows.forEach(({ member }, at) => member.members || this.leaves.set(member.y * session.width + member.x, at));
    this.active = Math.min(this.active, rows.length - 1);
    this.inside.style.height = `${rows.length * ROW}px`;
    this.draw();
  }

  /** Lights up the row of a box of the atlas, and those that hold it; null lights none. */
  light(box) {
    this.lit = (box && this.leaves?.get(box.y0 * this.player.session.width + box.x0)) ?? -1;
    if (this.lit >= 0) this.reveal(this.lit);
    this.draw();
  }

  reveal(at) {
    const { scrollTop, clientHeight } = this.box;
    if (at * ROW < scrollTop || (at + 1) * ROW > scrollTop + clientHeight) {
      this.box.scrollTop = at * ROW - (clientHeight - ROW) / 2;
    }
  }

  draw() {
    const first = Math.max(0, Math.floor(this.box.scrollTop / ROW) - 2);
    const shown = this.rows.slice(first, first + Math.ceil(this.box.clientHeight / ROW) + 5);
    const above = new Set();
    for (let at = this.lit; at > 0; at = this.rows[at]?.up ?? -1) above.add(at);
    this.inside.replaceChildren(...shown.map((row, number) => this.item(row, first + number, above)));
    this.box.setAttribute('aria-activedescendant', this.active >= 0 ? `tree-${this.active}` : '');
  }

  item(row, at, above) {
    const names = [row.member.kind, at === this.lit && 'lit', above.has(at) && 'above', at === this.active && 'active'];
    const item = make('div', { id: `tree-${at}`, className: names.filter((name) => name).join(' '), textContent: wordsOf(row) });
    item.style.top = `${at * ROW}px`;
    item.style.paddingLeft = `${0.4 + 0.7 * Math.min(row.depth, DEEPEST)}rem`;
    item.setAttribute('role', 'treeitem');
    item.setAttribute('aria-level', row.depth + 1);
    item.setAttribute('aria-selected', at === this.active);
    if (row.member.members) item.setAttribute('aria-expanded', 'true');
    return item;
  }

  rowOf(event) {
    return Math.floor((event.clientY - this.box.getBoundingClientRect().top - this.box.clientTop + this.box.scrollTop) / ROW);
  }

  over(event) {
    this.onRow(this.rows[this.rowOf(event)]?.member ?? null);
  }

  activate(at) {
    if (!this.rows[at]) return;
    this.active = at;
    this.reveal(at);
    this.draw();
    this.onRow(this.rows[at].member);
  }

  pressed(event) {
    if (event.ctrlKey || event.altKey || event.metaKey) return;
    const at = Math.max(0, this.active);
    const steps = {
      ArrowDown: this.active + 1, ArrowUp: at - 1, Home: 0, End: this.rows.length - 1, ArrowLeft: this.rows[at]?.up,
      ArrowRight: this.rows[at]?.member.members ? at + 1 : at,
    };
    if (event.key in steps) this.activate(steps[event.key]);
    else if (event.key === 'Enter' || event.key === 'Delete') this.free();
    else return;
    event.preventDefault();
  }

  free() {
    const member = this.rows[this.active]?.member;
    if (member?.kind === 'live') this.onEnter(member.id);
  }
}
