/** The calls of atlases of bindings/tests/digest.c. What only C can ask for is answered here: a handle that holds nothing,
 * one that holds something already, and an array that is too short. */
import { SEVENS, answered, numberOf } from './sum.js';

const HELD = 500;
const ROOM = 2048;
const EMPTY = numberOf('EMPTY');
const OCCUPIED = numberOf('OCCUPIED');
const NO_BOX = { id: 0, x: 0, y: 0, width: 0, height: 0 };

export class Atlases {
  constructor(api, draw, sum) {
    Object.assign(this, { api, draw, sum });
    this.both = [{ atlas: null, ids: [] }, { atlas: null, ids: [] }];
    this.found = new Array(ROOM).fill(NO_BOX);
    this.boxes = new Array(ROOM).fill(NO_BOX);
  }

  either() {
    return this.both[this.draw.oneIn(4) ? 1 : 0];
  }

  call(it, call) {
    return it.atlas === null ? { value: null, status: EMPTY } : answered(() => call(it.atlas));
  }

  /** The list of a call, as far as there is room, over what was listed before. */
  list(it, call, into, room) {
    const { value, status } = this.call(it, call);
    if (status === 0) for (let i = 0; i < value.length && i < room; i++) into[i] = value[i];
    return { status, count: value?.length };
  }

  relist(it) {
    it.ids = [];
    const { status, count } = this.list(it, (atlas) => atlas.allocated(), this.found, ROOM);
    if (status === 0) it.ids = this.found.slice(0, Math.min(count, HELD)).map((each) => each.id);
  }

  someId(it) {
    if (it.ids.length > 0 && !this.draw.oneIn(25)) return it.ids[this.draw.below(it.ids.length)];
    const slot = this.draw.below(2000);
    const generation = this.draw.oneIn(2) ? 0 : 1 + this.draw.below(5);
    return slot + generation * 16777216;
  }

  fill(it, make) {
    const { value, status } = it.atlas === null ? answered(make) : { status: OCCUPIED };
    if (status === 0) it.atlas = value;
    this.sum.add(status);
  }

  letGo(it) {
    it.atlas?.dispose();
    it.atlas = null;
  }

  make() {
    const { Atlas } = this.api;
    const it = this.either();
    const [width, height, options, kind] = [this.draw.side(1500), this.draw.side(1500), this.draw.options(), this.draw.below(3)];
    if (kind === 0) this.fill(it, () => new Atlas(width, height));
    if (kind === 1) this.fill(it, () => new Atlas(width, height, options));
    if (kind === 2) {
      const limit = this.draw.oneIn(6) ? this.draw.side(5) >>> 0 : 1 + this.draw.below(900);
      this.fill(it, () => new Atlas(width, height, options, limit));
    }
    this.relist(it);
  }

  copy() {
    const it = this.either();
    const other = it === this.both[0] ? this.both[1] : this.both[0];
    if (this.draw.oneIn(2)) this.letGo(other);
    if (it.atlas === null) this.sum.add(EMPTY);
    else this.fill(other, () => it.atlas.clone());
    this.relist(other);
  }

  free() {
    const it = this.either();
    this.letGo(it);
    this.sum.add(1);
    it.ids = [];
    if (!this.draw.oneIn(4)) this.fill(it, () => new this.api.Atlas(1024, 1024));
  }

  allocate() {
    const it = this.either();
    const most = this.draw.oneIn(10) ? 300 : 70;
    const [width, height] = [this.draw.side(most), this.draw.side(most)];
    const { value, status } = this.call(it, (atlas) => atlas.allocate(width, height));
    this.sum.add(status === 0 && value === null ? numberOf('NO_ROOM') : status);
    this.sum.allocation(value);
    if (value === null) return;
    if (it.ids.length < HELD) it.ids.push(value.id);
    else this.sum.add(this.call(it, (atlas) => atlas.deallocate(value.id)).status);
  }

  deallocate() {
    const it = this.either();
    const at = it.ids.length === 0 ? 0 : this.draw.below(it.ids.length);
    const isHeld = it.ids.length > 0 && !this.draw.oneIn(20);
    const id = isHeld ? it.ids[at] : this.someId(it);
    this.sum.add(this.call(it, (atlas) => atlas.deallocate(id)).status);
    if (!isHeld) return;
    const last = it.ids.pop();
    if (at < it.ids.length) it.ids[at] = last;
  }

  deallocateAll() {
    const it = this.either();
    const ids = Array.from({ length: this.draw.below(13) }, () => this.someId(it));
    this.sum.add(this.call(it, (atlas) => atlas.deallocateAll(ids)).status);
    this.relist(it);
  }

  lookUp() {
    const it = this.either();
    const id = this.someId(it);
    const { value, status } = this.call(it, (atlas) => atlas.get(id));
    this.sum.add(status === 0 && value === null ? numberOf('NOT_LIVE') : status);
    this.sum.box(value);
  }

  ask() {
    const it = this.either();
    const [width, height] = [this.draw.side(300), this.draw.side(300)];
    this.sum.add(this.call(it, (atlas) => atlas.canFit(width, height)).value);
    this.sum.add(this.call(it, (atlas) => atlas.canGrowTo(Math.imul(4, width), Math.imul(4, height))).value);
    this.sum.add(it.atlas === null ? 1 : it.atlas.isEmpty);
    const unusable = this.call(it, (atlas) => atlas.unusableArea(width, height));
    this.sum.add(unusable.status);
    this.sum.wide(unusable.value ?? 7);
    const { value, status } = this.call(it, (atlas) => atlas.largestFree());
    this.sum.add(status === 0 && value === null ? numberOf('NO_ROOM') : status);
    this.sum.box(value);
  }

  grow() {
    const it = this.either();
    const { value, status } = this.call(it, (atlas) => atlas.size);
    const size = value ?? SEVENS.size;
    this.sum.add(status);
    this.sum.size(size);
    if (size.width > 6000 || size.height > 6000) return;
    const [width, height] = [size.width + this.draw.below(200) - 2, size.height + this.draw.below(200) - 2];
    this.sum.add(this.call(it, (atlas) => atlas.grow(width, height)).status);
  }

  reserve() {
    const it = this.either();
    const many = this.draw.oneIn(20) ? this.api.MOST_SLOTS : this.draw.below(200);
    this.sum.add(this.call(it, (atlas) => atlas.reserve(many)).status);
  }

  startAgain() {
    const it = this.either();
    const [options, width, height] = [this.draw.options(), this.draw.side(1500), 1 + this.draw.below(1500)];
    if (this.draw.oneIn(2)) this.sum.add(this.call(it, (atlas) => atlas.clear()).status);
    else this.sum.add(this.call(it, (atlas) => atlas.reset(width, height, options)).status);
    this.relist(it);
  }

  /** An empty size is told first, and then that there is less room than used slots. */
  rearranged(it, room, isEmptySize, call) {
    if (it.atlas === null) return { value: null, status: EMPTY };
    if (isEmptySize) return answered(() => call(it.atlas));
    if (it.atlas.slots.used > room) return { value: null, status: numberOf('SHORT') };
    return answered(() => call(it.atlas));
  }

  rearrange() {
    const it = this.either();
    const room = this.draw.oneIn(10) ? this.draw.below(20) : ROOM;
    let answer;
    if (this.draw.oneIn(2)) {
      answer = this.rearranged(it, room, false, (atlas) => atlas.rearrange());
    } else {
      const [width, height] = [this.draw.oneIn(6) ? this.draw.side(400) : 900, 700 + this.draw.below(400)];
      answer = this.rearranged(it, room, width <= 0, (atlas) => atlas.resizeAndRearrange(width, height));
    }
    const { changes, failures } = answer.value ?? { changes: [], failures: [] };
    this.sum.add(answer.status);
    this.sum.wide(changes.length);
    this.sum.wide(failures.length);
    for (const { before, after } of changes) {
      this.sum.allocation(before);
      this.sum.allocation(after);
    }
    for (const each of failures) this.sum.allocation(each);
    this.relist(it);
  }

  describe() {
    const it = this.either();
    for (const [what, add] of [['options', 'options'], ['slots', 'slots']]) {
      const { value, status } = this.call(it, (atlas) => atlas[what]);
      this.sum.add(status);
      this.sum[add](value ?? SEVENS[what]);
    }
    const { value, status } = this.call(it, (atlas) => atlas.areas);
    this.sum.add(status);
    this.sum.wide((value ?? SEVENS.areas).allocated);
    this.sum.wide((value ?? SEVENS.areas).free);
  }

  listAll() {
    const it = this.either();
    const room = this.draw.oneIn(3) ? this.draw.below(30) : ROOM;
    const live = this.list(it, (atlas) => atlas.allocated(), this.found, room);
    const count = live.count ?? 7;
    this.sum.add(live.status);
    this.sum.wide(count);
    for (let i = 0; i < count && i < room; i++) this.sum.allocation(this.found[i]);
    const free = this.list(it, (atlas) => atlas.freeBoxes(), this.boxes, room);
    const boxes = free.count ?? count;
    this.sum.add(free.status);
    this.sum.wide(boxes);
    for (let i = 0; i < boxes && i < room; i++) this.sum.box(this.boxes[i]);
  }
}
