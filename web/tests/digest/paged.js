/** The calls of boxes on several pages of bindings/tests/digest.c. */
import { SEVENS, answered, numberOf } from './sum.js';

const HELD = 500;
const EMPTY = numberOf('EMPTY');
const OCCUPIED = numberOf('OCCUPIED');

export class Paged {
  constructor(api, draw, sum) {
    Object.assign(this, { api, draw, sum });
    this.paged = null;
    this.granted = [];
  }

  call(call) {
    return this.paged === null ? { value: null, status: EMPTY } : answered(() => call(this.paged));
  }

  make() {
    const { PagedAtlas } = this.api;
    const [options, width, height, most] = [this.draw.options(), this.draw.side(400), this.draw.side(400), this.draw.below(6)];
    if (!this.draw.oneIn(4)) {
      this.paged?.dispose();
      this.paged = null;
    }
    const hasOptions = !this.draw.oneIn(2);
    const make = () => new PagedAtlas(width, height, most, hasOptions ? options : undefined);
    const { value, status } = this.paged === null ? answered(make) : { status: OCCUPIED };
    if (status === 0) this.paged = value;
    this.sum.add(status);
  }

  take() {
    const [width, height] = [this.draw.side(90), this.draw.side(90)];
    const { value, status } = this.call((paged) => paged.allocate(width, height));
    this.sum.add(status === 0 && value === null ? numberOf('NO_ROOM') : status);
    this.sum.add(value === null ? 7 : value.page);
    this.sum.allocation(value);
    if (value === null) return;
    if (this.granted.length < HELD) this.granted.push(value);
    else this.sum.add(this.call((paged) => paged.deallocate(value.page, value.id)).status);
  }

  giveBack() {
    const [page, id] = [this.draw.below(6), this.draw.below(60)];
    if (this.granted.length === 0 || this.draw.oneIn(20)) {
      this.sum.add(this.call((paged) => paged.deallocate(page, id)).status);
      return;
    }
    const at = this.draw.below(this.granted.length);
    const box = this.granted[at];
    this.sum.add(this.call((paged) => paged.deallocate(box.page, box.id)).status);
    const last = this.granted.pop();
    if (at < this.granted.length) this.granted[at] = last;
  }

  ask() {
    const [page, id] = [this.draw.below(6), this.draw.below(60)];
    const got = this.call((paged) => paged.get(page, id));
    this.sum.add(got.status === 0 && got.value === null ? numberOf('NOT_LIVE') : got.status);
    this.sum.box(got.value);
    const pages = this.call((paged) => paged.pageCount);
    this.sum.add(pages.status);
    this.sum.add(pages.value ?? 7);
    const size = this.call((paged) => paged.pageSize(page));
    this.sum.add(size.status);
    this.sum.size(size.value ?? SEVENS.size);
    const areas = this.call((paged) => paged.areas(page));
    this.sum.add(areas.status);
    this.sum.wide((areas.value ?? SEVENS.areas).allocated);
    this.sum.wide((areas.value ?? SEVENS.areas).free);
    const live = this.call((paged) => paged.allocated(page));
    this.sum.add(live.status);
    this.sum.wide(live.value?.length ?? 7);
    for (const each of live.value ?? []) this.sum.allocation(each);
  }

  change() {
    const [page, kind, width, height] = [this.draw.below(6), this.draw.below(12), this.draw.side(500), this.draw.side(500)];
    if (kind < 6) {
      this.sum.add(this.call((paged) => paged.grow(page, width, height)).status);
    } else if (kind < 11) {
      const { value, status } = this.call((paged) => paged.shrink());
      this.sum.add(status);
      this.sum.add(value ?? 7);
    } else {
      this.sum.add(this.call((paged) => paged.clear()).status);
    }
  }
}
