/** The calls of a cache of bindings/tests/digest.c. A key is a number, or where that is asked for the string of it. */
import { SEVENS, answered, numberOf } from './sum.js';

const EMPTY = numberOf('EMPTY');
const OCCUPIED = numberOf('OCCUPIED');
const KEYS = 300;

export class Cache {
  constructor(api, draw, sum, hasNames) {
    Object.assign(this, { api, draw, sum, hasNames });
    this.cache = null;
  }

  call(call) {
    return this.cache === null ? { value: null, status: EMPTY } : answered(() => call(this.cache));
  }

  key(number) {
    return this.hasNames ? `key ${number}` : number;
  }

  someKey() {
    return this.draw.below(KEYS) * 4294967297;
  }

  follow() {
    for (const change of this.cache?.changes() ?? []) {
      this.sum.add(['pageAdded', 'pageGrown', 'evicted', 'moved', 'pageRemoved'].indexOf(change.kind));
      if (change.kind === 'pageAdded' || change.kind === 'pageGrown') {
        this.sum.add(change.page);
        this.sum.size(change);
      } else if (change.kind === 'pageRemoved') {
        this.sum.add(change.page);
      } else {
        this.sum.wide(this.hasNames ? Number(change.key.slice('key '.length)) : change.key);
        this.sum.place(change.from);
      }
      if (change.kind === 'moved') this.sum.place(change.to);
    }
    this.sum.add(this.cache === null ? EMPTY : numberOf('NO_CHANGE'));
  }

  make() {
    const [pages, padding] = [this.draw.oneIn(12) ? 0 : 1 + this.draw.below(4), this.draw.oneIn(12) ? -1 : this.draw.below(3)];
    const page = { width: this.draw.oneIn(12) ? this.draw.side(500) : 96, height: 128 };
    const atlas = this.draw.oneIn(3) ? this.draw.options() : undefined;
    if (!this.draw.oneIn(4)) {
      this.cache?.dispose();
      this.cache = null;
    }
    const make = () => new this.api.TextureCache({ page, largestPage: { width: 384, height: 256 }, pages, padding, atlas });
    const { value, status } = this.cache === null ? answered(make) : { status: OCCUPIED };
    if (status === 0) this.cache = value;
    this.sum.add(status);
  }

  /** The status of a call that gives a place, or null, which `otherwise` names. */
  place(otherwise, call) {
    const { value, status } = this.call(call);
    this.sum.add(status === 0 && value === null ? numberOf(otherwise) : status);
    return value;
  }

  insert() {
    const key = this.someKey();
    const number = key >>> 0;
    const width = this.draw.oneIn(40) ? this.draw.side(500) : number % 10 === 3 ? 0 : 4 + number * 7 % 60;
    const { value: place, status } = this.call((cache) => cache.insert(this.key(key), width, 4 + number * 11 % 50));
    const otherwise = place === null ? 'FRAME_FULL' : place.isNew ? 'DONE' : 'HELD';
    this.sum.add(status === 0 ? numberOf(otherwise) : status);
    if (!this.draw.oneIn(3)) this.follow();
    this.sum.place(place);
  }

  ask() {
    const call = this.draw.oneIn(3) ? 'peek' : 'get';
    const key = this.someKey();
    this.sum.place(this.place('NOT_HELD', (cache) => cache[call](this.key(key))));
  }

  letGo() {
    const kind = this.draw.below(23);
    let place = null;
    if (kind < 12) {
      const key = this.someKey();
      place = this.place('NOT_HELD', (cache) => cache.remove(this.key(key)));
    } else if (kind < 15) {
      const frames = 5 + this.draw.below(60);
      this.sum.add(this.call((cache) => cache.trim(frames)).status);
    } else if (kind < 16) {
      this.sum.add(this.call((cache) => cache.shrink()).status);
    } else if (kind < 18) {
      const page = this.draw.below(5);
      this.sum.add(this.call((cache) => cache.repack(page)).status);
    } else if (kind < 19) {
      const page = this.draw.below(5);
      const { status, value } = this.call((cache) => cache.repackKeepingAll(page));
      this.sum.add(value === false ? numberOf('NO_ROOM') : status);
    } else if (kind < 20) {
      const keys = this.draw.below(4);
      this.sum.add(this.call((cache) => cache.endBatch(keys)).status);
    } else if (kind < 22) {
      const pixels = this.draw.below(4000);
      const { status, value } = this.call((cache) => cache.compact(pixels));
      this.sum.add(status);
      this.sum.wide(value ?? 7);
    } else {
      this.sum.add(this.call((cache) => cache.clear()).status);
    }
    this.sum.place(place);
    if (this.draw.oneIn(2)) this.follow();
  }

  nextFrame() {
    this.sum.add(this.call((cache) => cache.beginFrame()).status);
  }

  /** A key with its place, or null. */
  keyed(found) {
    const key = found === null ? 7 : this.hasNames ? Number(found.key.slice('key '.length)) : found.key;
    this.sum.wide(key);
    this.sum.place(found?.place ?? null);
  }

  know() {
    this.sum.add(7000);
    const additional = this.draw.below(100);
    this.sum.add(this.call((cache) => cache.reserve(additional)).status);
    const page = this.draw.below(4);
    const areas = this.call((cache) => cache.areas(page));
    this.sum.add(areas.status);
    for (const area of Object.values(areas.value ?? SEVENS.areas)) this.sum.wide(area);
    const [other, width, height] = [this.draw.below(4), this.draw.side(60), this.draw.side(60)];
    const unusable = this.call((cache) => cache.unusableArea(other, width, height));
    this.sum.add(unusable.status);
    this.sum.wide(unusable.value ?? areas.value?.free ?? 7);
    const options = this.call((cache) => cache.options);
    this.sum.add(options.status);
    const told = options.value ?? { page: SEVENS.size, largestPage: SEVENS.size, pages: 7, padding: 7, atlas: SEVENS.options };
    this.sum.size(told.page);
    this.sum.size(told.largestPage);
    this.sum.add(told.pages);
    this.sum.add(told.padding);
    this.sum.options(told.atlas);
    const end = this.draw.oneIn(2) ? 'newest' : 'oldest';
    const first = this.place('NOT_HELD', (cache) => cache[end]());
    this.keyed(first);
    const key = this.draw.oneIn(2) ? first?.key ?? this.key(7) : this.key(this.someKey());
    const next = this.place('NOT_HELD', (cache) => cache.older(key));
    this.keyed(next ?? first);
  }

  describe() {
    const length = this.call((cache) => cache.length);
    this.sum.add(length.status);
    this.sum.wide(length.value ?? 7);
    const numbers = this.call((cache) => cache.numbers);
    this.sum.add(numbers.status);
    this.sum.add(numbers.value ?? 7);
    const pages = this.call((cache) => cache.pageCount);
    this.sum.add(pages.status);
    this.sum.add(pages.value ?? 7);
    const number = this.draw.below(4);
    const size = this.call((cache) => cache.pageSize(number));
    this.sum.add(size.status);
    this.sum.size(size.value ?? SEVENS.size);
    const counts = this.call((cache) => cache.statistics);
    this.sum.add(counts.status);
    for (const count of Object.values(counts.value ?? SEVENS.counts)) this.sum.wide(count);
  }
}
