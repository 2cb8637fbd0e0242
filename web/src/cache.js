import { lengthOf, numbers, requireApart, room } from './arrays.js';
import { DONE, FRAME_FULL, HELD, NO_ROOM, NOT_HELD, STATUSES, WollemigoError, atMost, close, failure, isOurs, require, say } from './errors.js';
import { EVICTED, PAGE_ADDED, PAGE_GROWN, PAGE_REMOVED, cacheChangeAt, cacheOptionsAt, countsAt, placeAt } from './interface.js';
import { Keys } from './keys.js';
import * as reading from './reading.js';
import { CACHE, Owner, found, handle, runtimeOf } from './runtime.js';
import { atlasOptions, count, length, options, shownState, size, target, unwritable, whyNoAtlas, wide } from './values.js';

const OPTIONS = {
  page: [size],
  largestPage: [size, null],
  pages: [count, 1],
  padding: [length, 0],
  atlas: [atlasOptions, [1, 1, 32, 256]],
};

/** A change of the library; `keys` has the key of its number. */
function change(words, at, keys) {
  const [kind, page] = [words[at + cacheChangeAt.kind], words[at + cacheChangeAt.page] >>> 0];
  if (kind === PAGE_REMOVED) return { kind: 'pageRemoved', page };
  if (kind === PAGE_ADDED || kind === PAGE_GROWN) {
    return { kind: kind === PAGE_ADDED ? 'pageAdded' : 'pageGrown', page, ...reading.size(words, at + cacheChangeAt.size) };
  }
  const [lower, from] = [at + cacheChangeAt.key, reading.place(words, at + cacheChangeAt.from)];
  const key = keys.key(words[lower], words[lower + 1]);
  return kind === EVICTED ? { kind: 'evicted', key, from } : { kind: 'moved', key, from, to: reading.place(words, at + cacheChangeAt.to) };
}

/** How many numbers `insertAll` writes of a key: whether it is new, and those of its place. */
const WORDS = 1 + placeAt.words;

/** What of an insertion's answer is its status. */
const STATUS = 255;
/** Where a change is written, in bytes behind the place. */
const CHANGE = 64;

const first = (words, at) => words[at] >>> 0;

const COPY = Symbol('copy');

/** A value that shares no object with this one. */
function apart(value) {
  if (Object(value) !== value) return value;
  return Object.fromEntries(Object.entries(value).map(([name, each]) => [name, apart(each)]));
}

function optionsRead(words, at) {
  const { page, largestPage, pages, padding, atlas } = cacheOptionsAt;
  return { page: reading.size(words, at + page), largestPage: reading.size(words, at + largestPage), pages: first(words, at + pages),
    padding: words[at + padding], atlas: reading.options(words, at + atlas) };
}

function statisticsRead(words, at) {
  const { hits, misses, evictions, forced } = countsAt;
  return { hits: reading.wide(words, at + hits), misses: reading.wide(words, at + misses), evictions: reading.wide(words, at + evictions),
    forced: reading.wide(words, at + forced) };
}

export class TextureCache extends Owner {
  #keys = new Keys();
  // What was done and not handed over; an eviction's key is here and no longer in the table.
  #waiting = [];
  #handed = 0;

  static {
    close(this, 'get', 'touch', 'getInto', 'insert');
    say({
      OTHER_SIZE: 'a key is held with another size',
      NUMBERS: 'a cache holds 4294967295 keys, and can hold no more',
      EMPTY_PAGE: 'a side of a new page is below 1',
      LARGEST_PAGE: 'a side of the largest page is less than that of a new one',
      NO_PAGES: 'no pages are allowed',
      BAD_PADDING: 'the padding is below 0',
      BAD_ATLAS: "the options of the pages' atlases aren't valid",
      NEVER_FITS: 'with the padding, rounded up to the alignment, a size exceeds the largest page',
      NOTHING_FITS: 'with the padding and rounded up, not even 1 by 1 fits the largest page',
    });
  }

  constructor(given, ...more) {
    if (given === COPY) {
      super(CACHE, more[0], undefined, more[1]);
      return;
    }
    atMost(1, arguments.length);
    const { page, largestPage, pages, padding, atlas } = options(given, 'options', OPTIONS);
    const largest = largestPage ?? page;
    super(CACHE, (runtime, cell) => {
      runtime.write(runtime.at, [page.width, page.height, largest.width, largest.height, pages, padding, ...atlas]);
      return runtime.calls.cache_new(runtime.at, cell);
    }, () => whyNoAtlas(1, 1, atlas, 'options.atlas'));
  }

  // The pages that web/play/build makes leave out what this, `reserveSlots` and `reserveChanges` do.
  clone() {
    if (import.meta.cut) return undefined;
    const runtime = runtimeOf(this, CACHE);
    const copy = new TextureCache(COPY, (_, cell) => runtime.calls.cache_clone(handle(this), cell), runtime);
    copy.#keys = this.#keys.copy();
    copy.#waiting = this.#waiting.slice(this.#handed).map(apart);
    return copy;
  }

  beginFrame() {
    require(runtimeOf(this, CACHE).calls.cache_begin_frame(handle(this)));
  }

  get(key) {
    atMost(1, arguments.length);
    const runtime = runtimeOf(this, CACHE);
    return this.#isFound(runtime, key) ? reading.place(runtime.words(), runtime.word) : null;
  }

  touch(key) {
    atMost(1, arguments.length);
    const runtime = runtimeOf(this, CACHE);
    return this.#isFound(runtime, key);
  }

  getInto(key, place) {
    atMost(2, arguments.length);
    const runtime = runtimeOf(this, CACHE);
    target(place, 'place');
    if (!this.#isFound(runtime, key)) return false;
    try {
      reading.placeInto(runtime.words(), runtime.word, place);
    } catch (cause) {
      throw unwritable('place', cause);
    }
    return true;
  }

  /** Looks a key up, which is used then; its place is at `runtime.at`. */
  #isFound(runtime, key) {
    const lower = this.#keys.lower(key);
    let status;
    try {
      status = runtime.get(handle(this), lower, this.#keys.upper, runtime.at);
    } catch (error) {
      throw runtime.trap(error);
    }
    if (status === DONE) return true;
    if (status === NOT_HELD) return false;
    throw failure(STATUSES[status]);
  }

  peek(key) {
    const runtime = runtimeOf(this, CACHE);
    return this.#peeked(runtime, key);
  }

  has(key) {
    const runtime = runtimeOf(this, CACHE);
    return this.#peeked(runtime, key) !== null;
  }

  #peeked(runtime, key) {
    const number = this.#keys.number(key);
    return this.#place(runtime, runtime.calls.cache_peek(handle(this), number, runtime.at));
  }

  insert(key, width, height) {
    atMost(3, arguments.length);
    const runtime = runtimeOf(this, CACHE);
    const [w, h] = [length(width, 'width'), length(height, 'height')];
    const answer = this.#inserted(runtime, key, w, h);
    const status = answer & STATUS;
    const isPlaced = status === DONE || status === HELD;
    const entry = isPlaced ? reading.entry(runtime.words(), runtime.word, status === DONE) : null;
    if (answer !== status) this.#follow(runtime, true);
    if (isPlaced || status === FRAME_FULL) return entry;
    throw failure(STATUSES[status]);
  }

  insertAll(keys, sizes, out) {
    const [all, sides] = [numbers(keys, 'keys'), numbers(sizes, 'sizes')];
    const many = lengthOf(all);
    if (lengthOf(sides) < 2 * many) throw new WollemigoError('BAD_OPTION', `sizes has ${lengthOf(sides)} numbers, and not ${2 * many}`);
    room(out, 'out', WORDS * many);
    requireApart(out, WORDS * many, all, 'keys');
    requireApart(out, WORDS * many, sides, 'sizes');
    const runtime = runtimeOf(this, CACHE);
    for (let i = 0; i < many; i++) {
      const status = this.#insertedInto(runtime, all[i], sides[2 * i], sides[2 * i + 1], out, WORDS * i, i);
      if (status === FRAME_FULL) return i;
    }
    return many;
  }

  /** One of `insertAll`. */
  #insertedInto(runtime, key, width, height, out, to, index) {
    let code;
    try {
      const answer = this.#inserted(runtime, key, length(width, 'width'), length(height, 'height'));
      const status = answer & STATUS;
      if (status === DONE || status === HELD) {
        out[to] = status === DONE ? 1 : 0;
        reading.placeWords(runtime.words(), runtime.word, out, to + 1);
      }
      if (answer !== status) this.#follow(runtime, true);
      if (status === DONE || status === HELD || status === FRAME_FULL) return status;
      code = STATUSES[status];
    } catch (error) {
      if (isOurs(error)) error.index = index;
      throw error;
    }
    throw failure(code, { index });
  }

  /** The status of an insertion, and more than that where a change was written; the place is at `runtime.at`, the change at `CHANGE`. */
  #inserted(runtime, key, width, height) {
    const lower = this.#keys.next(key);
    let status;
    try {
      status = runtime.insert(handle(this), lower, this.#keys.upper, width, height, runtime.at, runtime.at + CHANGE);
    } catch (error) {
      throw runtime.trap(error);
    }
    if ((status & STATUS) === DONE) this.#keys.keep(key);
    return status;
  }

  remove(key) {
    const runtime = runtimeOf(this, CACHE);
    const number = this.#keys.number(key);
    const place = this.#place(runtime, runtime.calls.cache_remove(handle(this), number, runtime.at));
    if (place !== null) this.#keys.forget(key);
    return place;
  }

  /** The place that a look-up wrote behind so many words. */
  #place(runtime, status, before = 0) {
    if (status === DONE) return reading.place(runtime.words(), runtime.word + before);
    if (status === NOT_HELD) return null;
    throw failure(STATUSES[status]);
  }

  /** Takes over what a call did, so that each key that went is read while its name is known. The first change may be there already. */
  #follow(runtime, isThere = false) {
    const [cell, at] = [handle(this), runtime.at + CHANGE];
    try {
      for (let isNext = isThere; isNext || runtime.nextChange(cell, at) === DONE; isNext = false) {
        const made = change(runtime.words(), at >>> 2, this.#keys);
        if (made.kind === 'evicted') this.#keys.forget(made.key);
        this.#waiting.push(made);
      }
    } catch (error) {
      throw runtime.trap(error);
    }
  }

  changes() {
    runtimeOf(this, CACHE);
    return this.#changes();
  }

  *#changes() {
    while (runtimeOf(this, CACHE) && this.#handed < this.#waiting.length) {
      const next = this.#waiting[this.#handed];
      this.#handed += 1;
      if (this.#handed === this.#waiting.length) [this.#waiting, this.#handed] = [[], 0];
      yield next;
    }
  }

  clear() {
    require(runtimeOf(this, CACHE).calls.cache_clear(handle(this)));
    this.#keys.clear();
  }

  trim(frames) {
    const number = wide(frames, 'frames');
    const runtime = runtimeOf(this, CACHE);
    require(runtime.calls.cache_trim(handle(this), number));
    this.#follow(runtime);
  }

  endBatch(keys) {
    const number = count(keys, 'keys');
    const runtime = runtimeOf(this, CACHE);
    require(runtime.calls.cache_end_batch(handle(this), number));
    this.#follow(runtime);
  }

  shrink() {
    const runtime = runtimeOf(this, CACHE);
    require(runtime.calls.cache_shrink(handle(this)));
    this.#follow(runtime);
  }

  compact(pixels) {
    const number = wide(pixels, 'pixels');
    const runtime = runtimeOf(this, CACHE);
    const status = runtime.calls.cache_compact(handle(this), number, runtime.at);
    const moved = reading.wide(runtime.words(), runtime.word);
    this.#follow(runtime);
    require(status);
    return moved;
  }

  repack(page) {
    const number = count(page, 'page');
    const runtime = runtimeOf(this, CACHE);
    require(runtime.calls.cache_repack(handle(this), number));
    this.#follow(runtime);
  }

  repackKeepingAll(page) {
    const number = count(page, 'page');
    const runtime = runtimeOf(this, CACHE);
    const status = runtime.calls.cache_repack_keeping_all(handle(this), number);
    if (status === NO_ROOM) return false;
    require(status);
    this.#follow(runtime);
    return true;
  }

  reserve(additional) {
    const number = count(additional, 'additional');
    require(runtimeOf(this, CACHE).calls.cache_reserve(handle(this), number));
  }

  reserveSlots(additional) {
    if (import.meta.cut) return;
    const number = count(additional, 'additional');
    require(runtimeOf(this, CACHE).calls.cache_reserve_slots(handle(this), number));
  }

  reserveChanges(additional) {
    if (import.meta.cut) return;
    const number = count(additional, 'additional');
    require(runtimeOf(this, CACHE).calls.cache_reserve_changes(handle(this), number));
  }

  [Symbol.iterator]() {
    const runtime = runtimeOf(this, CACHE);
    return this.#all(runtime).values();
  }

  /** All keys with their places: a caller may use the cache while it goes through them. */
  #all(runtime) {
    const all = [];
    let status = runtime.calls.cache_newest(handle(this), runtime.at, runtime.at + 8);
    for (let next = this.#keyed(runtime, status); next !== null; next = this.#keyed(runtime, status)) {
      all.push(next);
      status = runtime.calls.cache_older(handle(this), this.#keys.number(next.key), runtime.at, runtime.at + 8);
    }
    return all;
  }

  newest() {
    const runtime = runtimeOf(this, CACHE);
    return this.#keyed(runtime, runtime.calls.cache_newest(handle(this), runtime.at, runtime.at + 8));
  }

  oldest() {
    const runtime = runtimeOf(this, CACHE);
    return this.#keyed(runtime, runtime.calls.cache_oldest(handle(this), runtime.at, runtime.at + 8));
  }

  older(key) {
    const runtime = runtimeOf(this, CACHE);
    const number = this.#keys.number(key);
    return this.#keyed(runtime, runtime.calls.cache_older(handle(this), number, runtime.at, runtime.at + 8));
  }

  #keyed(runtime, status) {
    const place = this.#place(runtime, status, 2);
    const [words, at] = [runtime.words(), runtime.word];
    return place === null ? null : { key: this.#keys.key(words[at], words[at + 1]), place };
  }

  get length() {
    return found(this, CACHE, 'cache_len', first);
  }

  get pageCount() {
    return found(this, CACHE, 'cache_page_count', first);
  }

  get numbers() {
    return found(this, CACHE, 'cache_numbers', first);
  }

  pageSize(page) {
    const number = count(page, 'page');
    const runtime = runtimeOf(this, CACHE);
    require(runtime.calls.cache_page_size(handle(this), number, runtime.at));
    return reading.size(runtime.words(), runtime.word);
  }

  areas(page) {
    const number = count(page, 'page');
    const runtime = runtimeOf(this, CACHE);
    require(runtime.calls.cache_areas(handle(this), number, runtime.at));
    return reading.areas(runtime.words(), runtime.word);
  }

  unusableArea(page, width, height) {
    const [number, w, h] = [count(page, 'page'), length(width, 'width'), length(height, 'height')];
    const runtime = runtimeOf(this, CACHE);
    require(runtime.calls.cache_unusable_area(handle(this), number, w, h, runtime.at));
    return reading.wide(runtime.words(), runtime.word);
  }

  get options() {
    return found(this, CACHE, 'cache_options_of', optionsRead);
  }

  get statistics() {
    return found(this, CACHE, 'cache_statistics', statisticsRead);
  }

  toJSON() {
    return shownState(() => ({
      length: found(this, CACHE, 'cache_len', first), pageCount: found(this, CACHE, 'cache_page_count', first),
      statistics: found(this, CACHE, 'cache_statistics', statisticsRead), options: found(this, CACHE, 'cache_options_of', optionsRead),
    }));
  }
}
