/**
 * The atlas allocators of guillotiere: an atlas that frees, rearranges and grows, a simple one that only grants, boxes on several pages, a
 * cache of rectangles under keys in the pages of a texture array, and sheets of sprites that are known beforehand.
 *
 * Lengths and coordinates are in pixels, areas in unit squares; y grows downwards. A length is a whole number from -2147483648
 * to 2147483647. Whatever else is given, of whatever type, is answered by a {@link WollemigoError} with a `code`, and then
 * nothing changed.
 *
 * An object has memory outside of JavaScript's own. `dispose` gives it back to the module, and so does the end of a `using` block; that of a
 * forgotten object is given back some time after JavaScript's collector finds it, and never while a function runs: a loop that makes
 * objects and doesn't wait has to dispose of them. {@link memory} says how much there is.
 */

declare global {
  interface SymbolConstructor {
    readonly dispose: unique symbol;
  }
}

/**
 * Fetches and starts the WebAssembly module; nothing else works before that. It may be called any number of times: once the module
 * runs, later calls do nothing. After a trap it starts a new module; objects that were made before stay out of use. Where a smaller entry
 * of the package has started its own module, `load` of the whole starts another one, for all that is made from then on.
 *
 * @param source where the module is: `wollemigo.wasm` next to this script where nothing is given. Node reads it from the disk.
 * @throws {WollemigoError} `LOAD_FAILED`, with what was wrong as its `cause`.
 */
export function load(source?: Source | PromiseLike<Source>): Promise<void>;

/**
 * Starts the WebAssembly module at once, of bytes or of a module that is compiled already. A page may ask this only of so many bytes as
 * its browser compiles at once; in a worker there is no bound.
 *
 * @throws {WollemigoError} `LOAD_FAILED`, with what was wrong as its `cause`.
 */
export function loadSync(source: ArrayBuffer | ArrayBufferView | ModuleLike): void;

/** Where a module is: an address as text, a `URL`, a `Response`, bytes, or a `WebAssembly.Module`. */
export type Source = string | { readonly href: string } | AnswerLike | ArrayBuffer | ArrayBufferView | ModuleLike;

/** A `Response`; named by what is read of it, so that programs without the types of the DOM know it. */
export interface AnswerLike {
  readonly ok?: boolean;
  readonly status?: number;
  readonly url?: string;
  arrayBuffer(): Promise<ArrayBuffer>;
}

/** A `WebAssembly.Module`, where the types of the DOM or of Node know that; else any object without properties of its own. */
export type ModuleLike = object & (typeof globalThis extends { WebAssembly: { Module: { prototype: infer M } } } ? M : object);

/** Why a call did nothing. */
export type ErrorCode =
  /** A number isn't whole, is too small or too large, or is no number at all. */
  | 'BAD_NUMBER'
  /** A key is none of those that {@link Key} allows. */
  | 'BAD_KEY'
  /** An option has a name that is not known, or isn't of its type; or options or a list can't be read: then `cause` is what was thrown. */
  | 'BAD_OPTION'
  /** More arguments were given than the call takes. */
  | 'SURPLUS'
  /** `load` hasn't ended yet. */
  | 'NOT_LOADED'
  | 'LOAD_FAILED'
  /** The object was disposed of. */
  | 'DISPOSED'
  /** A call of a class was made on an object that isn't of that class. */
  | 'BAD_THIS'
  /** The WebAssembly module has trapped, in this call or an earlier one; it is used no more. */
  | 'TRAPPED'
  /** An empty size of an atlas, options that aren't valid, a growth that shrinks a side, a bad limit. */
  | 'BAD_CALL'
  /** An id isn't live, or is twice in a list of ids. */
  | 'NOT_LIVE'
  /** More slots would be used than the limit allows. */
  | 'SLOTS'
  /** Memory was refused. */
  | 'MEMORY'
  /** A side of the sheet, or the least that is allowed, is below 1. */
  | 'EMPTY_SHEET'
  /** The greatest side of a sheet is below the least. */
  | 'EMPTY_RANGE'
  /** A side of the alignment is below 1. */
  | 'EMPTY_ALIGNMENT'
  /** A sprite has a side below 1; `sprite` is its number. */
  | 'EMPTY_SPRITE'
  /** A side of a sprite, with the padding at both its ends, exceeds 2147483647 pixels; `sprite` is its number. */
  | 'GREAT_SPRITE'
  /** A key is held with another size. */
  | 'OTHER_SIZE'
  /** A cache holds 4294967295 keys, and can hold no more. */
  | 'NUMBERS'
  /** A side of a new page is below 1. */
  | 'EMPTY_PAGE'
  /** A side of the largest page is less than that of a new one. */
  | 'LARGEST_PAGE'
  /** No pages are allowed. */
  | 'NO_PAGES'
  /** The padding is below 0. */
  | 'BAD_PADDING'
  /** The options of the pages' atlases aren't valid. */
  | 'BAD_ATLAS'
  /** There is no such page. */
  | 'NO_PAGE'
  /** With the padding, rounded up to the alignment, a size exceeds the largest page of a cache. */
  | 'NEVER_FITS'
  /** With the padding and rounded up, not even 1 by 1 fits the largest page of a cache. */
  | 'NOTHING_FITS';

/** Thrown by every call that could not do what it was asked to. */
export class WollemigoError extends Error {
  constructor(code: ErrorCode, message: string, more?: { cause?: unknown; sprite?: number; index?: number });
  readonly name: 'WollemigoError';
  readonly code: ErrorCode;
  /** Of `EMPTY_SPRITE` and `GREAT_SPRITE`: the number of the sprite, counted from 0. */
  readonly sprite?: number;
  /** Of what `insertAll` throws for one of its keys: the index of that key. */
  readonly index?: number;
}

export interface Size {
  width: number;
  height: number;
}

/** A size as an option: an object with these two properties and no other, so neither a rectangle nor a sheet. */
export interface PlainSize extends Size {
  x?: never;
  y?: never;
  id?: never;
  places?: never;
}

/** What is told of an object that was disposed of, or whose module has trapped. */
export interface OutOfUse {
  state: 'DISPOSED' | 'TRAPPED';
}

/** `x` and `y` are those of its upper left corner. */
export interface Rectangle extends Size {
  x: number;
  y: number;
}

/** A live box. An id is a whole number below 4294967296; one that was freed may be issued again, for another box. */
export interface Allocation extends Rectangle {
  id: number;
}

/** A box that was placed anew: under its former id, and under the id that it has now. Its sides stay. */
export interface Change {
  before: Allocation;
  after: Allocation;
}

/** What a rearranging moved, and what found no room and is no longer live. */
export interface ChangeList {
  changes: Change[];
  failures: Allocation[];
}

/** What is left out has the value that is named here. */
export interface AtlasOptions {
  /** Sides of requests are rounded up to multiples of these, which are above 0. By default 1 and 1. */
  alignment?: PlainSize;
  /** A size is small if both its sides are below this. By default 32. */
  smallSizeThreshold?: number;
  /** A size is large if a side is at least this, which is at least the small threshold. By default 256. */
  largeSizeThreshold?: number;
}

/** How many slots are used, the most that were used at once since the last start, and how many may be used. */
export interface Slots {
  used: number;
  kept: number;
  limit: number;
}

/** The areas of all live and of all free boxes of an atlas or of a page. From 2^53 on they are rounded, as JavaScript's numbers are. */
export interface Areas {
  allocated: number;
  free: number;
}

/** A part of an atlas: a live box, a free one, or a container, which members fill. */
export type Member =
  | ({ kind: 'live' } & Allocation)
  | ({ kind: 'free' } & Rectangle)
  | Container;

/**
 * Its members fill it: where `axis` is `horizontal` they lie to the right of one another, each as high as the container; where
 * it is `vertical` below one another, each as wide. A container in it has the other axis.
 */
export interface Container extends Rectangle {
  kind: 'container';
  axis: 'horizontal' | 'vertical';
  members: Member[];
}

/**
 * Options for glyphs that come and go: an atlas with them stays fuller than one with the defaults, since a glyph takes the tightest free
 * box, whatever its class. `web/bench/thresholds.js` of the repository measures both.
 */
export const GLYPHS: Readonly<{ smallSizeThreshold: 0; largeSizeThreshold: 5000 }>;

/** How much memory the module has, and how many objects have some of it. */
export interface Memory {
  /** The bytes of the module's memory. It grows where it must, and is never given back before the page or the process ends. */
  bytes: number;
  /** How many objects of each class aren't disposed of, those that are forgotten and not collected yet among them. */
  atlases: number;
  simpleAtlases: number;
  pagedAtlases: number;
  caches: number;
}

/** Throws `NOT_LOADED`, `TRAPPED`. */
export function memory(): Memory;

/** The greatest limit on the slots of an atlas, and that of an atlas without a limit of its own: 16777216. */
export const MOST_SLOTS: 16777216;

/** An atlas hands out boxes and takes them back: what is free joins at once. A new one takes 0.2 kB of memory, one with a box 0.5, and 12 kB
 * come with its ninth slot. */
export class Atlas {
  /**
   * @param slotLimit how many slots may be used at once, from 1 to {@link MOST_SLOTS}. Each live and each free box takes one,
   * and so does each container of the tree of cuts.
   * @throws {WollemigoError} `BAD_CALL`, `MEMORY`
   */
  constructor(width: number, height: number, options?: AtlasOptions, slotLimit?: number);

  /** A box of this size, rounded up by the options, which overlaps no other live box; null where the size is empty or fits no
   * free box. Throws `SLOTS`, `MEMORY`. */
  allocate(width: number, height: number): Allocation | null;
  /** As `allocate`, without an object for each box: writes it into `box` and answers true; false where there is no room, and then `box` is
   * as it was. Throws `BAD_OPTION` where `box` can't be written to; then no box was taken. */
  allocateInto(width: number, height: number, box: Allocation): boolean;
  /** Frees the box of a live id. Throws `NOT_LIVE`. */
  deallocate(id: number): void;
  /** Frees the boxes of these ids, all or none. Throws `NOT_LIVE` if one isn't live or comes twice; `MEMORY`. */
  deallocateAll(ids: Iterable<number>): void;
  /** The rectangle of an id; null where it isn't live. */
  get(id: number): Rectangle | null;
  /** Whether a request of this size has room: then `allocate` grants it, slots and memory aside. */
  canFit(width: number, height: number): boolean;
  /** Takes memory for this many slots beyond those in use: a request takes at most 4, a growth 3. Throws `SLOTS`, `MEMORY`. */
  reserve(additional: number): void;

  /** Makes the atlas larger; every live id keeps its rectangle. Throws `BAD_CALL` if a side shrinks; `SLOTS`, `MEMORY`. */
  grow(width: number, height: number): void;
  /** Whether the atlas may be grown to this size: no side shrinks. */
  canGrowTo(width: number, height: number): boolean;
  /** `resizeAndRearrange` at the present size, at which boxes may be lost as well: `failures` names them. */
  rearrange(): ChangeList;
  /** Repacks what is live into an empty atlas of this size, the largest first; options and limit stay. All former ids are
   * void. **What finds no room when its turn comes is lost**, even where all had room before: it is live no more, and `failures` lists it.
   * To lose nothing, rearrange a `clone`, which takes the place of this atlas where `failures` is empty. Throws `BAD_CALL`, `SLOTS`,
   * `MEMORY`. */
  resizeAndRearrange(width: number, height: number): ChangeList;
  /** Starts again: no id is live. */
  clear(): void;
  /** Starts again at this size, and with these options; the limit stays. Throws `BAD_CALL`. */
  reset(width: number, height: number, options?: AtlasOptions): void;

  readonly size: Size;
  readonly options: Required<AtlasOptions>;
  readonly slots: Slots;
  /** In one pass over the slots. */
  readonly areas: Areas;
  /** How much of the free area lies in free boxes which have no room for a request of this size, rounded up by the options: all of it, if a
   * side is 0 or less. Asked with the size of a usual box it says how fragmented the atlas is: where that is much, it is time to rearrange
   * it. In one pass over the slots. */
  unusableArea(width: number, height: number): number;
  /** The free box of the largest area; of several the topmost one, and of these the leftmost. null where nothing is free. In one pass over
   * the slots. */
  largestFree(): Rectangle | null;
  /** Whether no id is live. */
  readonly isEmpty: boolean;
  /** What `JSON.stringify` and a console show: its size, slots, areas and options; or as `state` that it is out of use. */
  toJSON(): { size: Size; slots: Slots; areas: Areas; options: Required<AtlasOptions> } | OutOfUse;
  /** The live boxes, by rising slot, which is the low 24 bits of the id. Throws `MEMORY`. */
  allocated(): Allocation[];
  /** The free boxes, in an order that is left open. Throws `MEMORY`. */
  freeBoxes(): Rectangle[];
  /**
   * The tree of cuts: how the atlas is divided into its live and its free boxes, as a container that is the whole atlas. No two
   * members of a container that are next to each other are free. Containers may be nested as deeply as there are boxes,
   * so walk them with a loop and a list of what is left, not with a recursive function. Throws `MEMORY`.
   */
  cuts(): Container;

  /** A copy that shares nothing with this atlas. Throws `MEMORY`. */
  clone(): Atlas;
  /** Gives the memory back. Every later call throws `DISPOSED`, but for this one, which does nothing then. */
  dispose(): void;
  [Symbol.dispose](): void;
}

/** A simple atlas hands out boxes and takes none back. It takes about as much memory as an atlas. */
export class SimpleAtlas {
  /** Throws `BAD_CALL`, `MEMORY`. */
  constructor(width: number, height: number, options?: AtlasOptions);
  /** One with an atlas's size, options and free boxes, so that it never grants what is live there. Throws `MEMORY`. */
  static from(atlas: Atlas): SimpleAtlas;

  /** A box of this size, rounded up by the options; null where the size is empty or fits no free box. Throws `MEMORY`. */
  allocate(width: number, height: number): Rectangle | null;
  /** Throws `BAD_CALL` if a side shrinks; `MEMORY`. */
  grow(width: number, height: number): void;
  canGrowTo(width: number, height: number): boolean;
  /** Starts again, with one free box. */
  clear(): void;
  /** Starts again at this size, and with these options. Throws `BAD_CALL`. */
  reset(width: number, height: number, options?: AtlasOptions): void;
  /** Takes over an atlas's size, options and free boxes. Throws `MEMORY`. */
  initFrom(atlas: Atlas): void;

  readonly size: Size;
  readonly options: Required<AtlasOptions>;
  /** Counts of entries, of which each free box takes one: how many are used, and how many there are. The limit is 4261412864. */
  readonly slots: Slots;
  /** Whether one free box has the size of the whole. */
  readonly isEmpty: boolean;
  toJSON(): { size: Size; slots: Slots; options: Required<AtlasOptions> } | OutOfUse;

  dispose(): void;
  [Symbol.dispose](): void;
}

/** A live box on a page, which is counted from 0. Its id is one of its page: another page may have the same. */
export interface PageAllocation extends Allocation {
  page: number;
}

/**
 * Boxes on several pages, such as the layers of a texture array, without keys: a page comes where no other has room, and the last ones go by
 * `shrink`, where nothing is on them. Where things have keys, and go by themselves, take a {@link TextureCache}.
 */
export class PagedAtlas {
  /**
   * No page yet, and at most `pages`, which are made of this size and with these options.
   * @throws {WollemigoError} `BAD_CALL`, `MEMORY`
   */
  constructor(width: number, height: number, pages: number, options?: AtlasOptions);

  /** A box of this size, rounded up by the options, on the first page that has room for it, where none has on a new one, which comes last:
   * make a layer for a page that is new. null where there are as many pages as there may be, or the size has no room on an empty page.
   * One search on each page up to that one. Throws `SLOTS`, `MEMORY`. */
  allocate(width: number, height: number): PageAllocation | null;
  /** Frees the box of an id that is live on a page, which stays, also where nothing is left on it. Throws `NOT_LIVE`, also where there is no
   * such page. */
  deallocate(page: number, id: number): void;
  /** The rectangle of an id that is live on a page; null of every other id and page. */
  get(page: number, id: number): Rectangle | null;
  /** Makes a page larger; every live id keeps its rectangle, and later pages are made as before. Throws `NO_PAGE`; `BAD_CALL` if a side
   * shrinks; `SLOTS`, `MEMORY`. */
  grow(page: number, width: number, height: number): void;
  /** Drops the pages behind the last one with a live id: how many are left, so drop the layers from this number on. */
  shrink(): number;
  /** Frees all boxes. The pages stay. */
  clear(): void;

  readonly pageCount: number;
  /** Throws `NO_PAGE`. */
  pageSize(page: number): Size;
  /** The areas of all live and of all free boxes of a page, in one pass over its slots. Throws `NO_PAGE`. */
  areas(page: number): Areas;
  /** The live boxes of a page, by rising slot, which is the low 24 bits of the id. Throws `NO_PAGE`, `MEMORY`. */
  allocated(page: number): Allocation[];
  /** What `JSON.stringify` and a console show: how many pages there are; or as `state` that it is out of use. */
  toJSON(): { pageCount: number } | OutOfUse;

  dispose(): void;
  [Symbol.dispose](): void;
}

/**
 * A string of any length; a whole number from 0 to 9007199254740991; or a bigint from 0 to 9223372036854775807, which is the same
 * key as the number of that value. The library's own keys have 64 bits. A number is its own key. A string, while it is held, has a
 * key from the upper half of those, which no other has: a table in JavaScript records it until the string isn't held any more. So no two
 * keys of this type are ever taken for one another.
 */
export type Key = string | number | bigint;

/** What is left out has the value that is named here. */
export interface CacheOptions {
  /** The size of a new page, which isn't empty. */
  page: PlainSize;
  /** Pages grow up to this; neither side is less than that of `page`. By default `page`, so that none grows: the layers of a texture
   * array have one size. */
  largestPage?: PlainSize;
  /** The most pages, at least 1. By default 1. */
  pages?: number;
  /** How wide the border is on all four sides of an entry, at least 0. By default 0. */
  padding?: number;
  /** The options of each page's atlas. */
  atlas?: AtlasOptions;
}

/**
 * Where a key lies: its number, which stays until the key is gone, and which no other key has meanwhile; its page, counted from 0;
 * `rectangle`, with the padding, which no other entry overlaps; and `inner` in it, which has the sides that were asked for. Numbers of
 * keys that are gone are given out again before new ones, which of them isn't said: so what a caller keeps of each key fits an array of
 * `numbers` elements.
 *
 * The border of a new entry shows what lay there before. A linear filter reads it, so write all of `rectangle`: the pixels in
 * `inner`, and cleared ones around it. With a padding of 1 draw at most half a pixel beyond `inner`.
 */
export interface Place {
  number: number;
  page: number;
  rectangle: Rectangle;
  inner: Rectangle;
}

/** A key of a cache, and its place. */
export interface KeyedPlace {
  key: Key;
  place: Place;
}

/** `isNew` where the key was not held: then its pixels are to be written. */
export interface Entry extends Place {
  isNew: boolean;
}

/** What a cache did. */
export type CacheChange =
  /** There is a new page, the last one: make a texture of this size for it. */
  | { kind: 'pageAdded'; page: number; width: number; height: number }
  /** A page has this size now, and nothing on it moved: make its texture larger, and copy what it had. It may come while quads of this page
   * are batched: those keep their pixels, but coordinates that were divided by the former size are wrong. */
  | { kind: 'pageGrown'; page: number; width: number; height: number }
  /** A key is gone, by an insertion, a trim or a repacking; its place was `from`. */
  | { kind: 'evicted'; key: Key; from: Place }
  /** A key moved, by a repacking: copy `from.rectangle` to `to.rectangle`, out of a copy of the page as it was before. */
  | { kind: 'moved'; key: Key; from: Place; to: Place }
  /** The last page, which had nothing on it, is gone: drop its texture. */
  | { kind: 'pageRemoved'; page: number };

/**
 * How often `get`, `touch` or `getInto` found a key, or `insert` or `insertAll` one that was held (`hits`); how often the first three didn't
 * (`misses`); and how many keys were evicted. Where what `get` doesn't find is inserted, the hit rate is `hits / (hits + misses)`; where
 * there are insertions alone, no miss is counted, and it is `hits` by calls. `forced` counts, of the keys that insertions evicted, those
 * that fragmentation cost: before that insertion some page had as much free area as was asked for, with the padding, in parts that had no
 * room. Where it grows, `repack` or `compact` helps; where `evictions` grows without it, the pages are too small for what is drawn.
 */
export interface Statistics {
  hits: number;
  misses: number;
  evictions: number;
  forced: number;
}

/** A cache of rectangles under keys, in the pages of a texture array. */
export class TextureCache {
  /** Throws `EMPTY_PAGE`, `LARGEST_PAGE`, `NO_PAGES`, `BAD_PADDING`, `BAD_ATLAS`, `NOTHING_FITS`, `MEMORY`. */
  constructor(options: CacheOptions);

  /** A copy that shares nothing with this one, and goes on by itself: it has the same pages, keys, places, counts and changes to hand over,
   * and is in the same frame. Its calls are answered as this one's, except that it has nothing in reserve. Throws `MEMORY`. */
  clone(): TextureCache;
  /** Begins a new frame: what isn't used in it may be evicted. Until the first call no key is evicted for another: all that is held
   * counts as used in the current frame. */
  beginFrame(): void;
  /** The place of a key, which is used in this frame from now on; null where it isn't held. Counts a hit or a miss. */
  get(key: Key): Place | null;
  /** Whether a key is held, which is used in this frame from now on, as by `get`. It makes no object: for a caller who keeps places by
   * themselves. Counts a hit or a miss. */
  touch(key: Key): boolean;
  /** As `get`, without objects for each hit: writes the place into `place`, such as one that `get` gave, and answers true; false where the
   * key isn't held, and then `place` is as it was. Throws `BAD_OPTION` where `place` can't be written to; the key is used all the same. */
  getInto(key: Key, place: Place): boolean;
  /** The place of a key; null where it isn't held. This doesn't count as a use, a hit or a miss. */
  peek(key: Key): Place | null;
  /**
   * A place for a key, which is used in this frame. A key that is held keeps its place, and counts as a hit. For a new key a page may grow,
   * one may be added, and keys that this frame didn't use may be evicted; what was done is handed over by `changes`: follow it after each
   * insertion, before the place or its number is noted, even if the call throws. Null where this frame uses all that the pages
   * have room for: draw what is batched, call `beginFrame`, or `endBatch` where the frame before was full too, and insert again.
   *
   * A key with an empty size (a side below 1) takes no room and is never evicted to make room for another. Both rectangles of
   * its place are 0, and so is its page, but it is on no page: there is nothing to write or to draw, no `repack` reports it, and
   * `shrink` leaves no page for it.
   *
   * Quads that are drawn page by page lie in another order than they were batched in, which shows where they overlap.
   *
   * Throws `OTHER_SIZE`, `NEVER_FITS`, and then nothing changed; `NUMBERS`, `SLOTS`, `MEMORY`. After `SLOTS` no key is evicted for the
   * new one, in no later frame either, and another page with room isn't tried: `remove`, `trim` and `clear` help.
   */
  insert(key: Key, width: number, height: number): Entry | null;
  /**
   * As `insert` of each key in turn, without objects for each. `sizes` has a width and a height for each key. Of each key that is placed
   * 11 numbers are written into `out`, from 11 times its index on: 1 where it is new, else 0; its number and its page, as unsigned numbers
   * of 32 bits; then `x`, `y`, `width` and `height` of `rectangle`, and those of `inner`. Answers how many were placed: fewer than all where
   * this frame uses all that the pages have room for, at the first for which there is none. What is written may not lie over `keys` or
   * `sizes`: that is `BAD_OPTION`.
   *
   * Throws as `insert` at the first key that is refused, whose index is the error's `index`; those before it are placed, and written.
   */
  insertAll(keys: Iterable<Key>, sizes: Iterable<number>, out: Int32Array): number;
  /** Removes a key. Gives the place that it had; null where it wasn't held. No change reports this. */
  remove(key: Key): Place | null;
  /** Whether a key is held; this doesn't count as a use, a hit or a miss. */
  has(key: Key): boolean;
  /** What was done and not handed over yet, each change once, in the order in which they were made:
   * `for (const change of cache.changes())`. One that isn't reached waits for the next time. */
  changes(): IterableIterator<CacheChange>;
  /** Removes all keys. The pages stay. No change reports this. */
  clear(): void;
  /** Evicts the keys that weren't used for at least this many frames, each reported by a change, the least recently used first. A frame is
   * a call of `beginFrame`: with 1 all goes that wasn't used since the last one, with 0 all. Throws `MEMORY`, and then nothing changed. */
  trim(frames: number | bigint): void;
  /** Ends a batch, which was drawn, where the frame has no room for what comes next in it: this many of the most recently used keys go, all
   * if there are no more, each reported by a change, the most recently used first. The frame goes on: an insertion evicts nothing of
   * what is left that it used. Take few keys, a part in 512 say, and twice as many where there is no room still. Throws `MEMORY`, and then
   * nothing changed. */
  endBatch(keys: number): void;
  /** Removes the pages after the last one with a key, each reported as removed, the last one first; after `clear` all. A page that goes
   * takes its slots in reserve along, and one that is added later has none; keys in reserve stay. Throws `MEMORY`, and then nothing
   * changed. */
  shrink(): void;
  /** Moves keys of the last page to the pages before it, so that `shrink` can give it back, as many as some pixels are enough for: after a
   * burst a call in each frame empties page after page, where a `repack` would take too long for one. The most recently used key comes
   * first; each that lies on the last page, on no more pixels, padding included, than are left, moves to the first page before it that has
   * room for it, reported by a change. No key goes, none counts as used, and no page grows or goes. Answers how many pixels moved. All
   * moves lead from the last page to other ones, on which nothing comes free: so the pixels can be copied one after another. Throws
   * `SLOTS`, `MEMORY`, and then what moved before stays, and is reported. */
  compact(pixels: number | bigint): number;
  /** Repacks the keys of a page, the largest first, so that what is free comes together. Each key is reported by a change: as moved, also
   * where it stays; or as **evicted**, where it found no room when its turn came, which may be though all had room before. Follow the
   * changes that wait, copy the page, then call this, and copy all pixels from that copy. The page may have no slots in reserve then; keys
   * in reserve stay. Throws `NO_PAGE`, `SLOTS`, `MEMORY`. */
  repack(page: number): void;
  /** Repacks the keys of a page as `repack` does, but only where each of them finds room, so that no key is evicted. Returns whether it
   * did; if not, nothing changed. Throws as `repack`. */
  repackKeepingAll(page: number): boolean;

  /**
   * Makes sure that there is memory for this many more keys. A key that is added takes one of them; one that goes gives none back, but
   * `clear` does. Once `reserve(n)`, `reserveSlots(4 * n)` and `reserveChanges(cache.length + n)` were called, and every page is there and
   * at its largest, none of the next n insertions asks the module for memory or throws `SLOTS`, whatever they evict; `get`, `remove`,
   * `trim`, `clear` and `beginFrame` between them take nothing of that. Throws `MEMORY`, and then nothing changed.
   */
  reserve(additional: number): void;
  /** Makes sure that this many slots are in reserve on each page: an insertion that neither adds a page nor grows one takes at most 4 of
   * each. A page that is added later has none in reserve, one that grows takes up to 3 of its own, and one that is repacked may have none;
   * `remove`, `trim` and `clear` take none. Throws `SLOTS`, `MEMORY`: then the pages before the one that was refused have theirs. */
  reserveSlots(additional: number): void;
  /** Makes sure that the module has memory for this many changes of one call: an insertion has one for each key that it evicts, a `trim`
   * one for each key that goes. Throws `MEMORY`, and then nothing changed. */
  reserveChanges(additional: number): void;

  /** The keys that are held now, with their places, the most recently used first: `for (const { key, place } of cache)`. None counts as a
   * use, and the cache may be called meanwhile. */
  [Symbol.iterator](): IterableIterator<KeyedPlace>;

  /** The most recently used key; null where none is held. It doesn't count as a use. */
  newest(): KeyedPlace | null;
  /** The least recently used key; null where none is held. It doesn't count as a use. */
  oldest(): KeyedPlace | null;
  /** The next less recently used key; null where this one is the least recently used, or isn't held. This doesn't count as a
   * use. From `newest` on, this gives each key once. */
  older(key: Key): KeyedPlace | null;
  /** How many keys are held. */
  readonly length: number;
  readonly pageCount: number;
  /** How many numbers keys have had since the cache was made or cleared: the number of each place is below this, and this is never more
   * than there were keys at once. */
  readonly numbers: number;
  /** Throws `NO_PAGE`. */
  pageSize(page: number): Size;
  /** The areas of a page that its keys take, with their padding and what the alignment added, and that are free. Throws `NO_PAGE`. */
  areas(page: number): Areas;
  /**
   * How much of a page's free area lies in free boxes which have no room for a key of this size, with its padding and rounded
   * up; a side below 0 counts as 0. Asked with the size of a usual key it says how fragmented the page is: where that is much, it is
   * time to repack it. Throws `NO_PAGE`, `MEMORY`.
   */
  unusableArea(page: number, width: number, height: number): number;
  /** Those with which it was made, with the defaults of what was left out. */
  readonly options: Required<CacheOptions> & { atlas: Required<AtlasOptions> };
  /** Counted since the cache was made. */
  readonly statistics: Statistics;
  toJSON():
    | { length: number; pageCount: number; statistics: Statistics; options: TextureCache['options'] } | OutOfUse;

  dispose(): void;
  [Symbol.dispose](): void;
}

/** Which sheets are allowed. */
export type Sheets =
  /** Of this size alone. */
  | { kind: 'size'; width: number; height: number }
  /** Squares with a side from `least` (1 where it is left out) to `greatest`. */
  | { kind: 'squares'; least?: number; greatest: number }
  /** Each side a power of two, at most `greatest`; the sides may differ. */
  | { kind: 'powers'; greatest: number }
  /** This width, and a height from 1 to `greatest`. */
  | { kind: 'heights'; width: number; greatest: number };

/** What is left out has the value that is named here. */
export interface SheetOptions {
  /** Which sheets are allowed. By default squares with a side from 1 to 4096. */
  sheets?: Sheets;
  /** Pixels between two sprites, and between a sprite and the border: at most 65535. By default 0. */
  padding?: number;
  /** Each place, with the padding at its left and above, begins on multiples of these sides and takes multiples of them, also at
   * the right and lower border; the padding at its right and below comes after that. By default 1 and 1. */
  alignment?: PlainSize;
  /** Whether a sprite may lie turned by 90 degrees. By default false. */
  turn?: boolean;
  /** How many more orders of the sprites are tried: 20000 for a second or so. By default 0. */
  effort?: number;
  /** Seeds these orders: a whole number below 2^53, or a bigint below 2^64. The same input gives the same sheet everywhere. Default: 0. */
  seed?: number | bigint;
}

/** Where a sprite lies, without the padding. One that is turned lies in a place that is as wide as the sprite is high. */
export interface Placed extends Rectangle {
  turned: boolean;
}

/** A sheet, and where each sprite lies, in the order of the sprites. */
export interface Sheet extends Size {
  places: Placed[];
}

/**
 * Packs all sprites into the smallest sheet of those allowed that is found; null if not even the greatest took all of them.
 *
 * Throws `BAD_CALL` if the padding is above 65535; `EMPTY_SHEET`, `EMPTY_RANGE`, `EMPTY_ALIGNMENT`, `EMPTY_SPRITE`,
 * `GREAT_SPRITE`, `MEMORY`.
 */
export function pack(sprites: Iterable<Size>, options?: SheetOptions): Sheet | null;

/**
 * The sheet of `pack`, or one with fewer pixels, laid out without guillotine cuts and with no sprite turned: each, the highest first,
 * lies as high up as it can, and there as far left. Never one with more pixels; where `pack` finds none it may find one. Takes longer.
 * Throws as `pack`.
 */
export function packDense(sprites: Iterable<Size>, options?: SheetOptions): Sheet | null;

/** Where a sprite lies on one of several sheets: the number of the sheet, counted from 0, and its place there. */
export interface OnPage extends Placed {
  page: number;
}

/** Sheets, and where each sprite lies, in the order of the sprites. */
export interface Pages {
  sizes: Size[];
  places: OnPage[];
}

/**
 * Packs all sprites into as few sheets as are found: each but the last is the greatest of those allowed, and the last as small as `pack`
 * finds it. No sheet is empty. null if a sprite is too large for an empty sheet. Throws as `pack`.
 */
export function packPages(sprites: Iterable<Size>, options?: SheetOptions): Pages | null;

/**
 * Packs as `packPages`, with all sprites of a group on one sheet. `groups` has the number of each sprite's group, a whole number from 0 to
 * 4294967294, in the order of the sprites; null, or no number where the list ends before, says that a sprite is in none, and what comes
 * after the last sprite is ignored. A group that no way packs by itself into the greatest sheet allowed is given up before the first
 * sheet is begun: each of its sprites counts as one in none. The other groups come in the order of their first sprites. The first opens
 * a sheet; then each other group that the greatest sheet takes as well goes onto it, and then sprites in none, in their order: all, or so
 * many that it doesn't take the next one as well. Such a sheet is as small as `pack` finds it; the sprites that are left then are packed
 * as by `packPages`. null if a sprite is too large for an empty sheet. Throws as `pack`.
 */
export function packGroups(sprites: Iterable<Size>, groups: Iterable<number | null>, options?: SheetOptions): Pages | null;

/** A sheet, a place or null for each sprite, in the order of the sprites, and how many have none. */
export interface Filled extends Size {
  places: (Placed | null)[];
  left: number;
}

/** Places sprites in the greatest sheet that is allowed, as many pixels of them as it finds room for. Throws as `pack`. */
export function fill(sprites: Iterable<Size>, options?: SheetOptions): Filled;
