import { DONE, NO_ROOM, NOT_LIVE, STATUSES, WollemigoError, atMost, close, failure, require } from './errors.js';
import { MOST_SLOTS, allocationAt, changeAt, rectangleAt } from './interface.js';
import * as reading from './reading.js';
import { ATLAS, Owner, found, handle, isOf, runtimeOf } from './runtime.js';
import { atlasOptions, count, length, list, shownState, target, unwritable, whyNoAtlas, whyNoGrowth } from './values.js';

export { MOST_SLOTS };
export const GLYPHS = Object.freeze({ smallSizeThreshold: 0, largeSizeThreshold: 5000 });

const COPY = Symbol('copy');

/** What a call that places boxes anew tells. */
function rearranged(atlas, call, why) {
  const runtime = runtimeOf(atlas, ATLAS);
  const many = atlasSlots(atlas).used;
  const changes = runtime.room(4 * (changeAt.words + allocationAt.words) * many);
  const failures = changes + 4 * changeAt.words * many;
  require(call(runtime.calls, changes, many, failures, many, runtime.at), why);
  const words = runtime.words();
  const [moved, lost] = [words[runtime.word], words[runtime.word + 1]];
  return {
    changes: reading.list(words, changes >>> 2, moved, changeAt.words, reading.change),
    failures: reading.list(words, failures >>> 2, lost, allocationAt.words, reading.allocation),
  };
}

/** What a call lists, at most as many as there are used slots. */
function listed(atlas, call, step, reader) {
  const runtime = runtimeOf(atlas, ATLAS);
  const many = atlasSlots(atlas).used;
  const at = runtime.room(4 * step * many);
  require(runtime.calls[call](handle(atlas), at, many, runtime.at));
  const words = runtime.words();
  return reading.list(words, at >>> 2, words[runtime.word], step, reader);
}

/** Whether a request is granted; the box is then at `runtime.at`. */
function isGranted(atlas, runtime, width, height) {
  let status;
  try {
    status = runtime.allocate(handle(atlas), width, height, runtime.at);
  } catch (error) {
    throw runtime.trap(error);
  }
  if (status === DONE) return true;
  if (status === NO_ROOM) return false;
  throw failure(STATUSES[status]);
}

/** Not by the property, which a caller may have laid over. */
function atlasSize(atlas) {
  return found(atlas, ATLAS, 'atlas_size', reading.size);
}

function atlasSlots(atlas) {
  return found(atlas, ATLAS, 'atlas_slots', reading.slots);
}

export class Atlas extends Owner {
  /** The ids of boxes that are being written into an object of the caller's, whose setters may free them; null of one that was. */
  #written = [];

  static {
    close(this, 'allocate', 'allocateInto', 'deallocate', 'get');
  }

  constructor(width, height, options, slotLimit = MOST_SLOTS) {
    atMost(4, arguments.length);
    if (width === COPY) {
      super(ATLAS, height, undefined, options);
      return;
    }
    const [w, h] = [length(width, 'width'), length(height, 'height')];
    const [words, limit] = [atlasOptions(options, 'options'), count(slotLimit, 'slotLimit')];
    super(ATLAS, (runtime, cell) => {
      runtime.write(runtime.at, words);
      return runtime.calls.atlas_with_slot_limit(w, h, runtime.at, limit, cell);
    }, () => whyNoAtlas(w, h, words) ?? `slotLimit is ${limit}, and must be from 1 to ${MOST_SLOTS}`);
  }

  clone() {
    const runtime = runtimeOf(this, ATLAS);
    return new Atlas(COPY, (_, cell) => runtime.calls.atlas_clone(handle(this), cell), runtime);
  }

  allocate(width, height) {
    atMost(2, arguments.length);
    const w = length(width, 'width');
    const h = length(height, 'height');
    const runtime = runtimeOf(this, ATLAS);
    return isGranted(this, runtime, w, h) ? reading.allocation(runtime.words(), runtime.word) : null;
  }

  allocateInto(width, height, box) {
    atMost(3, arguments.length);
    const w = length(width, 'width');
    const h = length(height, 'height');
    target(box, 'box');
    const runtime = runtimeOf(this, ATLAS);
    if (!isGranted(this, runtime, w, h)) return false;
    const at = this.#written.push(runtime.words()[runtime.word] >>> 0) - 1;
    try {
      reading.allocationInto(runtime.words(), runtime.word, box);
    } catch (cause) {
      // Nobody knows the box, so it is given back, unless the caller's setter made an end of it.
      const id = this.#written[at];
      if (handle(this) !== 0 && id !== null) runtime.calls.atlas_deallocate(handle(this), id);
      throw unwritable('box', cause);
    } finally {
      this.#written.length = at;
    }
    return true;
  }

  /** These ids, or all, aren't live any more; they may come again for other boxes. */
  #end(isOver) {
    this.#written = this.#written.map((id) => (isOver(id) ? null : id));
  }

  deallocate(id) {
    atMost(1, arguments.length);
    const number = count(id, 'id');
    const runtime = runtimeOf(this, ATLAS);
    let status;
    try {
      status = runtime.deallocate(handle(this), number);
    } catch (error) {
      throw runtime.trap(error);
    }
    require(status);
    if (this.#written.length > 0) this.#end((each) => each === number);
  }

  deallocateAll(ids) {
    const numbers = list(ids, 'ids', count);
    const runtime = runtimeOf(this, ATLAS);
    const at = runtime.room(4 * numbers.length);
    runtime.write(at, numbers);
    require(runtime.calls.atlas_deallocate_all(handle(this), at, numbers.length));
    this.#end((each) => numbers.includes(each));
  }

  get(id) {
    atMost(1, arguments.length);
    const number = count(id, 'id');
    const runtime = runtimeOf(this, ATLAS);
    const status = runtime.calls.atlas_get(handle(this), number, runtime.at);
    if (status === NOT_LIVE) return null;
    require(status);
    return reading.rectangle(runtime.words(), runtime.word);
  }

  canFit(width, height) {
    const [w, h] = [length(width, 'width'), length(height, 'height')];
    return runtimeOf(this, ATLAS).calls.atlas_can_fit(handle(this), w, h) !== 0;
  }

  reserve(additional) {
    const number = count(additional, 'additional');
    require(runtimeOf(this, ATLAS).calls.atlas_reserve(handle(this), number));
  }

  grow(width, height) {
    const [w, h] = [length(width, 'width'), length(height, 'height')];
    require(runtimeOf(this, ATLAS).calls.atlas_grow(handle(this), w, h), () => whyNoGrowth(w, h, atlasSize(this)));
  }

  canGrowTo(width, height) {
    const [w, h] = [length(width, 'width'), length(height, 'height')];
    return runtimeOf(this, ATLAS).calls.atlas_can_grow_to(handle(this), w, h) !== 0;
  }

  rearrange() {
    const told = rearranged(this, (calls, ...all) => calls.atlas_rearrange(handle(this), ...all));
    this.#end(() => true);
    return told;
  }

  resizeAndRearrange(width, height) {
    const [w, h] = [length(width, 'width'), length(height, 'height')];
    const told = rearranged(this, (calls, ...all) => calls.atlas_resize_and_rearrange(handle(this), w, h, ...all), () => whyNoAtlas(w, h));
    this.#end(() => true);
    return told;
  }

  clear() {
    require(runtimeOf(this, ATLAS).calls.atlas_clear(handle(this)));
    this.#end(() => true);
  }

  reset(width, height, options) {
    const [w, h] = [length(width, 'width'), length(height, 'height')];
    const words = atlasOptions(options, 'options');
    const runtime = runtimeOf(this, ATLAS);
    runtime.write(runtime.at, words);
    require(runtime.calls.atlas_reset(handle(this), w, h, runtime.at), () => whyNoAtlas(w, h, words));
    this.#end(() => true);
  }

  get size() {
    return atlasSize(this);
  }

  get options() {
    return found(this, ATLAS, 'atlas_options', reading.options);
  }

  get slots() {
    return found(this, ATLAS, 'atlas_slots', reading.slots);
  }

  get areas() {
    return found(this, ATLAS, 'atlas_areas', reading.areas);
  }

  unusableArea(width, height) {
    const [w, h] = [length(width, 'width'), length(height, 'height')];
    const runtime = runtimeOf(this, ATLAS);
    require(runtime.calls.atlas_unusable_area(handle(this), w, h, runtime.at));
    return reading.wide(runtime.words(), runtime.word);
  }

  largestFree() {
    const runtime = runtimeOf(this, ATLAS);
    const status = runtime.calls.atlas_largest_free(handle(this), runtime.at);
    if (status === NO_ROOM) return null;
    require(status);
    return reading.rectangle(runtime.words(), runtime.word);
  }

  get isEmpty() {
    return runtimeOf(this, ATLAS).calls.atlas_is_empty(handle(this)) !== 0;
  }

  toJSON() {
    return shownState(() => ({
      size: atlasSize(this), slots: atlasSlots(this), areas: found(this, ATLAS, 'atlas_areas', reading.areas),
      options: found(this, ATLAS, 'atlas_options', reading.options),
    }));
  }

  allocated() {
    return listed(this, 'atlas_live', allocationAt.words, reading.allocation);
  }

  freeBoxes() {
    return listed(this, 'atlas_free_boxes', rectangleAt.words, reading.rectangle);
  }

  cuts() {
    const { width, height } = atlasSize(this);
    const many = atlasSlots(this).used;
    const runtime = runtimeOf(this, ATLAS);
    const at = runtime.room(44 * many);
    require(runtime.calls.atlas_members(handle(this), at, many, runtime.at));
    const whole = { kind: 'container', x: 0, y: 0, width, height, axis: 'vertical', members: [] };
    return reading.tree(runtime.words(), at >>> 2, many, whole);
  }
}

/** An atlas that isn't out of use, and none of another kind. */
export function requireAtlas(value, runtime) {
  if (!isOf(value, ATLAS)) throw new WollemigoError('BAD_OPTION', 'atlas is not an Atlas');
  if (runtimeOf(value, ATLAS) !== runtime) throw new WollemigoError('BAD_OPTION', 'atlas is in another module');
  return handle(value);
}
