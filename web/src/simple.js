import { requireAtlas } from './atlas.js';
import { DONE, NO_ROOM, STATUSES, atMost, close, failure, require } from './errors.js';
import * as reading from './reading.js';
import { Owner, SIMPLE, found, handle, runtimeOf } from './runtime.js';
import { atlasOptions, length, shownState, whyNoAtlas, whyNoGrowth } from './values.js';

function simpleSize(simple) {
  return found(simple, SIMPLE, 'simple_size', reading.size);
}

export class SimpleAtlas extends Owner {
  static {
    close(this);
  }

  constructor(width, height, options) {
    atMost(3, arguments.length);
    const [w, h] = [length(width, 'width'), length(height, 'height')];
    const words = atlasOptions(options, 'options');
    super(SIMPLE, (runtime, cell) => {
      runtime.write(runtime.at, words);
      return runtime.calls.simple_with_options(w, h, runtime.at, cell);
    }, () => whyNoAtlas(w, h, words));
  }

  static from(atlas) {
    const made = new SimpleAtlas(1, 1);
    try {
      made.initFrom(atlas);
    } catch (error) {
      made.dispose();
      throw error;
    }
    return made;
  }

  allocate(width, height) {
    const [w, h] = [length(width, 'width'), length(height, 'height')];
    const runtime = runtimeOf(this, SIMPLE);
    const status = runtime.calls.simple_allocate(handle(this), w, h, runtime.at);
    if (status === DONE) return reading.rectangle(runtime.words(), runtime.word);
    if (status === NO_ROOM) return null;
    throw failure(STATUSES[status]);
  }

  grow(width, height) {
    const [w, h] = [length(width, 'width'), length(height, 'height')];
    require(runtimeOf(this, SIMPLE).calls.simple_grow(handle(this), w, h), () => whyNoGrowth(w, h, simpleSize(this)));
  }

  canGrowTo(width, height) {
    const [w, h] = [length(width, 'width'), length(height, 'height')];
    return runtimeOf(this, SIMPLE).calls.simple_can_grow_to(handle(this), w, h) !== 0;
  }

  clear() {
    require(runtimeOf(this, SIMPLE).calls.simple_clear(handle(this)));
  }

  reset(width, height, options) {
    const [w, h] = [length(width, 'width'), length(height, 'height')];
    const words = atlasOptions(options, 'options');
    const runtime = runtimeOf(this, SIMPLE);
    runtime.write(runtime.at, words);
    require(runtime.calls.simple_reset(handle(this), w, h, runtime.at), () => whyNoAtlas(w, h, words));
  }

  initFrom(atlas) {
    const runtime = runtimeOf(this, SIMPLE);
    require(runtime.calls.simple_init_from_allocator(handle(this), requireAtlas(atlas, runtime)));
  }

  get size() {
    return simpleSize(this);
  }

  toJSON() {
    return shownState(() => ({
      size: simpleSize(this), slots: found(this, SIMPLE, 'simple_slots', reading.slots),
      options: found(this, SIMPLE, 'simple_options', reading.options),
    }));
  }

  get options() {
    return found(this, SIMPLE, 'simple_options', reading.options);
  }

  get slots() {
    return found(this, SIMPLE, 'simple_slots', reading.slots);
  }

  get isEmpty() {
    return runtimeOf(this, SIMPLE).calls.simple_is_empty(handle(this)) !== 0;
  }
}
