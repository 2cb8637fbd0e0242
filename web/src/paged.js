import { DONE, NO_ROOM, NOT_LIVE, STATUSES, atMost, close, failure, require } from './errors.js';
import { allocationAt } from './interface.js';
import * as reading from './reading.js';
import { Owner, PAGED, found, handle, runtimeOf } from './runtime.js';
import { atlasOptions, count, length, shownState, whyNoAtlas, whyNoGrowth } from './values.js';

const first = (words, at) => words[at] >>> 0;

/** Not by the method, which a caller may have laid over. */
function pageSize(paged, page) {
  const runtime = runtimeOf(paged, PAGED);
  require(runtime.calls.paged_page_size(handle(paged), page, runtime.at));
  return reading.size(runtime.words(), runtime.word);
}

export class PagedAtlas extends Owner {
  static {
    close(this);
  }

  constructor(width, height, pages, options) {
    atMost(4, arguments.length);
    const [w, h, most] = [length(width, 'width'), length(height, 'height'), count(pages, 'pages')];
    const words = atlasOptions(options, 'options');
    super(PAGED, (runtime, cell) => {
      runtime.write(runtime.at, words);
      return runtime.calls.paged_with_options(w, h, runtime.at, most, cell);
    }, () => whyNoAtlas(w, h, words));
  }

  allocate(width, height) {
    const [w, h] = [length(width, 'width'), length(height, 'height')];
    const runtime = runtimeOf(this, PAGED);
    const status = runtime.calls.paged_allocate(handle(this), w, h, runtime.at);
    if (status === DONE) return { page: first(runtime.words(), runtime.word), ...reading.allocation(runtime.words(), runtime.word + 1) };
    if (status === NO_ROOM) return null;
    throw failure(STATUSES[status]);
  }

  deallocate(page, id) {
    const [number, name] = [count(page, 'page'), count(id, 'id')];
    require(runtimeOf(this, PAGED).calls.paged_deallocate(handle(this), number, name));
  }

  get(page, id) {
    const [number, name] = [count(page, 'page'), count(id, 'id')];
    const runtime = runtimeOf(this, PAGED);
    const status = runtime.calls.paged_get(handle(this), number, name, runtime.at);
    if (status === NOT_LIVE) return null;
    require(status);
    return reading.rectangle(runtime.words(), runtime.word);
  }

  grow(page, width, height) {
    const [number, w, h] = [count(page, 'page'), length(width, 'width'), length(height, 'height')];
    require(runtimeOf(this, PAGED).calls.paged_grow(handle(this), number, w, h), () => whyNoGrowth(w, h, pageSize(this, number)));
  }

  shrink() {
    return found(this, PAGED, 'paged_shrink', first);
  }

  clear() {
    require(runtimeOf(this, PAGED).calls.paged_clear(handle(this)));
  }

  get pageCount() {
    return found(this, PAGED, 'paged_page_count', first);
  }

  pageSize(page) {
    return pageSize(this, count(page, 'page'));
  }

  areas(page) {
    const number = count(page, 'page');
    const runtime = runtimeOf(this, PAGED);
    require(runtime.calls.paged_areas(handle(this), number, runtime.at));
    return reading.areas(runtime.words(), runtime.word);
  }

  allocated(page) {
    const number = count(page, 'page');
    const runtime = runtimeOf(this, PAGED);
    const list = (at, many) => {
      require(runtime.calls.paged_live(handle(this), number, at, many, runtime.at));
      return first(runtime.words(), runtime.word);
    };
    const many = list(0, 0);
    const at = runtime.room(4 * allocationAt.words * many);
    list(at, many);
    return reading.list(runtime.words(), at >>> 2, many, allocationAt.words, reading.allocation);
  }

  toJSON() {
    return shownState(() => ({ pageCount: found(this, PAGED, 'paged_page_count', first) }));
  }
}
