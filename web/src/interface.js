// Written by rust/erase from the exports of crates/guillotiere_c: don't edit.

/** The functions of the library, without the word before. */
export const EXPORTS = [
  'atlas_allocate', 'atlas_areas', 'atlas_can_fit', 'atlas_can_grow_to', 'atlas_clear', 'atlas_clone', 'atlas_deallocate',
  'atlas_deallocate_all', 'atlas_free', 'atlas_free_boxes', 'atlas_get', 'atlas_grow', 'atlas_is_empty', 'atlas_largest_free', 'atlas_live',
  'atlas_new', 'atlas_options', 'atlas_rearrange', 'atlas_reserve', 'atlas_reset', 'atlas_resize_and_rearrange', 'atlas_size',
  'atlas_slots', 'atlas_unusable_area', 'atlas_with_options', 'atlas_with_slot_limit', 'cache_areas', 'cache_begin_frame', 'cache_clear',
  'cache_clone', 'cache_compact', 'cache_end_batch', 'cache_free', 'cache_get', 'cache_insert', 'cache_len', 'cache_new', 'cache_newest',
  'cache_next_change', 'cache_numbers', 'cache_older', 'cache_oldest', 'cache_options_of', 'cache_page_count', 'cache_page_size',
  'cache_peek', 'cache_remove', 'cache_repack', 'cache_repack_keeping_all', 'cache_reserve', 'cache_reserve_changes', 'cache_reserve_slots',
  'cache_shrink', 'cache_statistics', 'cache_trim', 'cache_unusable_area', 'fill', 'interface', 'pack', 'pack_dense', 'pack_groups',
  'pack_pages', 'paged_allocate', 'paged_areas', 'paged_clear', 'paged_deallocate', 'paged_free', 'paged_get', 'paged_grow', 'paged_live',
  'paged_new', 'paged_page_count', 'paged_page_size', 'paged_shrink', 'paged_with_options', 'simple_allocate', 'simple_can_grow_to',
  'simple_clear', 'simple_free', 'simple_grow', 'simple_init_from_allocator', 'simple_is_empty', 'simple_new', 'simple_options',
  'simple_reset', 'simple_size', 'simple_slots', 'simple_with_options', 'version',
];

/** What each status is called, by its number; an empty text where no status has it. */
export const STATUSES = [
  'DONE', 'NO_ROOM', 'BAD_CALL', 'NOT_LIVE', 'SLOTS', 'MEMORY', 'SHORT', 'EMPTY', 'EMPTY_SHEET', 'EMPTY_RANGE', 'EMPTY_ALIGNMENT',
  'EMPTY_SPRITE', 'GREAT_SPRITE', 'OTHER_SIZE', 'NUMBERS', 'EMPTY_PAGE', 'LARGEST_PAGE', 'NO_PAGES', 'BAD_PADDING', 'BAD_ATLAS', 'NOT_HELD',
  'NO_CHANGE', 'NO_PAGE', 'HELD', 'FRAME_FULL', 'NEVER_FITS', '', 'NOTHING_FITS', 'NULL_POINTER', 'OCCUPIED',
];

/** Statuses, kinds and limits. */
export const DONE = 0;
export const NO_ROOM = 1;
export const BAD_CALL = 2;
export const NOT_LIVE = 3;
export const SLOTS = 4;
export const MEMORY = 5;
export const SHORT = 6;
export const EMPTY = 7;
export const EMPTY_SHEET = 8;
export const EMPTY_RANGE = 9;
export const EMPTY_ALIGNMENT = 10;
export const EMPTY_SPRITE = 11;
export const GREAT_SPRITE = 12;
export const OTHER_SIZE = 13;
export const NUMBERS = 14;
export const EMPTY_PAGE = 15;
export const LARGEST_PAGE = 16;
export const NO_PAGES = 17;
export const BAD_PADDING = 18;
export const BAD_ATLAS = 19;
export const NOT_HELD = 20;
export const NO_CHANGE = 21;
export const NO_PAGE = 22;
export const HELD = 23;
export const FRAME_FULL = 24;
export const NEVER_FITS = 25;
export const NOTHING_FITS = 27;
export const NULL_POINTER = 28;
export const OCCUPIED = 29;
export const ONE_SIZE = 0;
export const SQUARES = 1;
export const POWERS = 2;
export const HEIGHTS = 3;
export const NO_GROUP = 4294967295;
export const PAGE_ADDED = 0;
export const PAGE_GROWN = 1;
export const EVICTED = 2;
export const MOVED = 3;
export const PAGE_REMOVED = 4;
export const MOST_SLOTS = 16777216;

/** Where the values of structs lie, in words of 32 bits from the first on, and how many words they have. */
export const allocationAt = { id: 0, rectangle: 1, words: 5 };
export const areasAt = { allocated: 0, free: 2, words: 4 };
export const atlasAt = { at: 0, words: 1 };
export const cacheAt = { at: 0, words: 1 };
export const cacheChangeAt = { kind: 0, page: 1, size: 2, key: 4, from: 6, to: 16, words: 26 };
export const cacheOptionsAt = { page: 0, largestPage: 2, pages: 4, padding: 5, atlas: 6, words: 10 };
export const changeAt = { before: 0, after: 5, words: 10 };
export const changeCountAt = { changes: 0, failures: 1, words: 2 };
export const countsAt = { hits: 0, misses: 2, evictions: 4, forced: 6, words: 8 };
export const maybePlacedAt = { isPlaced: 0, placed: 1, words: 6 };
export const onPageAt = { page: 0, placed: 1, words: 6 };
export const optionsAt = { alignmentWidth: 0, alignmentHeight: 1, smallSizeThreshold: 2, largeSizeThreshold: 3, words: 4 };
export const pageAllocationAt = { page: 0, id: 1, rectangle: 2, words: 6 };
export const pagedAt = { at: 0, words: 1 };
export const placeAt = { number: 0, page: 1, rectangle: 2, inner: 6, words: 10 };
export const placedAt = { area: 0, turned: 4, words: 5 };
export const rectangleAt = { minX: 0, minY: 1, maxX: 2, maxY: 3, words: 4 };
export const sheetOptionsAt = {
  allowed: 0, width: 1, height: 2, least: 3, greatest: 4, padding: 5, alignmentWidth: 6, alignmentHeight: 7, turn: 8, effort: 9, seed: 10,
  words: 12,
};
export const simpleAt = { at: 0, words: 1 };
export const sizeAt = { width: 0, height: 1, words: 2 };
export const slotsAt = { used: 0, kept: 1, limit: 2, words: 3 };
