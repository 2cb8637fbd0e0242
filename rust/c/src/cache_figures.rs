// Erased from crates/guillotiere_c/src/cache_figures.rt by rust/erase: don't edit.
//! The exports that report on a cache: how many keys and pages it has, and how it was used.

use crate::cache_handle::CacheReader;
use crate::plain::{plain_size, PlainAreas, PlainSize, DONE, EMPTY, MEMORY, NO_PAGE};
use crate::plain_cache::{plain_cache_options, plain_counts, PlainCacheOptions, PlainCounts};
use wollemigo_core::guillotiere::size2;

/// How many keys are held, at most 4294967295. `DONE`; `EMPTY`.
#[no_mangle]
pub extern "C" fn guillotiere_cache_len(
    cache: Option<&CacheReader>,
    len: Option<&mut usize>,
) -> u32 {
    let cache = match cache {
        Some(cache) => cache,
        None => return crate::plain::NULL_POINTER,
    };
    let len = match len {
        Some(len) => len,
        None => return crate::plain::NULL_POINTER,
    };
    if !cache.holds() {
        return EMPTY;
    }
    let held = cache.lent().cache();
    *len = held.len();
    DONE
}

/// How many numbers keys have had since the cache was made or cleared: the number of each place is below this, and there are
/// never more than there ever were keys at once. `DONE`; `EMPTY`.
#[no_mangle]
pub extern "C" fn guillotiere_cache_numbers(
    cache: Option<&CacheReader>,
    numbers: Option<&mut u32>,
) -> u32 {
    let cache = match cache {
        Some(cache) => cache,
        None => return crate::plain::NULL_POINTER,
    };
    let numbers = match numbers {
        Some(numbers) => numbers,
        None => return crate::plain::NULL_POINTER,
    };
    if !cache.holds() {
        return EMPTY;
    }
    let held = cache.lent().cache();
    *numbers = held.numbers();
    DONE
}

/// How many pages there are. `DONE`; `EMPTY`.
#[no_mangle]
pub extern "C" fn guillotiere_cache_page_count(
    cache: Option<&CacheReader>,
    pages: Option<&mut u32>,
) -> u32 {
    let cache = match cache {
        Some(cache) => cache,
        None => return crate::plain::NULL_POINTER,
    };
    let pages = match pages {
        Some(pages) => pages,
        None => return crate::plain::NULL_POINTER,
    };
    if !cache.holds() {
        return EMPTY;
    }
    let held = cache.lent().cache();
    *pages = held.pages();
    DONE
}

/// The size of a page, counted from 0. `DONE`; `NO_PAGE`; `EMPTY`.
#[no_mangle]
pub extern "C" fn guillotiere_cache_page_size(
    cache: Option<&CacheReader>,
    page: u32,
    size: Option<&mut PlainSize>,
) -> u32 {
    let cache = match cache {
        Some(cache) => cache,
        None => return crate::plain::NULL_POINTER,
    };
    let size = match size {
        Some(size) => size,
        None => return crate::plain::NULL_POINTER,
    };
    if !cache.holds() {
        return EMPTY;
    }
    let held = cache.lent().cache();
    let found = held.page_size(page);
    match found {
        Some(found) => {
            *size = plain_size(found);
            DONE
        }
        None => NO_PAGE,
    }
}

/// The areas of a page, counted from 0: that of its keys, with their padding and what the alignment added, and that which is
/// free; together that of the page. Takes a step, however many keys there are. A page with much that is free, from which keys
/// are evicted all the same, is worth a repacking. `DONE`; `NO_PAGE`; `EMPTY`.
#[no_mangle]
pub extern "C" fn guillotiere_cache_areas(
    cache: Option<&CacheReader>,
    page: u32,
    areas: Option<&mut PlainAreas>,
) -> u32 {
    let cache = match cache {
        Some(cache) => cache,
        None => return crate::plain::NULL_POINTER,
    };
    let areas = match areas {
        Some(areas) => areas,
        None => return crate::plain::NULL_POINTER,
    };
    if !cache.holds() {
        return EMPTY;
    }
    let held = cache.lent().cache();
    let live = held.live_area(page);
    let free = held.free_area(page);
    let allocated = match live {
        Some(allocated) => allocated,
        _ => {
            return NO_PAGE;
        }
    };
    let free = match free {
        Some(free) => free,
        _ => {
            return NO_PAGE;
        }
    };
    *areas = PlainAreas { allocated, free };
    DONE
}

/// Of the area of a page that is free, what lies in free boxes which have no room for a key of this size, with its padding
/// and rounded up to the alignment. A side below 0 counts as 0, and 0 as the padding on both sides, though a key of an empty
/// size takes no room. Asked with the size of a usual key it says how fragmented the page is: where much is of no use, it is
/// time to repack it. Takes memory for a list of the page's free boxes, if there is such a page.
/// `DONE`; `NO_PAGE`; `MEMORY`; `EMPTY`.
#[no_mangle]
pub extern "C" fn guillotiere_cache_unusable_area(
    cache: Option<&CacheReader>,
    page: u32,
    width: i32,
    height: i32,
    area: Option<&mut u64>,
) -> u32 {
    let cache = match cache {
        Some(cache) => cache,
        None => return crate::plain::NULL_POINTER,
    };
    let area = match area {
        Some(area) => area,
        None => return crate::plain::NULL_POINTER,
    };
    if !cache.holds() {
        return EMPTY;
    }
    let held = cache.lent().cache();
    let found = held.unusable_area(page, size2(width, height));
    match found {
        Ok(Some(found)) => {
            *area = found;
            DONE
        }
        Ok(None) => NO_PAGE,
        Err(_) => MEMORY,
    }
}

/// The options with which the cache was made. `DONE`; `EMPTY`.
#[no_mangle]
pub extern "C" fn guillotiere_cache_options_of(
    cache: Option<&CacheReader>,
    options: Option<&mut PlainCacheOptions>,
) -> u32 {
    let cache = match cache {
        Some(cache) => cache,
        None => return crate::plain::NULL_POINTER,
    };
    let options = match options {
        Some(options) => options,
        None => return crate::plain::NULL_POINTER,
    };
    if !cache.holds() {
        return EMPTY;
    }
    let held = cache.lent().cache();
    *options = plain_cache_options(held.options());
    DONE
}

/// The counts since the cache was made. Where a frame asks by `guillotiere_cache_get`, and inserts what that doesn't find, the
/// hit rate is `hits` by `hits` and `misses` together; where it only inserts, no miss is counted, and it is `hits` by calls.
/// Where `forced` grows, a `guillotiere_cache_repack` or a `guillotiere_cache_compact` helps; where `evictions` grows without
/// it, the pages are too small for what is drawn. `DONE`; `EMPTY`.
#[no_mangle]
pub extern "C" fn guillotiere_cache_statistics(
    cache: Option<&CacheReader>,
    counts: Option<&mut PlainCounts>,
) -> u32 {
    let cache = match cache {
        Some(cache) => cache,
        None => return crate::plain::NULL_POINTER,
    };
    let counts = match counts {
        Some(counts) => counts,
        None => return crate::plain::NULL_POINTER,
    };
    if !cache.holds() {
        return EMPTY;
    }
    let held = cache.lent().cache();
    *counts = plain_counts(held.statistics());
    DONE
}
