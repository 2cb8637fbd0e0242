// Erased from crates/guillotiere_c/src/cache.rt by rust/erase: don't edit.
//! The exports of a cache: its life, its keys and its changes.

use crate::cache_handle::{CacheHandle, CacheReader};
use crate::followed::FollowedCache;
use crate::plain::{
    DONE, EMPTY, FRAME_FULL, HELD, MEMORY, NEVER_FITS, NOT_HELD, NO_CHANGE, NO_PAGE, NO_ROOM,
    OCCUPIED, SLOTS,
};
use crate::plain_cache::{
    cache_options_for, plain_cache_change, plain_place, status_of_cache_error,
    status_of_options_error, PlainCacheChange, PlainCacheOptions, PlainPlace,
};
use wollemigo_core::atlas_cache::{CacheError, Inserted, Place};
use wollemigo_core::guillotiere::size2;
use wollemigo_support::alloc::Global;
use wollemigo_support::prelude::Box;
use wollemigo_support::raw::spare;

/// Makes a cache that holds nothing and has no page yet, where the handle holds nothing. Keys are any numbers of 64 bits;
/// they are hashed with a fixed seed.
/// `DONE`; `OCCUPIED`, before all others, if the handle holds a cache already; the first of `EMPTY_PAGE`, `LARGEST_PAGE`,
/// `NO_PAGES`, `BAD_PADDING`, `BAD_ATLAS` and `NOTHING_FITS` that is wrong with the options; `MEMORY`.
#[no_mangle]
pub extern "C" fn guillotiere_cache_new(
    options: Option<&PlainCacheOptions>,
    cache: Option<&mut CacheHandle>,
) -> u32 {
    let alloc = Global;
    let options = match options {
        Some(options) => options,
        None => return crate::plain::NULL_POINTER,
    };
    let cache = match cache {
        Some(cache) => cache,
        None => return crate::plain::NULL_POINTER,
    };
    if cache.holds() {
        return OCCUPIED;
    }
    let made = match FollowedCache::new(alloc, cache_options_for(options)) {
        Ok(made) => made,
        Err(error) => return status_of_options_error(error),
    };
    match Box::new(alloc, made) {
        Ok(held) => {
            cache.put(held);
            DONE
        }
        Err(_) => MEMORY,
    }
}

/// Frees a cache, with all its memory; the handle holds nothing then.
#[no_mangle]
pub extern "C" fn guillotiere_cache_free(cache: Option<&mut CacheHandle>) {
    let alloc = Global;
    let cache = match cache {
        Some(cache) => cache,
        None => return,
    };
    if !cache.holds() {
        return;
    }
    let _held = cache.take(alloc);
}

/// Begins a new frame: what isn't used in it may be evicted. Until the first call no key is evicted for another: all that is
/// held counts as used in the current frame. `DONE`; `EMPTY`.
#[no_mangle]
pub extern "C" fn guillotiere_cache_begin_frame(cache: Option<&mut CacheHandle>) -> u32 {
    let alloc = Global;
    let cache = match cache {
        Some(cache) => cache,
        None => return crate::plain::NULL_POINTER,
    };
    if !cache.holds() {
        return EMPTY;
    }
    let mut held = cache.take(alloc);
    held.begin_frame();
    cache.put(held);
    DONE
}

// Writes the place that a look-up found.
fn write_found(found: Option<Place>, place: &mut PlainPlace) -> u32 {
    match found {
        Some(found) => {
            *place = plain_place(found);
            DONE
        }
        None => NOT_HELD,
    }
}

/// The place of a key, which is used in this frame from now on. Counts a hit or a miss. `DONE`; `NOT_HELD`; `EMPTY`.
#[no_mangle]
pub extern "C" fn guillotiere_cache_get(
    cache: Option<&mut CacheHandle>,
    key: u64,
    place: Option<&mut PlainPlace>,
) -> u32 {
    let alloc = Global;
    let cache = match cache {
        Some(cache) => cache,
        None => return crate::plain::NULL_POINTER,
    };
    let place = match place {
        Some(place) => place,
        None => return crate::plain::NULL_POINTER,
    };
    if !cache.holds() {
        return EMPTY;
    }
    let mut held = cache.take(alloc);
    let found = held.get(key);
    cache.put(held);
    write_found(found, place)
}

/// The place of a key; it doesn't count as a use, a hit or a miss. `DONE`; `NOT_HELD`; `EMPTY`.
#[no_mangle]
pub extern "C" fn guillotiere_cache_peek(
    cache: Option<&CacheReader>,
    key: u64,
    place: Option<&mut PlainPlace>,
) -> u32 {
    let cache = match cache {
        Some(cache) => cache,
        None => return crate::plain::NULL_POINTER,
    };
    let place = match place {
        Some(place) => place,
        None => return crate::plain::NULL_POINTER,
    };
    if !cache.holds() {
        return EMPTY;
    }
    let held = cache.lent().cache();
    let found = held.peek(&key);
    write_found(found, place)
}

// Writes the place that an insertion gave.
fn write_inserted(answer: Result<Inserted, CacheError>, place: &mut PlainPlace) -> u32 {
    match answer {
        Ok(Inserted::Placed(new)) => {
            *place = plain_place(new);
            DONE
        }
        Ok(Inserted::Held(held)) => {
            *place = plain_place(held);
            HELD
        }
        Ok(Inserted::FrameFull) => FRAME_FULL,
        Ok(Inserted::NeverFits) => NEVER_FITS,
        Err(error) => status_of_cache_error(error),
    }
}

/// A place for a key, which is used in this frame. A key that is held keeps its place, and is the most recently used; that
/// counts as a hit. A new key, which counts as no miss, goes onto the first page with room for its size with the padding.
/// If none has room, a page grows: its smaller side (the width if they are equal) doubles, but no further than the largest
/// page. If none can grow, one is added; and if no more are allowed, the least recently used key that lies on a page and
/// that this frame didn't use is evicted; and so on, up to 16 keys. If there still is no room then, only keys that lie in one
/// box go: the first box that would come free and that the new key fits, if all that this frame didn't use went in that
/// order. Where memory for looking it up is refused, a byte for each slot of the pages, they go on in that order. What was done
/// is handed over by `guillotiere_cache_next_change`, also
/// after `FRAME_FULL` and after an error: take all of it after each insertion, before the place or its number is noted. A
/// key that was evicted and came back is reported as evicted all the same.
/// `DONE`: the key is new, and its place was written: its pixels are to be written to the texture. `HELD`: it was held, and
/// its place, where its pixels are, was written. `FRAME_FULL`: all pages allowed exist, at their largest, and none would have
/// room, were all keys gone that this frame didn't use, of which 16 went at most, or more where that memory was refused: draw
/// what is batched, call `guillotiere_cache_end_batch` and insert again, or `guillotiere_cache_begin_frame`; while a
/// frame has used nothing this is never the answer. `NEVER_FITS` if the size, with the padding on all sides and rounded up to
/// the alignment, exceeds the largest page, `OTHER_SIZE` if the key is held with another size, even if this one is empty or
/// would never fit: then nothing changed. `NUMBERS` if 4294967295 keys are still held; `SLOTS` if the page that has room, or
/// that would grow, can't use the slots that this takes, of 16777216; `MEMORY` if memory is refused. Either ends the call: another
/// page that has room isn't tried, and no more keys are evicted for the new one. After `SLOTS` that is so in each later frame
/// too: `guillotiere_cache_remove`, `guillotiere_cache_trim` and `guillotiere_cache_clear` help. `EMPTY`.
/// A key with an empty size (a side below 1) takes no room, and is never evicted to make room for another.
/// Both rectangles of its place are 0, and so is its page, but it is on no page: nothing is to be written or drawn, no
/// repacking reports it, and no page stays for it.
#[no_mangle]
pub extern "C" fn guillotiere_cache_insert(
    cache: Option<&mut CacheHandle>,
    key: u64,
    width: i32,
    height: i32,
    place: Option<&mut PlainPlace>,
) -> u32 {
    let alloc = Global;
    let cache = match cache {
        Some(cache) => cache,
        None => return crate::plain::NULL_POINTER,
    };
    let place = match place {
        Some(place) => place,
        None => return crate::plain::NULL_POINTER,
    };
    if !cache.holds() {
        return EMPTY;
    }
    let mut held = cache.take(alloc);
    let answer = held.insert(key, size2(width, height));
    cache.put(held);
    write_inserted(answer, place)
}

/// Removes a key, and writes the place that it had. No change reports this: forget its place, once you have followed the
/// changes that weren't handed over. Takes no memory. `DONE`; `NOT_HELD`; `EMPTY`.
#[no_mangle]
pub extern "C" fn guillotiere_cache_remove(
    cache: Option<&mut CacheHandle>,
    key: u64,
    removed: Option<&mut PlainPlace>,
) -> u32 {
    let alloc = Global;
    let cache = match cache {
        Some(cache) => cache,
        None => return crate::plain::NULL_POINTER,
    };
    let mut spare_removed = unsafe { spare() };
    let removed = removed.unwrap_or(&mut spare_removed);
    if !cache.holds() {
        return EMPTY;
    }
    let mut held = cache.take(alloc);
    let found = held.remove(key);
    cache.put(held);
    write_found(found, removed)
}

/// Hands over the first change that wasn't handed over yet; each is handed over once, in the order in which they were made.
/// Takes no memory. `DONE`; `NO_CHANGE` if there is none; `EMPTY`.
#[no_mangle]
pub extern "C" fn guillotiere_cache_next_change(
    cache: Option<&mut CacheHandle>,
    change: Option<&mut PlainCacheChange>,
) -> u32 {
    let alloc = Global;
    let cache = match cache {
        Some(cache) => cache,
        None => return crate::plain::NULL_POINTER,
    };
    let change = match change {
        Some(change) => change,
        None => return crate::plain::NULL_POINTER,
    };
    if !cache.holds() {
        return EMPTY;
    }
    let mut held = cache.take(alloc);
    let next = held.next_change();
    cache.put(held);
    match next {
        Some(next) => {
            *change = plain_cache_change(next);
            DONE
        }
        None => NO_CHANGE,
    }
}

/// Removes all keys. The pages stay, with their sizes and nothing on them. No change reports this. The changes that weren't
/// handed over stay: follow them, then forget all places. Takes no memory. `DONE`; `EMPTY`.
#[no_mangle]
pub extern "C" fn guillotiere_cache_clear(cache: Option<&mut CacheHandle>) -> u32 {
    let alloc = Global;
    let cache = match cache {
        Some(cache) => cache,
        None => return crate::plain::NULL_POINTER,
    };
    if !cache.holds() {
        return EMPTY;
    }
    let mut held = cache.take(alloc);
    held.clear();
    cache.put(held);
    DONE
}

/// Evicts the keys that weren't used for at least this many frames, each reported by a change, the least recently used first.
/// A frame is a call of `guillotiere_cache_begin_frame`: with 1 all goes that wasn't used since the last one, with 0 all.
/// `DONE`; `MEMORY`, and then all is as it was: never if `guillotiere_cache_reserve_changes` made room for as many changes as
/// keys are held, and for one at least; `EMPTY`.
#[no_mangle]
pub extern "C" fn guillotiere_cache_trim(cache: Option<&mut CacheHandle>, frames: u64) -> u32 {
    let alloc = Global;
    let cache = match cache {
        Some(cache) => cache,
        None => return crate::plain::NULL_POINTER,
    };
    if !cache.holds() {
        return EMPTY;
    }
    let mut held = cache.take(alloc);
    let answer = held.trim(frames);
    cache.put(held);
    match answer {
        Ok(()) => DONE,
        Err(error) => status_of_cache_error(error),
    }
}

/// Ends a batch, which was drawn, where the frame has no room for what comes next in it: this many of the most recently used
/// keys go, all if there are no more, each reported by a change, the most recently used first. The frame goes on: an insertion
/// evicts nothing of what is left that it used. `DONE`; `MEMORY`, and then all is as it was: never if
/// `guillotiere_cache_reserve_changes` made room for as many changes as keys are held, and for one at least; `EMPTY`.
#[no_mangle]
pub extern "C" fn guillotiere_cache_end_batch(cache: Option<&mut CacheHandle>, keys: usize) -> u32 {
    let alloc = Global;
    let cache = match cache {
        Some(cache) => cache,
        None => return crate::plain::NULL_POINTER,
    };
    if !cache.holds() {
        return EMPTY;
    }
    let mut held = cache.take(alloc);
    let answer = held.end_batch(keys);
    cache.put(held);
    match answer {
        Ok(()) => DONE,
        Err(error) => status_of_cache_error(error),
    }
}

/// Removes the pages after the last one with a key, each reported by a change, `GUILLOTIERE_PAGE_REMOVED`, the last one
/// first. The others stay, with their sizes, and so do all keys; after `guillotiere_cache_clear` all pages go. A page that goes
/// takes its slots in reserve along, and one that is added later has none; keys in reserve stay. `DONE`;
/// `MEMORY`, and then all is as it was: never if `guillotiere_cache_reserve_changes` made room for as many changes as there
/// are pages, and for one at least; `EMPTY`.
#[no_mangle]
pub extern "C" fn guillotiere_cache_shrink(cache: Option<&mut CacheHandle>) -> u32 {
    let alloc = Global;
    let cache = match cache {
        Some(cache) => cache,
        None => return crate::plain::NULL_POINTER,
    };
    if !cache.holds() {
        return EMPTY;
    }
    let mut held = cache.take(alloc);
    let answer = held.shrink();
    cache.put(held);
    match answer {
        Ok(()) => DONE,
        Err(error) => status_of_cache_error(error),
    }
}

/// Moves keys of the last page to the pages before it, so that `guillotiere_cache_shrink` can give it back, as many as some
/// pixels are enough for: after a burst a call in each frame empties page after page, where a repacking would take too long for one.
/// The most recently used key comes first; each that lies on the last page, on no more pixels, padding included, than are left,
/// moves to the first page before it that has room for it, reported by a change, `GUILLOTIERE_MOVED`. No key goes, none counts
/// as used, and no page grows or goes. Writes how many pixels moved: 0 where there are fewer than two pages, or where no key moved.
/// All moves lead from the last page to other ones, on which nothing comes free: so the pixels can be copied one after another.
/// `DONE`; `SLOTS` if a page that has room can't use the slots that this takes, of 16777216, or `MEMORY`, and then what moved
/// before is reported and stays, and nothing is written; `EMPTY`.
#[no_mangle]
pub extern "C" fn guillotiere_cache_compact(
    cache: Option<&mut CacheHandle>,
    pixels: u64,
    moved: Option<&mut u64>,
) -> u32 {
    let alloc = Global;
    let cache = match cache {
        Some(cache) => cache,
        None => return crate::plain::NULL_POINTER,
    };
    let moved = match moved {
        Some(moved) => moved,
        None => return crate::plain::NULL_POINTER,
    };
    if !cache.holds() {
        return EMPTY;
    }
    let mut held = cache.take(alloc);
    let answer = held.compact(pixels);
    cache.put(held);
    match answer {
        Ok(pixels) => {
            *moved = pixels;
            DONE
        }
        Err(error) => status_of_cache_error(error),
    }
}

/// Repacks the keys of a page, the largest first, and among equal areas the most recently used, so that what is free comes
/// together; pages are counted from 0. Each key of the page is reported by a change, the most recently used first:
/// `GUILLOTIERE_MOVED`, also where it stays, or `GUILLOTIERE_EVICTED`, where it found no room when its turn came, also if this
/// frame uses it: `guillotiere_cache_repack_keeping_all` evicts none. A place that a key moves to
/// can overlap one that a later change moves from: take the changes that wait, then copy the page, then call this, and copy
/// all pixels from that copy. The page may have no slots in reserve then; keys in reserve stay. `DONE`; `NO_PAGE`, `SLOTS`
/// (only of a page with more than 4194303 keys) or `MEMORY`, and then all is as it was; `EMPTY`.
#[no_mangle]
pub extern "C" fn guillotiere_cache_repack(cache: Option<&mut CacheHandle>, page: u32) -> u32 {
    let alloc = Global;
    let cache = match cache {
        Some(cache) => cache,
        None => return crate::plain::NULL_POINTER,
    };
    if !cache.holds() {
        return EMPTY;
    }
    let mut held = cache.take(alloc);
    let answer = held.repack(page);
    cache.put(held);
    match answer {
        Ok(true) => DONE,
        Ok(false) => NO_PAGE,
        Err(error) => status_of_cache_error(error),
    }
}

/// Repacks the keys of a page as `guillotiere_cache_repack` does, but only where each of them finds room, so that no key is
/// evicted. `DONE`; `NO_ROOM` if one would find none, `NO_PAGE`, `SLOTS` (only of a page with more than 4194303 keys) or
/// `MEMORY`, and then all is as it was; `EMPTY`.
#[no_mangle]
pub extern "C" fn guillotiere_cache_repack_keeping_all(
    cache: Option<&mut CacheHandle>,
    page: u32,
) -> u32 {
    let alloc = Global;
    let cache = match cache {
        Some(cache) => cache,
        None => return crate::plain::NULL_POINTER,
    };
    if !cache.holds() {
        return EMPTY;
    }
    let mut held = cache.take(alloc);
    let is_there = page < held.cache().pages();
    let answer = held.repack_keeping_all(page);
    cache.put(held);
    match answer {
        Ok(true) => DONE,
        Ok(false) => {
            if is_there {
                NO_ROOM
            } else {
                NO_PAGE
            }
        }
        Err(error) => status_of_cache_error(error),
    }
}
