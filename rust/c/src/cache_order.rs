// Erased from crates/guillotiere_c/src/cache_order.rt by rust/erase: don't edit.
//! The exports that walk along the keys of a cache in the order of their use, and those that take memory beforehand.

use crate::cache_handle::{CacheHandle, CacheReader};
use crate::plain::{DONE, EMPTY, MEMORY, NOT_HELD, SLOTS};
use crate::plain_cache::{plain_place, status_of_cache_error, PlainPlace};
use wollemigo_core::atlas_cache::Place;
use wollemigo_support::alloc::Global;

// Writes the key and the place that a walk found.
fn write_keyed(found: Option<(u64, Place)>, key: &mut u64, place: &mut PlainPlace) -> u32 {
    match found {
        Some((next, at)) => {
            *key = next;
            *place = plain_place(at);
            DONE
        }
        None => NOT_HELD,
    }
}

/// The most recently used key, and its place; it doesn't count as a use. `DONE`; `NOT_HELD` if no key is held; `EMPTY`.
#[no_mangle]
pub extern "C" fn guillotiere_cache_newest(
    cache: Option<&CacheReader>,
    key: Option<&mut u64>,
    place: Option<&mut PlainPlace>,
) -> u32 {
    let cache = match cache {
        Some(cache) => cache,
        None => return crate::plain::NULL_POINTER,
    };
    let key = match key {
        Some(key) => key,
        None => return crate::plain::NULL_POINTER,
    };
    let place = match place {
        Some(place) => place,
        None => return crate::plain::NULL_POINTER,
    };
    if !cache.holds() {
        return EMPTY;
    }
    let held = cache.lent().cache();
    let found = held.newest();
    write_keyed(found, key, place)
}

/// The least recently used key, and its place; it doesn't count as a use. `DONE`; `NOT_HELD` if no key is held; `EMPTY`.
#[no_mangle]
pub extern "C" fn guillotiere_cache_oldest(
    cache: Option<&CacheReader>,
    key: Option<&mut u64>,
    place: Option<&mut PlainPlace>,
) -> u32 {
    let cache = match cache {
        Some(cache) => cache,
        None => return crate::plain::NULL_POINTER,
    };
    let key = match key {
        Some(key) => key,
        None => return crate::plain::NULL_POINTER,
    };
    let place = match place {
        Some(place) => place,
        None => return crate::plain::NULL_POINTER,
    };
    if !cache.holds() {
        return EMPTY;
    }
    let held = cache.lent().cache();
    let found = held.oldest();
    write_keyed(found, key, place)
}

/// The next less recently used key, and its place; this doesn't count as a use. From the newest key on, this gives each key
/// once. `DONE`: it is in `older`. `NOT_HELD` if `key` is the least recently used, or isn't held; `EMPTY`.
#[no_mangle]
pub extern "C" fn guillotiere_cache_older(
    cache: Option<&CacheReader>,
    key: u64,
    older: Option<&mut u64>,
    place: Option<&mut PlainPlace>,
) -> u32 {
    let cache = match cache {
        Some(cache) => cache,
        None => return crate::plain::NULL_POINTER,
    };
    let older = match older {
        Some(older) => older,
        None => return crate::plain::NULL_POINTER,
    };
    let place = match place {
        Some(place) => place,
        None => return crate::plain::NULL_POINTER,
    };
    if !cache.holds() {
        return EMPTY;
    }
    let held = cache.lent().cache();
    let found = held.older(&key);
    write_keyed(found, older, place)
}

/// Makes sure that there is memory for this many more keys; nothing else changes. A key that is added takes one of them; one
/// that goes gives none back, but `guillotiere_cache_clear` does. An insertion also takes slots of pages and room for changes:
/// for these there are the next two calls. `DONE`; `MEMORY`; `EMPTY`.
#[no_mangle]
pub extern "C" fn guillotiere_cache_reserve(
    cache: Option<&mut CacheHandle>,
    additional: usize,
) -> u32 {
    let alloc = Global;
    let cache = match cache {
        Some(cache) => cache,
        None => return crate::plain::NULL_POINTER,
    };
    if !cache.holds() {
        return EMPTY;
    }
    let mut held = cache.take(alloc);
    let answer = held.reserve(additional);
    cache.put(held);
    match answer {
        Ok(()) => DONE,
        Err(error) => status_of_cache_error(error),
    }
}

/// Makes sure that this many slots are in reserve on each page. An insertion that neither adds a page nor grows one uses at
/// most 4 of each page; a page that is added later has none in reserve, one that grows uses up to 3, one that is repacked may
/// have none, and one that goes takes its own along; removing, trimming and clearing take none. So once
/// `guillotiere_cache_reserve(n)`, this with 4 times n and `guillotiere_cache_reserve_changes` for n and all keys that are
/// held were `DONE`, and every page is there and at its largest, none of n insertions is refused with `SLOTS` or `MEMORY`.
/// `DONE`; `SLOTS` if those of a page don't suffice; `MEMORY`; `EMPTY`. The pages before the one that was refused have theirs
/// then, and it and those after it are as they were.
#[no_mangle]
pub extern "C" fn guillotiere_cache_reserve_slots(
    cache: Option<&mut CacheHandle>,
    additional: u32,
) -> u32 {
    let alloc = Global;
    let cache = match cache {
        Some(cache) => cache,
        None => return crate::plain::NULL_POINTER,
    };
    if !cache.holds() {
        return EMPTY;
    }
    let mut held = cache.take(alloc);
    let answer = held.reserve_slots(additional);
    cache.put(held);
    match answer {
        Ok(()) => DONE,
        Err(error) => status_of_cache_error(error),
    }
}

/// Takes memory for this many changes besides those that wait to be handed over; nothing else changes. `DONE`; `MEMORY`;
/// `EMPTY`.
#[no_mangle]
pub extern "C" fn guillotiere_cache_reserve_changes(
    cache: Option<&mut CacheHandle>,
    additional: usize,
) -> u32 {
    let alloc = Global;
    let cache = match cache {
        Some(cache) => cache,
        None => return crate::plain::NULL_POINTER,
    };
    if !cache.holds() {
        return EMPTY;
    }
    let mut held = cache.take(alloc);
    let answer = held.reserve_changes(additional);
    cache.put(held);
    match answer {
        Ok(()) => DONE,
        Err(error) => status_of_cache_error(error),
    }
}
