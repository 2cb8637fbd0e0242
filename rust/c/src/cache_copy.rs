// Erased from crates/guillotiere_c/src/cache_copy.rt by rust/erase: don't edit.
//! The export that copies a cache.

use crate::cache_handle::{CacheHandle, CacheReader};
use crate::plain::{DONE, EMPTY, MEMORY, OCCUPIED};
use wollemigo_support::alloc::Global;
use wollemigo_support::prelude::Box;

/// Makes a copy that shares nothing with the cache, where `copy` holds nothing: its keys have the same places, the same changes
/// wait, and it answers later calls as the cache does, except where memory is refused: nothing is in reserve. Takes as many steps as the
/// pages have slots and as keys have had numbers.
/// `DONE`; `MEMORY`; `EMPTY` if `cache` holds nothing; `OCCUPIED` if `copy` holds something.
#[no_mangle]
pub extern "C" fn guillotiere_cache_clone(
    cache: Option<&CacheReader>,
    copy: Option<&mut CacheHandle>,
) -> u32 {
    let alloc = Global;
    let cache = match cache {
        Some(cache) => cache,
        None => return crate::plain::NULL_POINTER,
    };
    let copy = match copy {
        Some(copy) => copy,
        None => return crate::plain::NULL_POINTER,
    };
    if !cache.holds() {
        return EMPTY;
    }
    if copy.holds() {
        return OCCUPIED;
    }
    let held = cache.lent();
    let made = held.clone();
    let made = match made {
        Ok(made) => made,
        _ => {
            return MEMORY;
        }
    };
    match Box::new(alloc, made) {
        Ok(boxed) => {
            copy.put(boxed);
            DONE
        }
        Err(_) => MEMORY,
    }
}
