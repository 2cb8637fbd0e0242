//! Calls of a cache whose key comes in two halves: JavaScript would make a bigint of 64 bits for each. An insertion also hands over the
//! first change, so that JavaScript asks for none where there is none.

use crate::cache::{guillotiere_cache_get, guillotiere_cache_insert, guillotiere_cache_next_change};
use crate::cache_handle::CacheHandle;
use crate::plain::DONE;
use crate::plain_cache::{PlainCacheChange, PlainPlace};

/// What is added to the status of an insertion where a change was written.
const CHANGED: u32 = 256;

fn whole(lower: u32, upper: u32) -> u64 {
    u64::from(upper) << 32 | u64::from(lower)
}

/// `guillotiere_cache_get` of the key with these halves.
#[no_mangle]
pub extern "C" fn guillotiere_cache_get_halves(
    cache: Option<&mut CacheHandle>,
    lower: u32,
    upper: u32,
    place: Option<&mut PlainPlace>,
) -> u32 {
    guillotiere_cache_get(cache, whole(lower, upper), place)
}

/// `guillotiere_cache_insert` of the key with these halves, and then `guillotiere_cache_next_change`: where that writes a change, 256 more
/// than the status.
#[no_mangle]
pub extern "C" fn guillotiere_cache_insert_halves(
    mut cache: Option<&mut CacheHandle>,
    lower: u32,
    upper: u32,
    width: i32,
    height: i32,
    place: Option<&mut PlainPlace>,
    change: Option<&mut PlainCacheChange>,
) -> u32 {
    let key = whole(lower, upper);
    let status = guillotiere_cache_insert(cache.as_deref_mut(), key, width, height, place);
    match guillotiere_cache_next_change(cache, change) {
        DONE => status + CHANGED,
        _ => status,
    }
}
