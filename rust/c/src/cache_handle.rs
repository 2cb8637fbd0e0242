// Erased from crates/guillotiere_c/src/cache_handle.rt by rust/erase: don't edit.
//! What C holds of a cache.

use crate::followed::FollowedCache;
use crate::held::{hold, release, Held};
use wollemigo_support::alloc::Global;
use wollemigo_support::prelude::Box;

use core::mem::replace;
use core::ptr::null_mut;

/// A place for a cache: it holds one, or nothing, and then it is null.
#[repr(C)]
pub struct CacheHandle {
    at: *mut u8,
}

impl CacheHandle {
    /// A handle that holds nothing.
    pub fn none() -> CacheHandle {
        CacheHandle { at: null_mut() }
    }

    /// Drops a handle. Requires that it holds nothing, so that nothing is lost.
    pub fn forget(handle: CacheHandle) {
        let CacheHandle { at: _ } = handle;
    }

    /// Whether it holds a cache.
    pub fn holds(&mut self) -> bool {
        !self.at.is_null()
    }

    /// A handle that holds what was taken apart.
    pub fn close(held: Held<FollowedCache, Global>) -> CacheHandle {
        let Held { at, alloc: _ } = held;
        CacheHandle { at: at as *mut u8 }
    }

    /// What it holds, taken apart. Requires that it holds a cache.
    pub fn open(alloc: Global, handle: CacheHandle) -> Held<FollowedCache, Global> {
        let CacheHandle { at } = handle;
        Held {
            at: at as *mut FollowedCache,
            alloc,
        }
    }
}

impl CacheHandle {
    /// Takes the cache out; the handle holds nothing then. Requires that it holds a cache.
    pub fn take(&mut self, alloc: Global) -> Box<FollowedCache> {
        let handle = replace(self, CacheHandle::none());
        release(CacheHandle::open(alloc, handle))
    }

    /// Puts a cache in. Requires that the handle holds nothing.
    pub fn put(&mut self, cache: Box<FollowedCache>) {
        let empty = replace(self, CacheHandle::close(hold(cache)));
        CacheHandle::forget(empty);
    }
}

/// The place of a cache for a call that only reads: what lies at the pointer is lent to it, and any number of
/// such calls may run at once.
#[repr(C)]
pub struct CacheReader {
    at: *const u8,
}

impl CacheReader {
    /// Whether it holds a cache.
    pub fn holds(&self) -> bool {
        !self.at.is_null()
    }

    /// The cache. Requires that it holds one.
    pub fn lent(&self) -> &FollowedCache {
        unsafe { &*(self.at as *const FollowedCache) }
    }
}
