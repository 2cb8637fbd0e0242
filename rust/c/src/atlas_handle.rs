// Erased from crates/guillotiere_c/src/atlas_handle.rt by rust/erase: don't edit.
//! What C holds of an atlas.

use crate::held::{hold, release, Held};
use wollemigo_core::guillotiere::AtlasAllocator;
use wollemigo_support::alloc::Global;
use wollemigo_support::prelude::Box;

use core::mem::replace;
use core::ptr::null_mut;

/// A place for an atlas: it holds one, or nothing, and then it is null.
#[repr(C)]
pub struct AtlasHandle {
    at: *mut u8,
}

impl AtlasHandle {
    /// A handle that holds nothing.
    pub fn none() -> AtlasHandle {
        AtlasHandle { at: null_mut() }
    }

    /// Drops a handle. Requires that it holds nothing, so that nothing is lost.
    pub fn forget(handle: AtlasHandle) {
        let AtlasHandle { at: _ } = handle;
    }

    /// Whether it holds an atlas.
    pub fn holds(&mut self) -> bool {
        !self.at.is_null()
    }

    /// A handle that holds what was taken apart.
    pub fn close(held: Held<AtlasAllocator, Global>) -> AtlasHandle {
        let Held { at, alloc: _ } = held;
        AtlasHandle { at: at as *mut u8 }
    }

    /// What it holds, taken apart. Requires that it holds an atlas.
    pub fn open(alloc: Global, handle: AtlasHandle) -> Held<AtlasAllocator, Global> {
        let AtlasHandle { at } = handle;
        Held {
            at: at as *mut AtlasAllocator,
            alloc,
        }
    }
}

impl AtlasHandle {
    /// Takes the atlas out; the handle holds nothing then. Requires that it holds an atlas.
    pub fn take(&mut self, alloc: Global) -> Box<AtlasAllocator> {
        let handle = replace(self, AtlasHandle::none());
        release(AtlasHandle::open(alloc, handle))
    }

    /// Puts an atlas in. Requires that the handle holds nothing.
    pub fn put(&mut self, atlas: Box<AtlasAllocator>) {
        let empty = replace(self, AtlasHandle::close(hold(atlas)));
        AtlasHandle::forget(empty);
    }
}

/// The place of an atlas for a call that only reads: what lies at the pointer is lent to it, and any number of
/// such calls may run at once.
#[repr(C)]
pub struct AtlasReader {
    at: *const u8,
}

impl AtlasReader {
    /// Whether it holds an atlas.
    pub fn holds(&self) -> bool {
        !self.at.is_null()
    }

    /// The atlas. Requires that it holds one.
    pub fn lent(&self) -> &AtlasAllocator {
        unsafe { &*(self.at as *const AtlasAllocator) }
    }
}
