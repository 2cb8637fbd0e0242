// Erased from crates/guillotiere_c/src/simple_handle.rt by rust/erase: don't edit.
//! What C holds of a simple allocator.

use crate::held::{hold, release, Held};
use wollemigo_core::guillotiere::SimpleAtlasAllocator;
use wollemigo_support::alloc::Global;
use wollemigo_support::prelude::Box;

use core::mem::replace;
use core::ptr::null_mut;

/// A place for a simple allocator: it holds one, or nothing, and then it is null.
#[repr(C)]
pub struct SimpleHandle {
    at: *mut u8,
}

impl SimpleHandle {
    /// A handle that holds nothing.
    pub fn none() -> SimpleHandle {
        SimpleHandle { at: null_mut() }
    }

    /// Drops a handle. Requires that it holds nothing, so that nothing is lost.
    pub fn forget(handle: SimpleHandle) {
        let SimpleHandle { at: _ } = handle;
    }

    /// Whether it holds a simple allocator.
    pub fn holds(&mut self) -> bool {
        !self.at.is_null()
    }

    /// A handle that holds what was taken apart.
    pub fn close(held: Held<SimpleAtlasAllocator, Global>) -> SimpleHandle {
        let Held { at, alloc: _ } = held;
        SimpleHandle { at: at as *mut u8 }
    }

    /// What it holds, taken apart. Requires that it holds a simple allocator.
    pub fn open(alloc: Global, handle: SimpleHandle) -> Held<SimpleAtlasAllocator, Global> {
        let SimpleHandle { at } = handle;
        Held {
            at: at as *mut SimpleAtlasAllocator,
            alloc,
        }
    }
}

impl SimpleHandle {
    /// Takes the allocator out; the handle holds nothing then. Requires that it holds a simple allocator.
    pub fn take(&mut self, alloc: Global) -> Box<SimpleAtlasAllocator> {
        let handle = replace(self, SimpleHandle::none());
        release(SimpleHandle::open(alloc, handle))
    }

    /// Puts a simple allocator in. Requires that the handle holds nothing.
    pub fn put(&mut self, simple: Box<SimpleAtlasAllocator>) {
        // Its contract says what each simple allocator keeps.
        let _size = simple.size();
        let empty = replace(self, SimpleHandle::close(hold(simple)));
        SimpleHandle::forget(empty);
    }
}

/// The place of a simple allocator for a call that only reads: what lies at the pointer is lent to it, and any number of
/// such calls may run at once.
#[repr(C)]
pub struct SimpleReader {
    at: *const u8,
}

impl SimpleReader {
    /// Whether it holds an allocator.
    pub fn holds(&self) -> bool {
        !self.at.is_null()
    }

    /// The allocator. Requires that it holds one.
    pub fn lent(&self) -> &SimpleAtlasAllocator {
        unsafe { &*(self.at as *const SimpleAtlasAllocator) }
    }
}
