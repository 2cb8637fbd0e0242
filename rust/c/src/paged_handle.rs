// Erased from crates/guillotiere_c/src/paged_handle.rt by rust/erase: don't edit.
//! What C holds of boxes on several pages.

use crate::held::{hold, release, Held};
use wollemigo_core::atlas_pages::PagedAtlas;
use wollemigo_support::alloc::Global;
use wollemigo_support::prelude::Box;

use core::mem::replace;
use core::ptr::null_mut;

/// A place for boxes on several pages: it holds a paged atlas, or nothing, and then it is null.
#[repr(C)]
pub struct PagedHandle {
    at: *mut u8,
}

impl PagedHandle {
    /// A handle that holds nothing.
    pub fn none() -> PagedHandle {
        PagedHandle { at: null_mut() }
    }

    /// Drops a handle. Requires that it holds nothing, so that nothing is lost.
    pub fn forget(handle: PagedHandle) {
        let PagedHandle { at: _ } = handle;
    }

    /// Whether it holds a paged atlas.
    pub fn holds(&mut self) -> bool {
        !self.at.is_null()
    }

    /// A handle that holds what was taken apart.
    pub fn close(held: Held<PagedAtlas, Global>) -> PagedHandle {
        let Held { at, alloc: _ } = held;
        PagedHandle { at: at as *mut u8 }
    }

    /// What it holds, taken apart. Requires that it holds a paged atlas.
    pub fn open(alloc: Global, handle: PagedHandle) -> Held<PagedAtlas, Global> {
        let PagedHandle { at } = handle;
        Held {
            at: at as *mut PagedAtlas,
            alloc,
        }
    }
}

impl PagedHandle {
    /// Takes the paged atlas out; the handle holds nothing then. Requires that it holds a paged atlas.
    pub fn take(&mut self, alloc: Global) -> Box<PagedAtlas> {
        let handle = replace(self, PagedHandle::none());
        release(PagedHandle::open(alloc, handle))
    }

    /// Puts a paged atlas in. Requires that the handle holds nothing.
    pub fn put(&mut self, paged: Box<PagedAtlas>) {
        let empty = replace(self, PagedHandle::close(hold(paged)));
        PagedHandle::forget(empty);
    }
}

/// The place of boxes on several pages for a call that only reads: what lies at the pointer is lent to it, and any number of
/// such calls may run at once.
#[repr(C)]
pub struct PagedReader {
    at: *const u8,
}

impl PagedReader {
    /// Whether it holds a paged atlas.
    pub fn holds(&self) -> bool {
        !self.at.is_null()
    }

    /// The paged atlas. Requires that it holds one.
    pub fn lent(&self) -> &PagedAtlas {
        unsafe { &*(self.at as *const PagedAtlas) }
    }
}
