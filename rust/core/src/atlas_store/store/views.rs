// Erased from crates/atlas_store/src/store/views.rt by rust/erase: don't edit.
//! What is read of a store: its slots, its options and its allocator; and a test of ids by its slots.

use crate::atlas_model::{AllocId, AllocatorOptions};
use crate::atlas_search::bands::Scale;
use crate::atlas_store::slots::{self, Slot};
use crate::atlas_store::store::Store;
use wollemigo_support::alloc::Allocator;

impl<A: Allocator> Store<A> {
    /// The slots, by their numbers.
    #[inline]
    #[must_use]
    pub fn slots(&self) -> &[Slot] {
        &self.slots
    }

    /// The options.
    #[inline]
    #[must_use]
    pub fn options(&self) -> AllocatorOptions {
        self.options.plain()
    }

    /// The options as a search reads them.
    #[inline]
    #[must_use]
    pub fn scale(&self) -> Scale {
        self.options.copy()
    }

    /// The allocator that memory for slots comes from.
    #[inline]
    #[must_use]
    pub fn allocator(&self) -> A
    where
        A: Copy,
    {
        *self.slots.allocator()
    }

    /// Whether each of these ids names an allocated slot, and none is there twice. What is stored is the same then.
    #[inline]
    pub fn are_named_once(&mut self, ids: &[AllocId]) -> bool {
        slots::batch::are_named_once(&mut self.slots, ids)
    }
}
