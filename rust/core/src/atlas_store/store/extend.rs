// Erased from crates/atlas_store/src/store/extend.rt by rust/erase: don't edit.
//! The calls of a store by which the top sequence of an atlas is extended.

use crate::atlas_model::Size;
use crate::atlas_search::link::Link;
use crate::atlas_store::slots::extending::{append_leaf, nest_top, stretch_leaf};
use crate::atlas_store::store::Store;
use wollemigo_support::alloc::Allocator;

impl<A: Allocator> Store<A> {
    /// A detached leaf, the last member of the top sequence, reaches to the far corner of a size.
    #[inline]
    pub fn stretch(&mut self, at: Link, size: Size) {
        stretch_leaf(&mut self.slots, at, size);
    }

    /// A detached leaf, the only member of the tree, becomes as large as a size.
    #[inline]
    pub fn stretch_whole(&mut self, at: Link, size: Size) {
        stretch_leaf(&mut self.slots, at, size);
    }

    /// The slot that is returned takes a free leaf after the last member of the top sequence, which reaches to the far
    /// corner of a size. It is detached.
    #[inline]
    pub fn append(&mut self, last: Link, size: Size) -> Link {
        let fresh = self.take();
        append_leaf(&mut self.slots, last, fresh, size);
        fresh
    }

    /// The top sequence, which begins at `first` and spans the size `inner`, is put into a new one along the other
    /// axis, and a free leaf after it reaches to the far corner of `size`. The answer is the slot that holds the old
    /// sequence, and that of the leaf, which is taken before it and is detached. One pass along the old sequence.
    #[inline]
    pub fn nest(&mut self, first: Link, inner: Size, size: Size) -> (Link, Link) {
        let strip = self.take();
        let container = self.take();
        nest_top(&mut self.slots, first, container, strip, inner, size);
        (container, strip)
    }
}
