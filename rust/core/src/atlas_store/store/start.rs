// Erased from crates/atlas_store/src/store/start.rt by rust/erase: don't edit.
//! The start of an atlas: one free slot, as large as the atlas. And a store that takes another's place.

use crate::atlas_model::{AllocatorOptions, Rectangle, Size};
use crate::atlas_search::bands::Scale;
use crate::atlas_search::cut::Orientation;
use crate::atlas_search::link::Link;
use crate::atlas_search::table::Table;
use crate::atlas_store::slots::lists::Recent;
use crate::atlas_store::slots::{NodeKind, Slot};
use crate::atlas_store::store::turns::Turns;
use crate::atlas_store::store::Store;
use wollemigo_support::alloc::{AllocError, Allocator};
use wollemigo_support::prelude::Vec;

// The one slot of an atlas of this size.
#[inline]
fn whole_slot(size: Size) -> Slot {
    let none = Link::NONE;
    Slot {
        parent: none,
        previous: none,
        next: none,
        area: Rectangle::from(size),
        up: none,
        left: none,
        right: none,
        kind: NodeKind::Free,
        axis: Orientation::Vertical,
        generation: 0,
        is_fork: false,
    }
}

impl<A: Allocator> Store<A> {
    /// One free slot of this size, in its list, and no other slot.
    #[inline]
    pub fn new(alloc: A, size: Size, options: &AllocatorOptions) -> Result<Store<A>, AllocError>
    where
        A: Copy,
    {
        let mut store = Store {
            slots: Vec::with_capacity(alloc, 1)?,
            lists: Table::new(alloc),
            unused: Link::NONE,
            options: Scale::new(options),
            turns: Turns::new(),
            recent: Recent::NONE,
        };
        store.start(size, options);
        Ok(store)
    }

    /// One free slot of this size, in its list, and no other slot. Takes no memory.
    #[inline]
    pub fn start(&mut self, size: Size, options: &AllocatorOptions) {
        self.slots.clear();
        self.slots.push_reserved(whole_slot(size));
        self.lists.clear();
        self.unused = Link::NONE;
        self.recent = Recent::NONE;
        self.options.set(options);
        self.list(Link { number: 0 });
    }

    /// Holds what another store holds, in the memory of that one. The turns stay.
    #[inline]
    pub fn replace(&mut self, other: Store<A>) {
        self.slots = other.slots;
        self.lists = other.lists;
        self.unused = other.unused;
        self.options = other.options;
        self.recent = other.recent;
    }
}
