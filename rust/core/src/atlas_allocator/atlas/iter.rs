// Erased from crates/atlas_allocator/src/atlas/iter.rt by rust/erase: don't edit.
//! The live and the free rectangles, one after another, without a list.

use crate::atlas_allocator::atlas::AtlasAllocator;
use crate::atlas_model::{Allocation, Rectangle, MOST_SLOTS};
use crate::atlas_store::slots::walks::slot_id;
use crate::atlas_store::slots::{NodeKind, Slot};
use core::iter::FusedIterator;
use wollemigo_support::alloc::Allocator;

// The first free slot from this number on.
#[inline]
fn free_from(slots: &[Slot], from: usize) -> Option<usize> {
    for at in from..slots.len() {
        if slots[at].kind == NodeKind::Free {
            return Some(at);
        }
    }
    None
}

// The first allocated slot from this number on.
#[inline]
fn live_from(slots: &[Slot], from: usize) -> Option<usize> {
    for at in from..slots.len() {
        if slots[at].kind == NodeKind::Alloc {
            return Some(at);
        }
    }
    None
}

/// The live rectangles of an atlas with their ids, by rising number of the slot. Contracts see the list of what is still to come. A
/// step passes the slots up to the next live one, and takes no memory.
pub struct LiveIter<'a> {
    slots: &'a [Slot],
    // The number of the slot that comes next.
    next: usize,
}

/// The free rectangles of an atlas, in an order that is left open. Contracts see the list of what is still to come. A step passes the
/// slots up to the next free one, and takes no memory.
pub struct FreeIter<'a> {
    slots: &'a [Slot],
    // The number of the slot that comes next.
    next: usize,
}

impl<'a> LiveIter<'a> {
    /// A second one, which gives the same from here on. Takes no memory.
    #[inline]
    #[must_use]
    pub fn copy(&self) -> Self {
        let next = self.next;
        LiveIter {
            slots: self.slots,
            next,
        }
    }
}

impl<'a> FreeIter<'a> {
    /// A second one, which gives the same from here on. Takes no memory.
    #[inline]
    #[must_use]
    pub fn copy(&self) -> Self {
        FreeIter {
            slots: self.slots,
            next: self.next,
        }
    }
}

impl<'a> Iterator for LiveIter<'a> {
    type Item = Allocation;

    #[inline]
    fn next(&mut self) -> Option<Allocation> {
        let at = live_from(self.slots, self.next)?;
        self.next = at + 1;
        let slot = &self.slots[at];
        Some(Allocation {
            id: slot_id(at, slot.generation),
            rectangle: slot.area,
        })
    }
}

impl<'a> Iterator for FreeIter<'a> {
    type Item = Rectangle;

    #[inline]
    fn next(&mut self) -> Option<Rectangle> {
        let at = free_from(self.slots, self.next)?;
        self.next = at + 1;
        Some(self.slots[at].area)
    }
}

impl<'a> FusedIterator for LiveIter<'a> {}

impl<'a> FusedIterator for FreeIter<'a> {}

impl<A: Allocator + Copy> AtlasAllocator<A> {
    /// The live ids with their rectangles, by rising number of the slot, one after another. A walk to the end is one pass over the
    /// slots, and takes no memory.
    #[inline]
    #[must_use]
    pub fn iter(&self) -> LiveIter<'_> {
        let next = 0;
        LiveIter {
            slots: self.store.slots(),
            next,
        }
    }

    /// The free rectangles, in an order that is left open, one after another. A walk to the end is one pass over the slots, and
    /// takes no memory.
    #[inline]
    #[must_use]
    pub fn free_iter(&self) -> FreeIter<'_> {
        let first = 0;
        FreeIter {
            slots: self.store.slots(),
            next: first,
        }
    }
}

impl<'a, A: Allocator + Copy> IntoIterator for &'a AtlasAllocator<A> {
    type Item = Allocation;

    type IntoIter = LiveIter<'a>;

    #[inline]
    fn into_iter(self) -> LiveIter<'a> {
        self.iter()
    }
}
