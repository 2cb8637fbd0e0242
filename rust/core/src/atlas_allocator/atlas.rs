// Erased from crates/atlas_allocator/src/atlas.rt by rust/erase: don't edit.
//! The atlas allocator.

pub mod image;
pub mod iter;
pub mod queries;
pub mod rearranging;
pub mod rehearsing;
pub mod requesting;
pub mod reserving;
pub mod room;
pub mod walks;

use crate::atlas_allocator::atlas::rearranging::{refit, sort_for_refit};
use crate::atlas_model::{
    AllocId, Allocation, AllocatorOptions, AtlasError, ChangeList, Rectangle, Size, SlotCount,
    DEFAULT_OPTIONS, MOST_SLOTS,
};
use crate::atlas_search::link::{Link, NO_SLOT};
use crate::atlas_store::slots::walks::{named_slot, slot_number};
use crate::atlas_store::slots::NodeKind;
use crate::atlas_store::store::Store;
use crate::atlas_tree::freeing::free_leaf;
use crate::atlas_tree::growth::{grow_tree, grow_whole, growth_for, slots_for};
use wollemigo_support::alloc::{Allocator, Global};
use wollemigo_support::prelude::Vec;

use core::ops::Index;

/// Hands out rectangles inside one large rectangle, the atlas, takes them back and joins free space at once.
///
/// The atlas is a tree of cuts: its allocated and free rectangles are the leaves, and
/// tile it. Freeing takes no memory; allocating and growing take it only if more slots are used than at any time since the
/// last start, and never for slots that `reserve` made ready. A new atlas takes 44 bytes on the heap, for its one slot;
/// for a second one there are 352, for eight, and the memory for a ninth one comes with 11,656 for the table of its lists of
/// free rectangles, once.
pub struct AtlasAllocator<A: Allocator + Copy = Global> {
    store: Store<A>,
    first: Link,
    used: u32,
    size: Size,
    limit: u32,
}

impl<A: Allocator + Copy> AtlasAllocator<A> {
    /// An atlas of this size, in pixels, with the default options: one free rectangle. Requires a size that isn't empty.
    /// `Memory` is the only error.
    #[inline]
    pub fn new(alloc: A, size: Size) -> Result<Self, AtlasError> {
        AtlasAllocator::with_options(alloc, size, &DEFAULT_OPTIONS)
    }

    /// An atlas of this size, in pixels, with these options: one free rectangle. Requires a size that isn't empty and valid options.
    #[inline]
    pub fn with_options(
        alloc: A,
        size: Size,
        options: &AllocatorOptions,
    ) -> Result<Self, AtlasError> {
        AtlasAllocator::with_slot_limit(alloc, size, options, MOST_SLOTS)
    }

    /// An atlas of this size with these options, and a limit on the slots that are used at once. Requires a size that isn't
    /// empty, valid options and a limit from 1 to 16777216.
    #[inline]
    pub fn with_slot_limit(
        alloc: A,
        size: Size,
        options: &AllocatorOptions,
        limit: u32,
    ) -> Result<Self, AtlasError> {
        let store = Store::new(alloc, size, options)?;
        Ok(AtlasAllocator {
            store,
            first: Link { number: 0 },
            used: 1,
            size,
            limit,
        })
    }

    /// The size of the atlas, in pixels.
    #[inline]
    #[must_use]
    pub fn size(&self) -> Size {
        self.size
    }

    /// Whether no id is live.
    #[inline]
    #[must_use]
    pub fn is_empty(&self) -> bool {
        let first = self.store.node(self.first);
        first.kind == NodeKind::Free && first.next.number == NO_SLOT
    }

    /// How many slots are used, the most that were used at once since the last start, and how many may be used. There
    /// is memory for the second number at least.
    #[inline]
    #[must_use]
    pub fn slots(&self) -> SlotCount {
        SlotCount {
            used: self.used,
            kept: self.store.slots().len() as u32,
            limit: self.limit,
        }
    }

    /// The rectangle of a live id, in pixels; None for every other id.
    #[inline]
    #[must_use]
    pub fn get(&self, id: AllocId) -> Option<Rectangle> {
        let slots = self.store.slots();
        let at = named_slot(slots, id)?;
        Some(slots[at].area)
    }

    /// Grants a request: a rectangle of the rounded size, at the `min` of the free rectangle that is picked. None if the
    /// size is empty, if a rounded side passes 2147483647, or if the rounded size fits no free rectangle. `Slots` if more
    /// slots would be used than the limit allows; `Memory` if more would be used than at any time since the last start, and
    /// memory for them is refused. Unless something is granted, nothing changes. Takes no turns. At most 4 more slots are
    /// used: with 4 in reserve the answer is never `Memory`.
    #[inline]
    pub fn allocate(&mut self, requested_size: Size) -> Result<Option<Allocation>, AtlasError> {
        self.request(requested_size)
    }

    /// Frees the box of an id: it joins the free space next to it. `NotLive` if the id isn't live, and then nothing
    /// changes. Takes no memory, and one turn plus one for each member that disappears. A turn marks a leaf as free, joins it
    /// with the next one or lifts it into its container's place; links of lists are written in addition to the turns.
    #[inline]
    pub fn deallocate(&mut self, id: AllocId) -> Result<(), AtlasError> {
        if !self.is_live(id) {
            return Err(AtlasError::NotLive);
        }
        self.free(id);
        Ok(())
    }

    /// Frees the boxes of the ids of a list. The tree that is left doesn't depend on their order; the numbers of later
    /// ids may. `NotLive` if one of them isn't live or is listed twice, and then nothing changes. Takes no memory, time in
    /// proportion to the list, and one turn for each id plus one for each member that disappears.
    #[inline]
    pub fn deallocate_all(&mut self, ids: &[AllocId]) -> Result<(), AtlasError> {
        if !self.are_live_once(ids) {
            return Err(AtlasError::NotLive);
        }
        for id in ids {
            self.free(*id);
        }
        Ok(())
    }

    /// Makes the atlas larger; every live id keeps its rectangle. Requires that neither side shrinks. If the atlas is a single
    /// free rectangle, that is enlarged. Otherwise, first along the top sequence, a free last member is enlarged or a free strip is
    /// appended, and then, across it, a free strip along the whole side; each only
    /// if that side grows. `Slots` if more slots would be used than the limit allows; `Memory` if more would be used
    /// than at any time since the last start, and memory for them is refused; then nothing changes. Takes no turns, and one
    /// pass along the top sequence for each side that grows. At most 3 more slots are used: with 3 in reserve the
    /// answer is never `Memory`.
    #[inline]
    pub fn grow(&mut self, new_size: Size) -> Result<(), AtlasError> {
        if self.is_empty() {
            self.grow_box(new_size);
            return Ok(());
        }
        let growth = growth_for(&self.store, self.first, self.size, new_size);
        let added = slots_for(&self.store, growth);
        self.store.make_room(self.used, self.limit, added)?;
        self.first = grow_tree(&mut self.store, self.first, growth);
        self.used += added;
        self.size = new_size;
        Ok(())
    }

    /// `resize_and_rearrange` at the present size. Each slot is then in its first generation.
    #[inline]
    pub fn rearrange(&mut self) -> Result<ChangeList<A>, AtlasError> {
        self.resize_and_rearrange(self.size)
    }

    /// Repacks what is allocated into an empty atlas of this size, the largest first; the options and the limit stay.
    /// Requires a size that isn't empty. The rectangles are taken in order of descending area, where areas count up to
    /// 2147483647, and of descending slot, the low 24 bits of the id, where areas are equal; each is placed where it
    /// then fits, or else listed as a failure, whose id is no longer live. All former ids are void, and each slot is in
    /// its first generation. `Slots` if on the way more slots would be used than the limit allows; `Memory` if memory
    /// is refused; then nothing changes. Takes no turns.
    #[inline]
    pub fn resize_and_rearrange(&mut self, new_size: Size) -> Result<ChangeList<A>, AtlasError> {
        let order = self.refit_order()?;
        let alloc = self.store.allocator();
        let options = self.store.options();
        let mut placed = AtlasAllocator::with_slot_limit(alloc, new_size, &options, self.limit)?;
        let list = refit(&mut placed, order)?;
        self.become_like(placed);
        Ok(list)
    }

    // What is allocated, in the order in which it is placed anew.
    #[inline]
    fn refit_order(&self) -> Result<Vec<Allocation, A>, AtlasError> {
        let mut boxes = self.allocations()?;
        sort_for_refit(&mut boxes);
        Ok(boxes)
    }

    // Stores what another atlas stores. The turns stay.
    #[inline]
    fn become_like(&mut self, other: AtlasAllocator<A>) {
        let AtlasAllocator {
            store,
            first,
            used,
            size,
            limit,
        } = other;
        self.store.replace(store);
        (self.first, self.used) = (first, used);
        (self.size, self.limit) = (size, limit);
    }

    /// Starts again at the present size, options and limit: one free rectangle, no id live, each slot in its first
    /// generation. Always Ok. Keeps the room of the slots, and takes no memory and no turns.
    #[inline]
    pub fn clear(&mut self) -> Result<(), AtlasError> {
        let size = self.size;
        let options = self.store.options();
        self.restart(size, &options);
        Ok(())
    }

    /// Starts again at this size, in pixels, and with these options; the limit stays. Requires a size that isn't empty and
    /// valid options. Always Ok. Keeps the room of the slots, and takes no memory and no turns.
    #[inline]
    pub fn reset(&mut self, size: Size, options: &AllocatorOptions) -> Result<(), AtlasError> {
        self.restart(size, options);
        Ok(())
    }

    /// A copy: the whole stored value is equal, slots, generations and lists included, and so are its answers to later
    /// calls, except where memory is refused. Its turns begin at 0. `Memory` is the only error.
    #[inline]
    pub fn clone(&self) -> Result<Self, AtlasError> {
        let store = self.store.copy()?;
        let used = self.used;
        Ok(AtlasAllocator {
            store,
            first: self.first,
            used,
            size: self.size,
            limit: self.limit,
        })
    }

    // One free slot of this size, with these options; the limit stays.
    #[inline]
    fn restart(&mut self, whole: Size, options: &AllocatorOptions) {
        self.store.start(whole, options);
        self.first = Link { number: 0 };
        self.used = 1;
        self.size = whole;
    }

    // Enlarges the one free box of an atlas in which nothing is live.
    #[inline]
    fn grow_box(&mut self, size: Size) {
        grow_whole(&mut self.store, self.first, size);
        self.size = size;
    }

    // Whether each of these ids is live, and none is there twice.
    #[inline]
    fn are_live_once(&mut self, ids: &[AllocId]) -> bool {
        self.store.are_named_once(ids)
    }

    // Whether an id is live.
    #[inline]
    fn is_live(&self, id: AllocId) -> bool {
        named_slot(self.store.slots(), id).is_some()
    }

    // Frees the box of a live id.
    #[inline]
    fn free(&mut self, id: AllocId) {
        let number = slot_number(id);
        let given = free_leaf(&mut self.store, Link { number });
        self.used -= given;
    }
}

/// The slots and the options, for a simple allocator that takes over the free rectangles. `guillotiere` doesn't
/// re-export this function.
#[inline]
#[must_use]
pub fn store_of<A: Allocator + Copy>(atlas: &AtlasAllocator<A>) -> &Store<A> {
    &atlas.store
}

impl<A: Allocator + Copy> Index<AllocId> for AtlasAllocator<A> {
    type Output = Rectangle;

    /// The rectangle of an id. Requires that the id is live, which `get` tests.
    #[inline]
    fn index(&self, id: AllocId) -> &Rectangle {
        let slots = self.store.slots();
        match named_slot(slots, id) {
            Some(at) => &slots[at].area,
            None => unreachable!(),
        }
    }
}
