//! The atlas allocator.
use crate::error::expected;
use crate::shown::Shown;
use crate::{
    convert, AllocId, Allocation, AllocatorOptions, Areas, AtlasError, Rectangle, Size, SlotCount,
    DEFAULT_OPTIONS,
};
use alloc::vec::Vec;
use core::fmt;
use core::ops::Index;
use wollemigo_core::guillotiere as library;
use wollemigo_core::guillotiere_total::atlas as total;
use wollemigo_support::alloc::Global;

#[cfg(feature = "serialization")]
mod images;
mod rearranging;

/// Hands out rectangles inside one large rectangle, the atlas, takes them back and joins free space at once.
///
/// ```
/// use guillotiere::{size2, AtlasAllocator};
///
/// let mut atlas = AtlasAllocator::new(size2(1024, 1024));
/// let glyph = atlas.allocate(size2(20, 60)).unwrap();
/// assert_eq!(atlas[glyph.id], glyph.rectangle);
/// assert_eq!(glyph.rectangle.size(), size2(20, 60));
/// atlas.deallocate(glyph.id);
/// assert!(atlas.is_empty());
/// ```
///
/// A call panics if its condition fails, or if memory or slots run out; the text of the panic says which. Each such
/// call has a `try_` form that returns the error as a value:
///
/// ```
/// use guillotiere::{size2, AtlasAllocator, AtlasError};
///
/// let mut atlas = AtlasAllocator::new(size2(64, 64));
/// assert_eq!(atlas.try_grow(size2(32, 99)), Err(AtlasError::Shrinks));
/// assert_eq!(atlas.size(), size2(64, 64));
/// ```
///
/// With the feature `serialization` an atlas is written as a struct of `size`, `options` and `slots`. The slots are the limit, the unused
/// slot that is taken next, and a list: what each slot is used for, a [`NodeKind`](crate::NodeKind); whether its sequence runs down; its
/// generation; the slots that hold it, come before it and after it, 4294967295 for none, where after an unused slot comes the next unused
/// one; and its rectangle, `(min.x, min.y, max.x, max.y)`. What is read is tested, and is an error unless it describes an atlas. Ids live on.
pub struct AtlasAllocator {
    atlas: library::AtlasAllocator<Global>,
    shown: Shown,
}

// At most so many more slots are used by one request.
const SLOTS_OF_A_REQUEST: usize = 4;

impl AtlasAllocator {
    fn over(made: library::AtlasAllocator<Global>) -> Self {
        AtlasAllocator {
            atlas: made,
            shown: Shown::new(),
        }
    }

    /// An atlas of this size with `DEFAULT_OPTIONS`: one free rectangle.
    ///
    /// ```
    /// use guillotiere::{size2, AtlasAllocator};
    ///
    /// let atlas = AtlasAllocator::new(size2(1024, 512));
    /// assert!(atlas.is_empty());
    /// ```
    ///
    /// # Panics
    ///
    /// If a side is below 1, or memory runs out.
    #[track_caller]
    #[must_use]
    pub fn new(size: Size) -> Self {
        expected(AtlasAllocator::try_new(size))
    }

    /// `new` with the error as a value.
    ///
    /// # Errors
    ///
    /// `EmptySize` if a side is below 1, `Memory` if memory is refused.
    pub fn try_new(size: Size) -> Result<Self, AtlasError> {
        AtlasAllocator::try_with_options(size, &DEFAULT_OPTIONS)
    }

    /// An atlas of this size with these options: one free rectangle.
    ///
    /// ```
    /// use guillotiere::{size2, AllocatorOptions, AtlasAllocator};
    ///
    /// let options = AllocatorOptions { alignment: size2(4, 4), ..AllocatorOptions::default() };
    /// let atlas = AtlasAllocator::with_options(size2(1024, 512), &options);
    /// assert_eq!(atlas.options(), options);
    /// ```
    ///
    /// # Panics
    ///
    /// Where `new` does, and if a side of the alignment is below 1 or the small threshold is above the large one.
    #[track_caller]
    #[must_use]
    pub fn with_options(size: Size, options: &AllocatorOptions) -> Self {
        expected(AtlasAllocator::try_with_options(size, options))
    }

    /// `with_options` with the error as a value.
    ///
    /// # Errors
    ///
    /// Those of `try_new`; `Alignment` if a side of the alignment is below 1, `Thresholds` if the small threshold is above the
    /// large one.
    pub fn try_with_options(size: Size, options: &AllocatorOptions) -> Result<Self, AtlasError> {
        let options = convert::library_options(options);
        let made = total::with_options(Global, convert::library_size(size), &options)?;
        Ok(AtlasAllocator::over(made))
    }

    /// An atlas of this size with these options, and a limit on the slots that are used at once, from 1 to `MOST_SLOTS`.
    ///
    /// # Errors
    ///
    /// Those of `try_with_options`; `SlotLimit` if the limit is none of these.
    pub fn try_with_slot_limit(
        size: Size,
        options: &AllocatorOptions,
        limit: u32,
    ) -> Result<Self, AtlasError> {
        let options = convert::library_options(options);
        let made = total::with_slot_limit(Global, convert::library_size(size), &options, limit)?;
        Ok(AtlasAllocator::over(made))
    }

    /// A copy that shares nothing with this one.
    ///
    /// # Errors
    ///
    /// `Memory` if memory is refused.
    pub fn try_clone(&self) -> Result<Self, AtlasError> {
        Ok(AtlasAllocator {
            atlas: self.atlas.clone()?,
            shown: self.shown.try_clone()?,
        })
    }

    /// The size of the atlas, in pixels.
    #[must_use]
    pub fn size(&self) -> Size {
        convert::size(self.atlas.size())
    }

    /// The options of the atlas.
    #[must_use]
    pub fn options(&self) -> AllocatorOptions {
        convert::options(&self.atlas.options())
    }

    /// Whether no id is live.
    #[must_use]
    pub fn is_empty(&self) -> bool {
        self.atlas.is_empty()
    }

    /// How many slots are used, the most that were used at once since the last start, and how many may be used.
    #[must_use]
    pub fn slots(&self) -> SlotCount {
        convert::slots(self.atlas.slots())
    }

    /// The areas of all live and of all free rectangles, in unit squares. Two passes over the slots. With `unusable_area` they tell how
    /// full an atlas is, and how much of what is free is of use for a size.
    #[must_use]
    pub fn areas(&self) -> Areas {
        Areas {
            allocated: self.atlas.allocated_area(),
            free: self.atlas.free_area(),
        }
    }

    /// The area that is free in rectangles which have no room for a request of this size, rounded up to the alignment, in unit squares: all
    /// that is free, if a side is below 1. Asked with the usual size it says how fragmented the atlas is: where that is much of
    /// what is free, it is time to rearrange. One pass over the slots, and no memory.
    ///
    /// ```
    /// use guillotiere::{size2, AtlasAllocator};
    ///
    /// let mut atlas = AtlasAllocator::new(size2(64, 64));
    /// let _ = atlas.allocate(size2(64, 40));
    /// let _ = atlas.allocate(size2(10, 24));
    /// let areas = atlas.areas();
    /// assert_eq!(areas.allocated * 100 / (areas.allocated + areas.free), 68); // percent
    /// assert_eq!(atlas.unusable_area(size2(54, 24)), 0);
    /// assert_eq!(atlas.unusable_area(size2(60, 20)), areas.free); // nothing has room for 60 by 20
    /// ```
    #[must_use]
    pub fn unusable_area(&self, requested_size: Size) -> u64 {
        self.atlas
            .unusable_area(convert::library_size(requested_size))
    }

    /// The free rectangle of the largest area; of several the topmost one, and of these the leftmost. None if nothing is free. A request of
    /// that area, but of other sides, needn't have room: `can_fit` tells. One pass over the slots, and no memory.
    ///
    /// ```
    /// use guillotiere::{size2, AtlasAllocator};
    ///
    /// let mut atlas = AtlasAllocator::new(size2(64, 64));
    /// let _ = atlas.allocate(size2(64, 60));
    /// assert_eq!(atlas.largest_free().unwrap().size(), size2(64, 4));
    /// ```
    #[must_use]
    pub fn largest_free(&self) -> Option<Rectangle> {
        let found = self.atlas.largest_free()?;
        Some(convert::rectangle(&found))
    }

    /// The rectangle of a live id; None for every other id.
    ///
    /// ```
    /// use guillotiere::{size2, AtlasAllocator};
    ///
    /// let mut atlas = AtlasAllocator::new(size2(64, 64));
    /// let glyph = atlas.allocate(size2(20, 60)).unwrap();
    /// assert_eq!(atlas.get(glyph.id), Some(glyph.rectangle));
    /// atlas.deallocate(glyph.id);
    /// assert_eq!(atlas.get(glyph.id), None);
    /// ```
    #[inline]
    #[must_use]
    pub fn get(&self, id: AllocId) -> Option<Rectangle> {
        let found = self.atlas.get(convert::library_id(id))?;
        Some(convert::rectangle(&found))
    }

    /// Asks for a rectangle of this size. None if a side is below 1, or the size, rounded up to the alignment, fits no
    /// free rectangle.
    ///
    /// ```
    /// use guillotiere::{size2, AtlasAllocator};
    ///
    /// let mut atlas = AtlasAllocator::new(size2(64, 64));
    /// assert!(atlas.allocate(size2(64, 40)).is_some());
    /// assert!(atlas.allocate(size2(64, 40)).is_none()); // no room
    /// assert!(atlas.allocate(size2(0, 40)).is_none()); // nothing to place
    /// ```
    ///
    /// # Panics
    ///
    /// If memory or slots run out.
    #[must_use = "the rectangle is taken until its id is freed"]
    #[track_caller]
    #[inline]
    pub fn allocate(&mut self, requested_size: Size) -> Option<Allocation> {
        expected(self.try_allocate(requested_size))
    }

    /// `allocate` with the error as a value.
    ///
    /// # Errors
    ///
    /// `Slots` if more slots would be used than the limit allows, `Memory` if memory is refused.
    #[inline]
    pub fn try_allocate(&mut self, requested_size: Size) -> Result<Option<Allocation>, AtlasError> {
        self.shown
            .reserve(self.atlas.slots().kept as usize + SLOTS_OF_A_REQUEST)?;
        let granted = self.atlas.allocate(convert::library_size(requested_size))?;
        Ok(granted.map(|granted| {
            let granted = convert::allocation(&granted);
            self.shown.put(&granted);
            granted
        }))
    }

    /// Whether a request of this size has room: then `allocate` grants it, slots and memory aside; otherwise it
    /// answers None. Takes a look at a few free rectangles, and a search where none of these has room; no memory.
    ///
    /// ```
    /// use guillotiere::{size2, AtlasAllocator};
    ///
    /// let atlas = AtlasAllocator::new(size2(64, 64));
    /// assert!(atlas.can_fit(size2(64, 64)) && !atlas.can_fit(size2(65, 1)));
    /// ```
    #[must_use]
    pub fn can_fit(&self, requested_size: Size) -> bool {
        self.atlas.can_fit(convert::library_size(requested_size))
    }

    /// Takes memory for this many slots beyond those in use; nothing else changes. While there is memory for 4
    /// more slots no request is refused memory, and for 3 no growth; a request uses at most 4, a growth at most 3, a
    /// freeing none. The memory stays until the atlas is rearranged or dropped, and a copy has none of it.
    ///
    /// ```
    /// use guillotiere::{size2, AtlasAllocator};
    ///
    /// let mut atlas = AtlasAllocator::new(size2(64, 64));
    /// atlas.try_reserve(4)?; // the next request takes no memory for slots
    /// assert!(atlas.allocate(size2(20, 60)).is_some());
    /// # Ok::<(), guillotiere::AtlasError>(())
    /// ```
    ///
    /// # Errors
    ///
    /// `Slots` if so many more would pass the limit, `Memory` if memory is refused.
    pub fn try_reserve(&mut self, additional: u32) -> Result<(), AtlasError> {
        self.atlas.reserve(additional)?;
        let slots = self.atlas.slots();
        let kept = slots.kept.max(slots.used + additional);
        self.shown.reserve(kept as usize + SLOTS_OF_A_REQUEST)
    }

    /// Frees the rectangle of a live id. Takes no memory.
    ///
    /// ```
    /// use guillotiere::{size2, AtlasAllocator};
    ///
    /// let mut atlas = AtlasAllocator::new(size2(64, 64));
    /// let glyph = atlas.allocate(size2(64, 40)).unwrap();
    /// atlas.deallocate(glyph.id);
    /// assert!(atlas.can_fit(size2(64, 64))); // what is free was joined
    /// ```
    ///
    /// # Panics
    ///
    /// If the id isn't live.
    #[track_caller]
    #[inline]
    pub fn deallocate(&mut self, node_id: AllocId) {
        expected(self.try_deallocate(node_id));
    }

    /// `deallocate` with the error as a value.
    ///
    /// # Errors
    ///
    /// `NotLive` if the id isn't live.
    #[inline]
    pub fn try_deallocate(&mut self, node_id: AllocId) -> Result<(), AtlasError> {
        Ok(self.atlas.deallocate(convert::library_id(node_id))?)
    }

    /// Frees the rectangles of a list of ids, all or none.
    ///
    /// ```
    /// use guillotiere::{size2, AtlasAllocator};
    ///
    /// let mut atlas = AtlasAllocator::new(size2(64, 64));
    /// let ids: Vec<_> = (0..3).map(|_| atlas.allocate(size2(8, 8)).unwrap().id).collect();
    /// assert!(atlas.try_deallocate_all(&[ids[0], ids[0]]).is_err()); // listed twice: nothing goes
    /// atlas.try_deallocate_all(&ids)?;
    /// assert!(atlas.is_empty());
    /// # Ok::<(), guillotiere::AtlasError>(())
    /// ```
    ///
    /// # Errors
    ///
    /// `NotLive` if one isn't live or is listed twice, `Memory` if memory is refused.
    pub fn try_deallocate_all(&mut self, ids: &[AllocId]) -> Result<(), AtlasError> {
        let mut library_ids = Vec::new();
        library_ids
            .try_reserve_exact(ids.len())
            .map_err(|_| AtlasError::Memory)?;
        library_ids.extend(ids.iter().map(|id| convert::library_id(*id)));
        Ok(self.atlas.deallocate_all(&library_ids)?)
    }

    /// Starts again at the present size and options; no id is live then. Takes no memory.
    ///
    /// ```
    /// use guillotiere::{size2, AtlasAllocator};
    ///
    /// let mut atlas = AtlasAllocator::new(size2(64, 64));
    /// let glyph = atlas.allocate(size2(20, 60)).unwrap();
    /// atlas.clear();
    /// assert!(atlas.is_empty() && atlas.get(glyph.id).is_none());
    /// ```
    pub fn clear(&mut self) {
        expected(self.atlas.clear().map_err(AtlasError::from));
    }

    /// Starts again at this size and with these options; no id is live then. Takes no memory.
    ///
    /// # Panics
    ///
    /// If a side of the size or of the alignment is below 1, or the small threshold is above the large one.
    #[track_caller]
    pub fn reset(&mut self, size: Size, options: &AllocatorOptions) {
        expected(self.try_reset(size, options));
    }

    /// `reset` with the error as a value.
    ///
    /// # Errors
    ///
    /// `EmptySize` if a side is below 1, `Alignment` if one of the alignment is, `Thresholds` if the small threshold is above the large
    /// one.
    pub fn try_reset(&mut self, size: Size, options: &AllocatorOptions) -> Result<(), AtlasError> {
        let options = convert::library_options(options);
        Ok(total::reset(
            &mut self.atlas,
            convert::library_size(size),
            &options,
        )?)
    }

    /// Makes the atlas larger; every live id keeps its rectangle.
    ///
    /// ```
    /// use guillotiere::{size2, AtlasAllocator};
    ///
    /// let mut atlas = AtlasAllocator::new(size2(64, 64));
    /// let glyph = atlas.allocate(size2(64, 64)).unwrap();
    /// atlas.grow(size2(128, 64));
    /// assert_eq!(atlas[glyph.id], glyph.rectangle); // nothing moved
    /// assert!(atlas.can_fit(size2(64, 64)));
    /// ```
    ///
    /// # Panics
    ///
    /// If a side shrinks, or memory or slots run out.
    #[track_caller]
    pub fn grow(&mut self, new_size: Size) {
        expected(self.try_grow(new_size));
    }

    /// `grow` with the error as a value.
    ///
    /// # Errors
    ///
    /// `Shrinks` if a side would be less than it is, `Slots` if more slots would be used than the limit allows, `Memory` if memory is
    /// refused.
    pub fn try_grow(&mut self, new_size: Size) -> Result<(), AtlasError> {
        Ok(total::grow(
            &mut self.atlas,
            convert::library_size(new_size),
        )?)
    }

    /// Whether `grow` may be called with this size: no side shrinks.
    #[must_use]
    pub fn can_grow_to(&self, new_size: Size) -> bool {
        self.atlas.can_grow_to(convert::library_size(new_size))
    }

    /// Calls `callback` on each free rectangle once, in an order that is left open.
    pub fn for_each_free_rectangle<F>(&self, mut callback: F)
    where
        F: FnMut(&Rectangle),
    {
        self.atlas
            .for_each_free_rectangle(|free: &library::Rectangle| {
                callback(&convert::rectangle(free))
            });
    }

    /// Calls `callback` on each live id and its rectangle once, by rising slot.
    pub fn for_each_allocated_rectangle<F>(&self, mut callback: F)
    where
        F: FnMut(AllocId, &Rectangle),
    {
        self.atlas.for_each_allocated_rectangle(
            |id: library::AllocId, area: &library::Rectangle| {
                callback(convert::id(id), &convert::rectangle(area))
            },
        );
    }

    pub(crate) fn library(&self) -> &library::AtlasAllocator<Global> {
        &self.atlas
    }
}

impl Index<AllocId> for AtlasAllocator {
    type Output = Rectangle;

    /// The rectangle of a live id.
    ///
    /// # Panics
    ///
    /// If the id isn't live.
    #[track_caller]
    #[inline]
    fn index(&self, index: AllocId) -> &Rectangle {
        let live = self.atlas.get(convert::library_id(index));
        expected(live.ok_or(AtlasError::NotLive));
        self.shown.of(index)
    }
}

impl Clone for AtlasAllocator {
    #[track_caller]
    fn clone(&self) -> Self {
        expected(self.try_clone())
    }
}

impl fmt::Debug for AtlasAllocator {
    fn fmt(&self, f: &mut fmt::Formatter<'_>) -> fmt::Result {
        f.debug_struct("AtlasAllocator")
            .field("size", &self.size())
            .field("options", &self.options())
            .field("slots", &self.slots())
            .finish_non_exhaustive()
    }
}
