//! Persistence by calls: an allocator that records them, and recordings that can be kept and taken up again. Needs the feature
//! `recording`, which is on by default.
//!
//! With serde an [`AtlasAllocator`](crate::AtlasAllocator) is written as its slots, which is shorter once there were many calls. What is
//! kept here is the list of calls with their answers, a [`Recording`]: `resume` carries them out once more in a new allocator and compares
//! each answer before the allocator is given out, so that an allocator that is read is one to which those calls led.
//!
//! ```
//! use guillotiere::recording::{RecordingAllocator, ResumeError};
//! use guillotiere::size2;
//!
//! let mut atlas = RecordingAllocator::new(size2(512, 512));
//! let glyph = atlas.allocate(size2(20, 30)).unwrap();
//! let mut kept = atlas.recording();
//!
//! let mut resumed = kept.resume().unwrap();
//! assert_eq!(resumed.allocations(), [glyph]);
//! resumed.deallocate(glyph.id);
//!
//! kept.size = size2(10, 10);
//! assert_eq!(kept.resume().err(), Some(ResumeError::Differs(0)));
//! ```
//!
//! A recording allocator hands out names in place of ids: the `AllocId`s 0, 1, 2, .. in the order of the grants. None
//! is given twice, and a rearranging leaves each live rectangle its name.
//!
//! With the feature `serialization` a `Recording` and an [`Event`] are written and read as they are, and a
//! [`RecordingAllocator`] as its recording, which is resumed as soon as it is read. The form: a recording is a struct of
//! `size`, `options` and `events`; an event is a variant with the name that it has here, and one value:
//!
//! | event | its value |
//! |---|---|
//! | `Allocate` | `(size, allocation)`, or `(size, none)` if there was no room |
//! | `Deallocate` | the name |
//! | `Grow` | the size |
//! | `Rearrange` | `(changes, failures)`, lists of pairs `(allocation, allocation)`, old and new, and of allocations |
//! | `ResizeAndRearrange` | `(size, (changes, failures))` |
//!
//! A size is `(width, height)`, a name a number, and an allocation `(name, (min.x, min.y, max.x, max.y))`.
use crate::error::expected;
use crate::{
    convert, AllocId, Allocation, AllocatorOptions, AtlasError, ChangeList, Rectangle, Size,
    SlotCount, DEFAULT_OPTIONS,
};
use alloc::vec::Vec;
use core::fmt;
use wollemigo_core::guillotiere as library_atlas;
use wollemigo_core::guillotiere_recording as library;
use wollemigo_core::guillotiere_total::recording as total;
use wollemigo_support::alloc::Global;

mod events;
mod kept;

pub use self::kept::{Event, Recording, ResumeError};

/// An allocator that hands out names in place of ids, and records each of its calls that isn't refused. Rectangles lie
/// where an [`AtlasAllocator`](crate::AtlasAllocator) would place them.
///
/// A call panics where that of an `AtlasAllocator` does, and has a `try_` form that returns the error as a value; after
/// an error everything is as before, and nothing was recorded. Each call that is recorded takes memory for its event,
/// freeing too.
///
/// ```
/// use guillotiere::recording::RecordingAllocator;
/// use guillotiere::size2;
///
/// let mut atlas = RecordingAllocator::new(size2(64, 64));
/// let glyph = atlas.allocate(size2(20, 60)).unwrap();
/// let small = atlas.allocate(size2(4, 4)).unwrap();
/// assert_eq!((glyph.id.serialize(), small.id.serialize()), (0, 1)); // names
/// let _ = atlas.rearrange();
/// assert_eq!(atlas.allocations()[1].id, small.id); // the same after a rearranging
/// ```
pub struct RecordingAllocator {
    session: library::RecordingAllocator<Global>,
}

impl RecordingAllocator {
    /// An atlas of this size with `DEFAULT_OPTIONS`: one free rectangle, and nothing recorded.
    ///
    /// # Panics
    ///
    /// If a side is below 1, or memory runs out.
    #[track_caller]
    #[must_use]
    pub fn new(size: Size) -> Self {
        expected(RecordingAllocator::try_new(size))
    }

    /// `new` with the error as a value.
    ///
    /// # Errors
    ///
    /// `EmptySize` if a side is below 1, `Memory` if memory is refused.
    pub fn try_new(size: Size) -> Result<Self, AtlasError> {
        RecordingAllocator::try_with_options(size, &DEFAULT_OPTIONS)
    }

    /// A recording atlas of this size with these options: one free rectangle.
    ///
    /// # Panics
    ///
    /// Where `new` does, and if a side of the alignment is below 1 or the small threshold is above the large one.
    #[track_caller]
    #[must_use]
    pub fn with_options(size: Size, options: &AllocatorOptions) -> Self {
        expected(RecordingAllocator::try_with_options(size, options))
    }

    /// `with_options` with the error as a value.
    ///
    /// # Errors
    ///
    /// Those of `try_new`; `Alignment` if a side of the alignment is below 1, `Thresholds` if the small threshold is above the
    /// large one.
    pub fn try_with_options(size: Size, options: &AllocatorOptions) -> Result<Self, AtlasError> {
        let options = convert::library_options(options);
        let session = total::with_options(Global, convert::library_size(size), &options)?;
        Ok(RecordingAllocator { session })
    }

    /// A copy that shares nothing with this one, and goes on by itself: with the same rectangles under the same names, and the same
    /// recording.
    ///
    /// # Errors
    ///
    /// `Memory` if memory is refused.
    pub fn try_clone(&self) -> Result<Self, AtlasError> {
        let session = self.session.clone()?;
        Ok(RecordingAllocator { session })
    }

    /// The size of the atlas, in pixels.
    #[must_use]
    pub fn size(&self) -> Size {
        convert::size(self.session.size())
    }

    /// The options of the atlas.
    #[must_use]
    pub fn options(&self) -> AllocatorOptions {
        convert::options(&self.session.options())
    }

    /// How many slots are used, the most that were used at once since the last start, and how many may be used.
    #[must_use]
    pub fn slots(&self) -> SlotCount {
        convert::slots(self.session.slots())
    }

    /// Asks for a rectangle of this size; it gets the next name. None if a side is below 1, or the size, rounded up to
    /// the alignment, fits no free rectangle; that is recorded too.
    ///
    /// # Panics
    ///
    /// If memory or slots run out, or all `1 << 32` names were given.
    #[must_use = "the rectangle is taken until its name is freed"]
    #[track_caller]
    pub fn allocate(&mut self, requested_size: Size) -> Option<Allocation> {
        expected(self.try_allocate(requested_size))
    }

    /// `allocate` with the error as a value.
    ///
    /// # Errors
    ///
    /// `Names` if all names were given, `Slots` if more slots would be used than an atlas may use, `Memory` if memory is refused.
    pub fn try_allocate(&mut self, requested_size: Size) -> Result<Option<Allocation>, AtlasError> {
        let granted = self
            .session
            .allocate(convert::library_size(requested_size))?;
        Ok(granted.map(|granted| convert::allocation(&granted)))
    }

    /// Whether a request of this size has room: then `allocate` grants it, names, slots and memory aside; otherwise it
    /// answers None. Takes one search, and no memory.
    #[must_use]
    pub fn can_fit(&self, requested_size: Size) -> bool {
        self.session.can_fit(convert::library_size(requested_size))
    }

    /// Takes memory for this many slots beyond those in use, as `AtlasAllocator::try_reserve` does; it is not recorded.
    /// What is recorded and the names take memory in addition.
    ///
    /// # Errors
    ///
    /// `Slots` if an atlas may not use so many more, `Memory` if memory is refused.
    pub fn try_reserve(&mut self, additional: u32) -> Result<(), AtlasError> {
        Ok(self.session.reserve(additional)?)
    }

    /// Frees the rectangle of a live name.
    ///
    /// # Panics
    ///
    /// If the name isn't live, or memory runs out.
    #[track_caller]
    pub fn deallocate(&mut self, name: AllocId) {
        expected(self.try_deallocate(name));
    }

    /// `deallocate` with the error as a value.
    ///
    /// # Errors
    ///
    /// `NotLive` if the name isn't live, `Memory` if memory is refused.
    pub fn try_deallocate(&mut self, name: AllocId) -> Result<(), AtlasError> {
        Ok(self.session.deallocate(convert::library_id(name))?)
    }

    /// Makes the atlas larger; every live name keeps its rectangle.
    ///
    /// # Panics
    ///
    /// If a side shrinks, or memory or slots run out.
    #[track_caller]
    pub fn grow(&mut self, new_size: Size) {
        expected(self.try_grow(new_size));
    }

    /// `grow` with the error as a value.
    ///
    /// # Errors
    ///
    /// `Shrinks` if a side would be less than it is, `Slots` if more slots would be used than an atlas may use, `Memory` if memory is
    /// refused.
    pub fn try_grow(&mut self, new_size: Size) -> Result<(), AtlasError> {
        Ok(total::grow(
            &mut self.session,
            convert::library_size(new_size),
        )?)
    }

    /// Whether `grow` may be called with this size: no side shrinks.
    #[must_use]
    pub fn can_grow_to(&self, new_size: Size) -> bool {
        self.session.can_grow_to(convert::library_size(new_size))
    }

    /// `resize_and_rearrange` at the present size.
    ///
    /// # Panics
    ///
    /// If memory or slots run out.
    #[track_caller]
    pub fn rearrange(&mut self) -> ChangeList {
        expected(self.try_rearrange())
    }

    /// `rearrange` with the error as a value.
    ///
    /// # Errors
    ///
    /// `Slots` if more slots would be used than an atlas may use, `Memory` if memory is refused.
    pub fn try_rearrange(&mut self) -> Result<ChangeList, AtlasError> {
        self.rearranged(|session| Ok(session.rearrange()?))
    }

    /// Repacks what is allocated into an empty atlas of this size, the largest first. Each change has the same name in
    /// `old` and `new`; the name of a failure is no longer live.
    ///
    /// # Panics
    ///
    /// If a side is below 1, or memory or slots run out.
    #[track_caller]
    pub fn resize_and_rearrange(&mut self, new_size: Size) -> ChangeList {
        expected(self.try_resize_and_rearrange(new_size))
    }

    /// `resize_and_rearrange` with the error as a value.
    ///
    /// # Errors
    ///
    /// `EmptySize` if a side is below 1; those of `try_rearrange`.
    pub fn try_resize_and_rearrange(&mut self, new_size: Size) -> Result<ChangeList, AtlasError> {
        let new_size = convert::library_size(new_size);
        self.rearranged(|session| Ok(total::resize_and_rearrange(session, new_size)?))
    }

    // Memory for the lists comes first, so that nothing is refused after the rearranging.
    fn rearranged(
        &mut self,
        call: impl FnOnce(
            &mut library::RecordingAllocator<Global>,
        ) -> Result<library_atlas::ChangeList, AtlasError>,
    ) -> Result<ChangeList, AtlasError> {
        let live = self.live();
        let mut list = convert::change_list_for(live, live)?;
        let moved = call(&mut self.session)?;
        convert::fill_change_list(&mut list, &moved);
        Ok(list)
    }

    // How many names are live.
    fn live(&self) -> usize {
        let mut live = 0;
        self.session.for_each_allocated_rectangle(|_, _| live += 1);
        live
    }

    /// Calls `callback` on each free rectangle once, in an order that is left open.
    pub fn for_each_free_rectangle<F>(&self, mut callback: F)
    where
        F: FnMut(&Rectangle),
    {
        self.session
            .for_each_free_rectangle(|free: &library_atlas::Rectangle| {
                callback(&convert::rectangle(free))
            });
    }

    /// Calls `callback` on each live name and its rectangle once, by rising name.
    pub fn for_each_allocated_rectangle<F>(&self, mut callback: F)
    where
        F: FnMut(AllocId, &Rectangle),
    {
        self.session.for_each_allocated_rectangle(
            |name: library_atlas::AllocId, area: &library_atlas::Rectangle| {
                callback(convert::id(name), &convert::rectangle(area))
            },
        );
    }

    /// The live names with their rectangles, by rising name.
    ///
    /// # Panics
    ///
    /// If memory runs out.
    #[track_caller]
    #[must_use]
    pub fn allocations(&self) -> Vec<Allocation> {
        expected(self.try_allocations())
    }

    /// `allocations` with the error as a value.
    ///
    /// # Errors
    ///
    /// `Memory` if memory is refused.
    pub fn try_allocations(&self) -> Result<Vec<Allocation>, AtlasError> {
        let found = self.session.allocations()?;
        events::listed(found.as_slice(), convert::allocation)
    }

    /// A copy of what is recorded so far.
    ///
    /// # Panics
    ///
    /// If memory runs out.
    #[track_caller]
    #[must_use]
    pub fn recording(&self) -> Recording {
        expected(self.try_recording())
    }

    /// `recording` with the error as a value.
    ///
    /// # Errors
    ///
    /// `Memory` if memory is refused.
    pub fn try_recording(&self) -> Result<Recording, AtlasError> {
        let recorded = self.session.recording()?;
        let mut events = Vec::new();
        events
            .try_reserve_exact(recorded.events().len())
            .map_err(|_| AtlasError::Memory)?;
        for event in recorded.events() {
            events.push(events::event(event)?);
        }
        Ok(Recording {
            size: convert::size(recorded.size()),
            options: convert::options(&recorded.options()),
            events,
        })
    }
}

impl Clone for RecordingAllocator {
    #[track_caller]
    fn clone(&self) -> Self {
        expected(self.try_clone())
    }
}

impl fmt::Debug for RecordingAllocator {
    fn fmt(&self, f: &mut fmt::Formatter<'_>) -> fmt::Result {
        f.debug_struct("RecordingAllocator")
            .field("size", &self.size())
            .field("options", &self.options())
            .field("slots", &self.slots())
            .finish_non_exhaustive()
    }
}
