// Erased from crates/guillotiere_recording/src/allocator/queries.rt by rust/erase: don't edit.
//! What a recording allocator is asked without recording it: options, room, slots, a copy of the recording; and memory in reserve.

use crate::guillotiere::{AllocId, AllocatorOptions, Size, SlotCount};
use crate::guillotiere_recording::allocator::RecordingAllocator;
use crate::guillotiere_recording::error::RecordingError;
use crate::guillotiere_recording::recording::Recording;
use wollemigo_support::alloc::Allocator;
use wollemigo_support::prelude::Vec;

impl<A: Allocator + Copy> RecordingAllocator<A> {
    /// The options of the atlas.
    #[inline]
    #[must_use]
    pub fn options(&self) -> AllocatorOptions {
        self.atlas.options()
    }

    /// Whether `grow` may be called with this size, in pixels: neither side is less than the atlas's.
    #[inline]
    #[must_use]
    pub fn can_grow_to(&self, new_size: Size) -> bool {
        self.atlas.can_grow_to(new_size)
    }

    /// Whether a request of this size, in pixels, has room, as the atlas's `can_fit` says. Takes at most one search, and no memory.
    #[inline]
    #[must_use]
    pub fn can_fit(&self, requested_size: Size) -> bool {
        self.atlas.can_fit(requested_size)
    }

    /// How many slots are used, the most that were used at once since the last start, and how many may be used.
    #[inline]
    #[must_use]
    pub fn slots(&self) -> SlotCount {
        self.atlas.slots()
    }

    /// Takes memory for so many slots of the atlas in addition to those in use, as the atlas's `reserve` does. It is no call
    /// that is recorded: names and events stay, and what was in reserve beside stays so. `Slots` if more slots would be used than the
    /// limit allows; `Memory` if memory for them is refused; then nothing changes at all.
    #[inline]
    pub fn reserve(&mut self, additional: u32) -> Result<(), RecordingError> {
        Ok(self.atlas.reserve(additional)?)
    }

    /// A copy of what is recorded so far: what `finish` would answer. `Memory` is the only error.
    #[inline]
    pub fn recording(&self) -> Result<Recording<A>, RecordingError> {
        Ok(Recording::from_log(self.log.clone()?))
    }

    /// A copy, which goes on by itself: its atlas stores the same, its names and its recording are equal, and so are its answers to
    /// later calls, except where memory is refused. `Memory` is the only error.
    #[inline]
    pub fn clone(&self) -> Result<Self, RecordingError> {
        let atlas = self.atlas.clone()?;
        let names = Vec::from_slice(*self.names.allocator(), &self.names)?;
        let log = self.log.clone()?;
        Ok(RecordingAllocator {
            atlas,
            names,
            given: self.given,
            log,
        })
    }

    // Whether this is the name of the next grant.
    #[inline]
    pub(crate) fn gives(&self, name: AllocId) -> bool {
        name.serialize() as u64 == self.given
    }
}
