// Erased from crates/guillotiere_recording/src/event.rt by rust/erase: don't edit.
//! Events: what was asked of an atlas and what it answered, with names in place of ids.

use crate::guillotiere::{AllocId, Allocation, ChangeList, Size};
use crate::guillotiere_recording::error::RecordingError;
use wollemigo_support::alloc::{Allocator, Global};

/// One call that wasn't refused, with its answer. Every id in it is a name.
#[derive(Debug, PartialEq)]
pub enum Event<A: Allocator + Copy = Global> {
    /// A request of this size, in pixels, and what it was granted; None if it had no room.
    Allocate(Size, Option<Allocation>),
    /// The box of this name was freed.
    Deallocate(AllocId),
    /// The atlas grew to this size, in pixels.
    Grow(Size),
    /// The atlas was rearranged.
    Rearrange(ChangeList<A>),
    /// The atlas was rearranged into this size, in pixels.
    ResizeAndRearrange(Size, ChangeList<A>),
}

impl<A: Allocator + Copy> Event<A> {
    /// A copy of the event. `Memory` is the only error.
    #[inline]
    pub fn clone(&self) -> Result<Event<A>, RecordingError> {
        Ok(match self {
            Event::Allocate(size, answer) => Event::Allocate(*size, *answer),
            Event::Deallocate(name) => Event::Deallocate(*name),
            Event::Grow(size) => Event::Grow(*size),
            Event::Rearrange(list) => Event::Rearrange(list.clone()?),
            Event::ResizeAndRearrange(size, list) => {
                Event::ResizeAndRearrange(*size, list.clone()?)
            }
        })
    }
}
