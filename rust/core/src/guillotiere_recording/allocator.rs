// Erased from crates/guillotiere_recording/src/allocator.rt by rust/erase: don't edit.
//! The recording allocator: an atlas that hands out names in place of ids, and records its calls.

mod queries;

use crate::guillotiere::{
    AllocId, Allocation, AllocatorOptions, AtlasAllocator, ChangeList, Rectangle, Size,
    DEFAULT_OPTIONS,
};
use crate::guillotiere_recording::error::RecordingError;
use crate::guillotiere_recording::event::Event;
use crate::guillotiere_recording::log::Log;
use crate::guillotiere_recording::moves::{under_names, Moved};
use crate::guillotiere_recording::names::{append, find, under_name, LiveName};
use crate::guillotiere_recording::recording::Recording;
use crate::guillotiere_recording::walks::{gather_names, visit_names};
use wollemigo_support::alloc::{Allocator, Global};
use wollemigo_support::prelude::Vec;

// How many names there are.
const NAMES: u64 = 1 << 32;

/// An atlas that hands out names in place of ids, and records each of its calls that isn't refused.
///
/// A name is an `AllocId` whose number is 0, 1, 2, .. in the order of the grants; none is given twice.
pub struct RecordingAllocator<A: Allocator + Copy = Global> {
    atlas: AtlasAllocator<A>,
    names: Vec<LiveName, A>,
    given: u64,
    log: Log<A>,
}

impl<A: Allocator + Copy> RecordingAllocator<A> {
    /// A recording atlas of this size, in pixels, with the default options: one free rectangle. Requires a size that isn't
    /// empty. `Memory` is the only error.
    #[inline]
    pub fn new(alloc: A, size: Size) -> Result<Self, RecordingError> {
        RecordingAllocator::with_options(alloc, size, &DEFAULT_OPTIONS)
    }

    /// A recording atlas of this size with these options: one free rectangle. Requires a size that isn't empty and valid options.
    #[inline]
    pub fn with_options(
        alloc: A,
        size: Size,
        options: &AllocatorOptions,
    ) -> Result<Self, RecordingError> {
        let atlas = AtlasAllocator::with_options(alloc, size, options)?;
        Ok(RecordingAllocator {
            atlas,
            names: Vec::new(alloc),
            given: 0,
            log: Log::new(alloc, size, options),
        })
    }

    /// The size of the atlas, in pixels.
    #[inline]
    #[must_use]
    pub fn size(&self) -> Size {
        let _log = &self.log;
        self.atlas.size()
    }

    /// Grants a request as the atlas does, under a new name. `Names` for every request once all `1 << 32` names were
    /// given out; None where the atlas gives None, which is recorded; `Memory` if memory for the event, for the name or for slots is
    /// refused, even where the answer would otherwise be `Slots` or None; `Slots` where the atlas gives `Slots`. At most 4
    /// more slots are used, and what is in reserve beside them stays so.
    #[inline]
    pub fn allocate(&mut self, requested_size: Size) -> Result<Option<Allocation>, RecordingError> {
        if self.given == NAMES {
            return Err(RecordingError::Names);
        }
        self.names.reserve(1)?;
        self.log.make_room()?;
        match self.atlas.allocate(requested_size)? {
            Some(granted) => {
                let name = self.given as u32;
                append(
                    &mut self.names,
                    LiveName {
                        name,
                        id: granted.id,
                    },
                );
                self.given += 1;
                let answer = under_name(name, &granted);
                self.log.note(Event::Allocate(requested_size, Some(answer)));
                Ok(Some(under_name(name, &granted)))
            }
            None => {
                self.log.note(Event::Allocate(requested_size, None));
                Ok(None)
            }
        }
    }

    /// Frees the box of a name. `NotLive` if the name isn't live; `Memory` only where memory for the event is refused. What
    /// is in reserve stays so.
    #[inline]
    pub fn deallocate(&mut self, id: AllocId) -> Result<(), RecordingError> {
        let found = match find(&self.names, id.serialize()) {
            Some(found) => found,
            _ => {
                return Err(RecordingError::NotLive);
            }
        };
        self.log.make_room()?;
        self.atlas.deallocate(found.id)?;
        self.names.remove(found.at);
        self.log.note(Event::Deallocate(id));
        Ok(())
    }

    /// Makes the atlas larger, as its `grow` does. Requires that neither side shrinks. `Memory` if memory for the event or
    /// for slots is refused; `Slots` as the atlas's. At most 3 more slots are used, and what is in reserve beside them stays so.
    #[inline]
    pub fn grow(&mut self, new_size: Size) -> Result<(), RecordingError> {
        self.log.make_room()?;
        self.atlas.grow(new_size)?;
        self.log.note(Event::Grow(new_size));
        Ok(())
    }

    /// Repacks what is allocated, as the atlas's `rearrange` does. Each change has the same name in `old` and `new`; the
    /// name of a failure is no longer live. `Memory` if memory is refused; `Slots` as the atlas's.
    #[inline]
    pub fn rearrange(&mut self) -> Result<ChangeList<A>, RecordingError> {
        let mut atlas = self.atlas.clone()?;
        let answer = atlas.rearrange()?;
        let Moved { list, names } = under_names(*self.names.allocator(), &self.names, &answer)?;
        let event = Event::Rearrange(list.clone()?);
        self.log.make_room()?;
        self.atlas = atlas;
        self.names = names;
        self.log.note(event);
        Ok(list)
    }

    /// Repacks what is allocated into an empty atlas of this size, in pixels, as the atlas's `resize_and_rearrange`
    /// does. Requires a size that isn't empty. Each change has the same name in `old` and `new`; the name of a failure is no
    /// longer live. `Memory` if memory is refused; `Slots` as the atlas's.
    #[inline]
    pub fn resize_and_rearrange(
        &mut self,
        new_size: Size,
    ) -> Result<ChangeList<A>, RecordingError> {
        let mut atlas = self.atlas.clone()?;
        let answer = atlas.resize_and_rearrange(new_size)?;
        let Moved { list, names } = under_names(*self.names.allocator(), &self.names, &answer)?;
        let event = Event::ResizeAndRearrange(new_size, list.clone()?);
        self.log.make_room()?;
        self.atlas = atlas;
        self.names = names;
        self.log.note(event);
        Ok(list)
    }

    /// Calls `visit` on each free rectangle once, in an unspecified order. Requires only that `visit` may be called on them
    /// one after another in any such order: it is called with nothing else. Takes no memory.
    #[inline]
    pub fn for_each_free_rectangle<F: FnMut(&Rectangle)>(&self, visit: F) {
        self.atlas.for_each_free_rectangle(visit);
    }

    /// Calls `visit` on each live name and its rectangle once, by rising name. Requires only that `visit` may be called on
    /// them in that order: it is called with nothing else. Takes no memory.
    #[inline]
    pub fn for_each_allocated_rectangle<F: FnMut(AllocId, &Rectangle)>(&self, visit: F) {
        let _size = self.atlas.size();
        visit_names(&self.atlas, &self.names, visit);
    }

    /// The free rectangles, in an order that is left open. `Memory` is the only error.
    #[inline]
    pub fn free_rectangles(&self) -> Result<Vec<Rectangle, A>, RecordingError> {
        Ok(self.atlas.free_rectangles()?)
    }

    /// The live names with their rectangles, by rising name. `Memory` is the only error.
    #[inline]
    pub fn allocations(&self) -> Result<Vec<Allocation, A>, RecordingError> {
        gather_names(*self.names.allocator(), &self.atlas, &self.names)
    }

    /// Ends the session. The answer is what was recorded: events of a session, so that a replay of it can fail only as
    /// a session's can. Takes no memory.
    #[inline]
    #[must_use]
    pub fn finish(self) -> Recording<A> {
        Recording::from_log(self.log)
    }
}
