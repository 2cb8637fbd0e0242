// Erased from crates/guillotiere_recording/src/log.rt by rust/erase: don't edit.
//! The log of events that recordings, recorders and recording allocators keep.

use crate::guillotiere::{AllocatorOptions, Size};
use crate::guillotiere_recording::error::RecordingError;
use crate::guillotiere_recording::event::Event;
use crate::guillotiere_recording::names::append;
use wollemigo_support::alloc::Allocator;
use wollemigo_support::prelude::Vec;

/// The size and the options of an atlas when it was new, and what happened since.
pub struct Log<A: Allocator + Copy> {
    pub size: Size,
    pub options: AllocatorOptions,
    pub events: Vec<Event<A>, A>,
}

impl<A: Allocator + Copy> Log<A> {
    /// A log without events. Takes no memory.
    #[inline]
    #[must_use]
    pub fn new(alloc: A, size: Size, options: &AllocatorOptions) -> Log<A> {
        Log {
            size,
            options: *options,
            events: Vec::new(alloc),
        }
    }

    /// Makes room for one event more. `Memory` is the only error.
    #[inline]
    pub fn make_room(&mut self) -> Result<(), RecordingError> {
        self.events.reserve(1)?;
        Ok(())
    }

    /// Appends an event, for which there is room.
    #[inline]
    pub fn note(&mut self, event: Event<A>) {
        append(&mut self.events, event);
    }

    /// A copy of the log. `Memory` is the only error.
    #[inline]
    pub fn clone(&self) -> Result<Log<A>, RecordingError> {
        let mut events = Vec::new(*self.events.allocator());
        for event in &self.events {
            events.push(event.clone()?)?;
        }
        Ok(Log {
            size: self.size,
            options: self.options,
            events,
        })
    }
}
