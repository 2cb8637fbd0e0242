// Erased from crates/guillotiere_recording/src/recording.rt by rust/erase: don't edit.
//! Recordings, and recorders, which make one of events that they are given.

use crate::guillotiere::{AllocatorOptions, Size};
use crate::guillotiere_recording::allocator::RecordingAllocator;
use crate::guillotiere_recording::error::RecordingError;
use crate::guillotiere_recording::event::Event;
use crate::guillotiere_recording::log::Log;
use crate::guillotiere_recording::replay::{ReplayFault, ReplayStats};
use wollemigo_support::alloc::{Allocator, Global};
use wollemigo_support::prelude::Vec;

use core::mem;

/// What happened to an atlas: its size and its options when it was new, and the events since.
pub struct Recording<A: Allocator + Copy = Global> {
    log: Log<A>,
}

impl<A: Allocator + Copy> Recording<A> {
    // The recording of a log.
    #[inline]
    pub(crate) fn from_log(log: Log<A>) -> Recording<A> {
        Recording { log }
    }

    /// The size of the atlas when it was new, in pixels.
    #[inline]
    #[must_use]
    pub fn size(&self) -> Size {
        self.log.size
    }

    /// The options of the atlas.
    #[inline]
    #[must_use]
    pub fn options(&self) -> AllocatorOptions {
        self.log.options
    }

    /// The events, in order.
    #[inline]
    #[must_use]
    pub fn events(&self) -> &[Event<A>] {
        &self.log.events
    }

    /// Carries out the events once more, in a new atlas of the recorded size and options, and compares each answer. The
    /// first fault ends it: `BadEvent` where an event can't be carried out, which is tested before its call, because
    /// its new name is live, the name that it frees isn't, a side shrinks or a size is empty; `Differs` where the
    /// answer isn't the one that the event has; `Slots` as the atlas's; `Memory` if a request for memory is refused.
    /// Events are counted from 0.
    #[inline]
    pub fn replay(&self) -> Result<ReplayStats<A>, ReplayFault> {
        self.log.replay()
    }

    /// A recording allocator that carried out the events as its own calls, and so goes on from where they end: its
    /// recording is this one, and the boxes of its names are those of the events. The first fault ends it: `BadEvent`
    /// where an event can't be carried out, because its new name isn't the next one (0, 1, 2, .. in the order of the
    /// grants), the name that it frees isn't live, a side shrinks or a size is empty; `Differs` where the answer isn't
    /// the one that the event has; `Slots` as the atlas's; `Memory` if a request for memory is refused. Events are
    /// counted from 0. What a recording allocator recorded fails by `Memory` alone, unless it rearranged.
    #[inline]
    pub fn resume(&self) -> Result<RecordingAllocator<A>, ReplayFault> {
        self.log.resume()
    }

    /// Removes the event with this number, counted from 0; later ones move up by one. Requires a number below that of the
    /// events. Takes no memory.
    #[inline]
    pub fn remove_event(&mut self, at: usize) {
        self.log.events.remove(at);
    }

    /// A copy of the recording. `Memory` is the only error.
    #[inline]
    pub fn clone(&self) -> Result<Recording<A>, RecordingError> {
        Ok(Recording {
            log: self.log.clone()?,
        })
    }
}

/// Makes a recording of events that it is given, whether or not they happened.
pub struct Recorder<A: Allocator + Copy = Global> {
    log: Log<A>,
}

impl<A: Allocator + Copy> Recorder<A> {
    /// A recorder of an atlas of this size, in pixels, with these options, without events. Requires a size that isn't empty
    /// and valid options. Takes no memory.
    #[inline]
    #[must_use]
    pub fn new(alloc: A, size: Size, options: &AllocatorOptions) -> Recorder<A> {
        Recorder {
            log: Log::new(alloc, size, options),
        }
    }

    /// Appends an event. `Memory` is the only error, and then nothing changes.
    #[inline]
    pub fn record(&mut self, event: Event<A>) -> Result<(), RecordingError> {
        self.log.make_room()?;
        self.log.note(event);
        Ok(())
    }

    /// Takes all events out, and leaves none. Takes no memory.
    #[inline]
    pub fn finish(&mut self) -> Recording<A> {
        let alloc = *self.log.events.allocator();
        let events = mem::replace(&mut self.log.events, Vec::new(alloc));
        Recording {
            log: Log {
                size: self.log.size,
                options: self.log.options,
                events,
            },
        }
    }
}
