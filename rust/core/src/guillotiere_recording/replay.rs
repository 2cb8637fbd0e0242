// Erased from crates/guillotiere_recording/src/replay.rt by rust/erase: don't edit.
//! Replays: the events of a recording, carried out once more in a new atlas and compared answer by answer.

use crate::guillotiere::{AllocId, Allocation, AtlasAllocator};
use crate::guillotiere_recording::error::RecordingError;
use crate::guillotiere_recording::event::Event;
use crate::guillotiere_recording::log::Log;
use crate::guillotiere_recording::steps::{carry_out, gather_live, EventFault};
use wollemigo_support::alloc::{AllocError, Allocator, Global};
use wollemigo_support::collections::BTreeMap;
use wollemigo_support::prelude::Vec;

/// Why a recording wasn't replayed to its end.
#[derive(Clone, Copy, Debug, PartialEq, Eq)]
pub enum ReplayFault {
    /// A request for memory was refused.
    Memory,
    /// More slots would be used than an atlas may use.
    Slots,
    /// The event with this number, counted from 0, has a different answer from the one that the atlas gives.
    Differs(usize),
    /// The event with this number, counted from 0, can't be carried out.
    BadEvent(usize),
}

impl core::fmt::Display for ReplayFault {
    fn fmt(&self, f: &mut core::fmt::Formatter<'_>) -> core::fmt::Result {
        match self {
            ReplayFault::Memory => f.write_str("no memory"),
            ReplayFault::Slots => f.write_str("no slot left"),
            ReplayFault::Differs(value) => write!(f, "event {} differs", value),
            ReplayFault::BadEvent(value) => write!(f, "event {} is bad", value),
        }
    }
}

impl wollemigo_support::error::Error for ReplayFault {}

impl From<AllocError> for ReplayFault {
    #[inline]
    fn from(_error: AllocError) -> ReplayFault {
        ReplayFault::Memory
    }
}

/// What a replay saw: how many grants, freeings and failed requests, and what is live at its end, by rising name.
#[derive(Debug, PartialEq)]
pub struct ReplayStats<A: Allocator + Copy = Global> {
    /// How many requests were granted.
    pub allocations: u64,
    /// How many boxes were freed.
    pub deallocations: u64,
    /// How many requests had no room.
    pub failed_allocations: u64,
    /// The live names with their rectangles, in pixels, by rising name.
    pub live: Vec<Allocation, A>,
}

impl<A: Allocator + Copy> ReplayStats<A> {
    /// A copy of what a replay counted. `Memory` is the only error.
    #[inline]
    pub fn clone(&self) -> Result<ReplayStats<A>, RecordingError> {
        Ok(ReplayStats {
            allocations: self.allocations,
            deallocations: self.deallocations,
            failed_allocations: self.failed_allocations,
            live: Vec::from_slice(*self.live.allocator(), &self.live)?,
        })
    }
}

impl<A: Allocator + Copy> Event<A> {
    // Whether a request was granted.
    #[inline]
    fn is_a_grant(&self) -> bool {
        match self {
            Event::Allocate(_, Some(_)) => true,
            _ => false,
        }
    }

    // Whether a box was freed.
    #[inline]
    fn is_a_freeing(&self) -> bool {
        match self {
            Event::Deallocate(_) => true,
            _ => false,
        }
    }

    // Whether a request had no room.
    #[inline]
    fn is_a_failed_request(&self) -> bool {
        match self {
            Event::Allocate(_, None) => true,
            _ => false,
        }
    }
}

impl<A: Allocator + Copy> Log<A> {
    // How many requests were granted.
    #[inline]
    fn grants(&self) -> u64 {
        self.events
            .iter()
            .filter(|event| event.is_a_grant())
            .count() as u64
    }

    // How many boxes were freed.
    #[inline]
    fn freeings(&self) -> u64 {
        self.events
            .iter()
            .filter(|event| event.is_a_freeing())
            .count() as u64
    }

    // How many requests had no room.
    #[inline]
    fn failed_requests(&self) -> u64 {
        self.events
            .iter()
            .filter(|event| event.is_a_failed_request())
            .count() as u64
    }

    /// Carries out the events in a new atlas, in order. The first fault ends it.
    #[inline]
    pub fn replay(&self) -> Result<ReplayStats<A>, ReplayFault> {
        let alloc = *self.events.allocator();
        let mut atlas = match AtlasAllocator::with_options(alloc, self.size, &self.options) {
            Ok(atlas) => atlas,
            _ => {
                return Err(ReplayFault::Memory);
            }
        };
        let mut names: BTreeMap<u32, AllocId, A> = BTreeMap::new(alloc);
        for (at, event) in self.events.iter().enumerate() {
            if let Err(fault) = carry_out(&mut atlas, &mut names, event) {
                return Err(fault_at(fault, at));
            }
        }
        let live = gather_live(alloc, &atlas, &names)?;
        Ok(ReplayStats {
            allocations: self.grants(),
            deallocations: self.freeings(),
            failed_allocations: self.failed_requests(),
            live,
        })
    }
}

/// The fault of a replay whose event with this number isn't carried out.
#[inline]
#[must_use]
pub fn fault_at(fault: EventFault, at: usize) -> ReplayFault {
    match fault {
        EventFault::Memory => ReplayFault::Memory,
        EventFault::Slots => ReplayFault::Slots,
        EventFault::Differs => ReplayFault::Differs(at),
        EventFault::Bad => ReplayFault::BadEvent(at),
    }
}
