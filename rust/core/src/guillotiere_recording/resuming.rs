// Erased from crates/guillotiere_recording/src/resuming.rt by rust/erase: don't edit.
//! A recorded session taken up again: its events are carried out by a new recording allocator, which compares its answers.

use crate::guillotiere::{AllocId, Allocation, ChangeList, Size};
use crate::guillotiere_recording::allocator::RecordingAllocator;
use crate::guillotiere_recording::error::RecordingError;
use crate::guillotiere_recording::event::Event;
use crate::guillotiere_recording::follow::are_equal;
use crate::guillotiere_recording::log::Log;
use crate::guillotiere_recording::replay::{fault_at, ReplayFault};
use crate::guillotiere_recording::steps::{are_same, EventFault};
use wollemigo_support::alloc::Allocator;

impl From<RecordingError> for EventFault {
    #[inline]
    fn from(error: RecordingError) -> EventFault {
        match error {
            RecordingError::Memory => EventFault::Memory,
            RecordingError::Slots => EventFault::Slots,
            RecordingError::NotLive | RecordingError::Names => EventFault::Bad,
        }
    }
}

impl<A: Allocator + Copy> Log<A> {
    /// A session that carried out the events. The first fault ends it.
    #[inline]
    pub fn resume(&self) -> Result<RecordingAllocator<A>, ReplayFault> {
        let alloc = *self.events.allocator();
        let mut session = match RecordingAllocator::with_options(alloc, self.size, &self.options) {
            Ok(session) => session,
            _ => {
                return Err(ReplayFault::Memory);
            }
        };
        for (at, event) in self.events.iter().enumerate() {
            let _size = session.size();
            if let Err(fault) = carry_on(&mut session, event) {
                return Err(fault_at(fault, at));
            }
        }
        let _size = session.size();
        Ok(session)
    }
}

// Carries out an event as a call, and compares its answer.
#[inline]
fn carry_on<A: Allocator + Copy>(
    session: &mut RecordingAllocator<A>,
    event: &Event<A>,
) -> Result<(), EventFault> {
    match event {
        Event::Allocate(size, Some(recorded)) => grant_on(session, *size, recorded),
        Event::Allocate(size, None) => deny_on(session, *size),
        Event::Deallocate(name) => Ok(session.deallocate(*name)?),
        Event::Grow(size) => grow_on(session, *size),
        Event::Rearrange(recorded) => rearrange_on(session, recorded),
        Event::ResizeAndRearrange(size, recorded) => resize_on(session, *size, recorded),
    }
}

// A request that was granted.
#[inline]
fn grant_on<A: Allocator + Copy>(
    session: &mut RecordingAllocator<A>,
    size: Size,
    recorded: &Allocation,
) -> Result<(), EventFault> {
    if !session.gives(recorded.id) {
        return Err(EventFault::Bad);
    }
    match session.allocate(size)? {
        Some(granted) => {
            if !are_same(&granted.rectangle, &recorded.rectangle) {
                return Err(EventFault::Differs);
            }
            Ok(())
        }
        None => Err(EventFault::Differs),
    }
}

// A request that had no room.
#[inline]
fn deny_on<A: Allocator + Copy>(
    session: &mut RecordingAllocator<A>,
    size: Size,
) -> Result<(), EventFault> {
    match session.allocate(size)? {
        Some(_) => Err(EventFault::Differs),
        None => Ok(()),
    }
}

// A growth.
#[inline]
fn grow_on<A: Allocator + Copy>(
    session: &mut RecordingAllocator<A>,
    size: Size,
) -> Result<(), EventFault> {
    if !session.can_grow_to(size) {
        return Err(EventFault::Bad);
    }
    Ok(session.grow(size)?)
}

// A rearrangement.
#[inline]
fn rearrange_on<A: Allocator + Copy>(
    session: &mut RecordingAllocator<A>,
    recorded: &ChangeList<A>,
) -> Result<(), EventFault> {
    let list = session.rearrange()?;
    if !are_equal(&list, recorded) {
        return Err(EventFault::Differs);
    }
    Ok(())
}

// A rearrangement into another size.
#[inline]
fn resize_on<A: Allocator + Copy>(
    session: &mut RecordingAllocator<A>,
    size: Size,
    recorded: &ChangeList<A>,
) -> Result<(), EventFault> {
    if !size.is_positive() {
        return Err(EventFault::Bad);
    }
    let list = session.resize_and_rearrange(size)?;
    if !are_equal(&list, recorded) {
        return Err(EventFault::Differs);
    }
    Ok(())
}
