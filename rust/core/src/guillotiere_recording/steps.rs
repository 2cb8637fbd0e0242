// Erased from crates/guillotiere_recording/src/steps.rt by rust/erase: don't edit.
//! One event of a replay: it is carried out in an atlas, and its answer is compared.

use crate::guillotiere::{
    AllocId, Allocation, AtlasAllocator, AtlasError, ChangeList, Rectangle, Size,
};
use crate::guillotiere_recording::event::Event;
use crate::guillotiere_recording::follow::{follow, list_names};
use wollemigo_support::alloc::{AllocError, AllocFailed, Allocator};
use wollemigo_support::collections::BTreeMap;
use wollemigo_support::prelude::Vec;

/// Why an event isn't carried out.
#[derive(Clone, Copy, Debug, PartialEq)]
pub enum EventFault {
    /// A request for memory was refused.
    Memory,
    /// More slots would be used than an atlas may use.
    Slots,
    /// The atlas gives another answer.
    Differs,
    /// It can't be carried out.
    Bad,
}

impl From<AtlasError> for EventFault {
    #[inline]
    fn from(error: AtlasError) -> EventFault {
        match error {
            AtlasError::Memory => EventFault::Memory,
            AtlasError::Slots => EventFault::Slots,
            AtlasError::NotLive => EventFault::Bad,
        }
    }
}

impl From<AllocError> for EventFault {
    #[inline]
    fn from(_error: AllocError) -> EventFault {
        EventFault::Memory
    }
}

impl<T> From<AllocFailed<T>> for EventFault {
    #[inline]
    fn from(_error: AllocFailed<T>) -> EventFault {
        EventFault::Memory
    }
}

/// Carries out an event in an atlas whose live ids have these names.
#[inline]
pub fn carry_out<A: Allocator + Copy>(
    atlas: &mut AtlasAllocator<A>,
    names: &mut BTreeMap<u32, AllocId, A>,
    event: &Event<A>,
) -> Result<(), EventFault> {
    match event {
        Event::Allocate(size, answer) => request_again(atlas, names, *size, answer),
        Event::Deallocate(name) => free_again(atlas, names, *name),
        Event::Grow(size) => grow_again(atlas, names, *size),
        Event::Rearrange(recorded) => rearrange_again(atlas, names, recorded),
        Event::ResizeAndRearrange(size, recorded) => resize_again(atlas, names, *size, recorded),
    }
}

// A request.
#[inline]
fn request_again<A: Allocator + Copy>(
    atlas: &mut AtlasAllocator<A>,
    names: &mut BTreeMap<u32, AllocId, A>,
    size: Size,
    answer: &Option<Allocation>,
) -> Result<(), EventFault> {
    match answer {
        Some(recorded) => grant_again(atlas, names, size, recorded),
        None => deny_again(atlas, names, size),
    }
}

// Requests a rectangle; what the proofs of this module need of the answer.
#[inline]
fn ask<A: Allocator + Copy>(
    atlas: &mut AtlasAllocator<A>,
    size: Size,
) -> Result<Option<Allocation>, AtlasError> {
    atlas.allocate(size)
}

// A request that was granted.
#[inline]
fn grant_again<A: Allocator + Copy>(
    atlas: &mut AtlasAllocator<A>,
    names: &mut BTreeMap<u32, AllocId, A>,
    size: Size,
    recorded: &Allocation,
) -> Result<(), EventFault> {
    let name = recorded.id.serialize();
    if names.contains_key(&name) {
        return Err(EventFault::Bad);
    }
    match ask(atlas, size)? {
        Some(granted) => {
            if !are_same(&granted.rectangle, &recorded.rectangle) {
                return Err(EventFault::Differs);
            }
            names.insert(name, granted.id)?;
            Ok(())
        }
        None => Err(EventFault::Differs),
    }
}

/// Whether two rectangles have the same corners.
#[inline]
#[must_use]
pub fn are_same(one: &Rectangle, other: &Rectangle) -> bool {
    one == other
}

// A request that had no room.
#[inline]
fn deny_again<A: Allocator + Copy>(
    atlas: &mut AtlasAllocator<A>,
    names: &BTreeMap<u32, AllocId, A>,
    size: Size,
) -> Result<(), EventFault> {
    let _names = names;
    match ask(atlas, size)? {
        Some(_) => Err(EventFault::Differs),
        None => Ok(()),
    }
}

// A freeing.
#[inline]
fn free_again<A: Allocator + Copy>(
    atlas: &mut AtlasAllocator<A>,
    names: &mut BTreeMap<u32, AllocId, A>,
    name: AllocId,
) -> Result<(), EventFault> {
    let id = match names.remove(&name.serialize()) {
        Some(id) => id,
        _ => {
            return Err(EventFault::Bad);
        }
    };
    atlas.deallocate(id)?;
    Ok(())
}

// A growth.
#[inline]
fn grow_again<A: Allocator + Copy>(
    atlas: &mut AtlasAllocator<A>,
    names: &BTreeMap<u32, AllocId, A>,
    size: Size,
) -> Result<(), EventFault> {
    let _names = names;
    let before = atlas.size();
    if size.width < before.width || size.height < before.height {
        return Err(EventFault::Bad);
    }
    atlas.grow(size)?;
    Ok(())
}

// A rearrangement.
#[inline]
fn rearrange_again<A: Allocator + Copy>(
    atlas: &mut AtlasAllocator<A>,
    names: &mut BTreeMap<u32, AllocId, A>,
    recorded: &ChangeList<A>,
) -> Result<(), EventFault> {
    let alloc = *recorded.changes.allocator();
    let entries = list_names(alloc, names)?;
    let list = atlas.rearrange()?;
    *names = follow(alloc, &entries, &list, recorded)?;
    Ok(())
}

// A rearrangement into another size.
#[inline]
fn resize_again<A: Allocator + Copy>(
    atlas: &mut AtlasAllocator<A>,
    names: &mut BTreeMap<u32, AllocId, A>,
    size: Size,
    recorded: &ChangeList<A>,
) -> Result<(), EventFault> {
    if size.is_empty() {
        return Err(EventFault::Bad);
    }
    let alloc = *recorded.changes.allocator();
    let entries = list_names(alloc, names)?;
    let list = atlas.resize_and_rearrange(size)?;
    *names = follow(alloc, &entries, &list, recorded)?;
    Ok(())
}

/// The live names with their rectangles, by rising name.
#[inline]
pub fn gather_live<A: Allocator + Copy>(
    alloc: A,
    atlas: &AtlasAllocator<A>,
    names: &BTreeMap<u32, AllocId, A>,
) -> Result<Vec<Allocation, A>, AllocError> {
    let mut live = Vec::new(alloc);
    for (name, id) in names {
        live.push(Allocation {
            id: AllocId::deserialize(*name),
            rectangle: atlas[*id],
        })?;
    }
    Ok(live)
}
