// Erased from crates/guillotiere_recording/src/follow.rt by rust/erase: don't edit.
//! A rearrangement in a replay: its list is compared with the recorded one, and the live names get their new ids.

use crate::guillotiere::{AllocId, ChangeList};
use crate::guillotiere_recording::moves::under_names;
use crate::guillotiere_recording::names::LiveName;
use crate::guillotiere_recording::steps::EventFault;
use wollemigo_support::alloc::{AllocError, Allocator};
use wollemigo_support::collections::BTreeMap;
use wollemigo_support::prelude::Vec;

/// The live names with their ids, by rising name.
#[inline]
pub fn list_names<A: Allocator + Copy>(
    alloc: A,
    names: &BTreeMap<u32, AllocId, A>,
) -> Result<Vec<LiveName, A>, AllocError> {
    let mut entries = Vec::new(alloc);
    for (name, id) in names {
        entries.push(LiveName {
            name: *name,
            id: *id,
        })?;
    }
    Ok(entries)
}

/// The entries in a map.
#[inline]
pub fn map_names<A: Allocator + Copy>(
    alloc: A,
    entries: &[LiveName],
) -> Result<BTreeMap<u32, AllocId, A>, AllocError> {
    let mut names = BTreeMap::new(alloc);
    for entry in entries {
        names.insert(entry.name, entry.id)?;
    }
    Ok(names)
}

/// Whether two change lists have the same changes and failures.
#[inline]
#[must_use]
pub fn are_equal<A: Allocator + Copy>(one: &ChangeList<A>, other: &ChangeList<A>) -> bool {
    one == other
}

/// Compares the list of a rearrangement, under the names of the live ids, with the recorded one, and gives the names that
/// are live now.
#[inline]
pub fn follow<A: Allocator + Copy>(
    alloc: A,
    entries: &[LiveName],
    list: &ChangeList<A>,
    recorded: &ChangeList<A>,
) -> Result<BTreeMap<u32, AllocId, A>, EventFault> {
    let moved = match under_names(alloc, entries, list) {
        Ok(moved) => moved,
        _ => {
            return Err(EventFault::Memory);
        }
    };
    if !are_equal(&moved.list, recorded) {
        return Err(EventFault::Differs);
    }
    Ok(map_names(alloc, &moved.names)?)
}
