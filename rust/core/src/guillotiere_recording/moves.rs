// Erased from crates/guillotiere_recording/src/moves.rt by rust/erase: don't edit.
//! What a rearrangement of the atlas did, under names in place of ids.

use crate::guillotiere::{Allocation, Change, ChangeList};
use crate::guillotiere_recording::error::RecordingError;
use crate::guillotiere_recording::names::{under_name, LiveName};
use wollemigo_support::alloc::Allocator;
use wollemigo_support::prelude::Vec;

/// What moved and what found no room, under names, and the names of what is live now, by rising name.
pub struct Moved<A: Allocator + Copy> {
    pub list: ChangeList<A>,
    pub names: Vec<LiveName, A>,
}

// Puts entries in the order of their ids.
#[inline]
fn sort_by_id<A: Allocator>(entries: &mut Vec<LiveName, A>) {
    entries.sort_unstable_by_key(|entry| entry.id.serialize());
}

// Puts entries in the order of their names.
#[inline]
fn sort_by_name<A: Allocator>(entries: &mut Vec<LiveName, A>) {
    entries.sort_unstable_by_key(|entry| entry.name);
}

// The name of an id, by its number, that has an entry.
#[inline]
fn name_at(by_id: &[LiveName], number: u32) -> u32 {
    let at = by_id.partition_point(|entry| entry.id.serialize() < number);
    by_id[at].name
}

// Changes under names, in their order.
#[inline]
fn name_changes<A: Allocator + Copy>(
    alloc: A,
    by_id: &[LiveName],
    changes: &[Change],
) -> Result<Vec<Change, A>, RecordingError> {
    let mut named = Vec::new(alloc);
    for change in changes {
        let name = name_at(by_id, change.old.id.serialize());
        named.push(Change {
            old: under_name(name, &change.old),
            new: under_name(name, &change.new),
        })?;
    }
    Ok(named)
}

// Failures under names, in their order.
#[inline]
fn name_failures<A: Allocator + Copy>(
    alloc: A,
    by_id: &[LiveName],
    failures: &[Allocation],
) -> Result<Vec<Allocation, A>, RecordingError> {
    let mut named = Vec::new(alloc);
    for failure in failures {
        let name = name_at(by_id, failure.id.serialize());
        named.push(under_name(name, failure))?;
    }
    Ok(named)
}

// The entries of what was moved, in its order.
#[inline]
fn name_entries<A: Allocator + Copy>(
    alloc: A,
    by_id: &[LiveName],
    changes: &[Change],
) -> Result<Vec<LiveName, A>, RecordingError> {
    let mut entries = Vec::new(alloc);
    for change in changes {
        let name = name_at(by_id, change.old.id.serialize());
        entries.push(LiveName {
            name,
            id: change.new.id,
        })?;
    }
    Ok(entries)
}

/// What a rearrangement did, under the names of the ids that were live. `Memory` is the only error.
#[inline]
pub fn under_names<A: Allocator + Copy>(
    alloc: A,
    names: &[LiveName],
    answer: &ChangeList<A>,
) -> Result<Moved<A>, RecordingError> {
    let mut by_id = Vec::from_slice(alloc, names)?;
    sort_by_id(&mut by_id);
    let changes = name_changes(alloc, &by_id, &answer.changes)?;
    let failures = name_failures(alloc, &by_id, &answer.failures)?;
    let mut entries = name_entries(alloc, &by_id, &answer.changes)?;
    sort_by_name(&mut entries);
    Ok(Moved {
        list: ChangeList { changes, failures },
        names: entries,
    })
}
