// Erased from crates/guillotiere_recording/src/names.rt by rust/erase: don't edit.
//! The names of live ids, by rising name.

use crate::guillotiere::{AllocId, Allocation};
use wollemigo_support::alloc::Allocator;
use wollemigo_support::prelude::Vec;

/// A live id and its name.
#[derive(Clone, Copy, Debug, PartialEq)]
pub struct LiveName {
    pub name: u32,
    pub id: AllocId,
}

/// Where a name is among names that rise.
#[inline]
#[must_use]
pub fn place_of(names: &[LiveName], name: u32) -> Option<usize> {
    let at = names.partition_point(|entry| entry.name < name);
    if at < names.len() && names[at].name == name {
        Some(at)
    } else {
        None
    }
}

/// A live id, and where its name is.
#[derive(Clone, Copy)]
pub struct Found {
    pub at: usize,
    pub id: AllocId,
}

/// The live id that a name is given to, among names that rise.
#[inline]
#[must_use]
pub fn find<A: Allocator>(names: &Vec<LiveName, A>, name: u32) -> Option<Found> {
    let at = place_of(names, name)?;
    Some(Found {
        at,
        id: names[at].id,
    })
}

/// Appends to a vector that has room.
#[inline]
pub fn append<T, A: Allocator>(items: &mut Vec<T, A>, item: T) {
    if items.push(item).is_err() {
        unreachable!();
    }
}

/// A grant under a name.
#[inline]
#[must_use]
pub fn under_name(name: u32, granted: &Allocation) -> Allocation {
    Allocation {
        id: AllocId::deserialize(name),
        rectangle: granted.rectangle,
    }
}
