// Erased from crates/guillotiere_recording/src/walks.rt by rust/erase: don't edit.
//! What entries show: each live name with the rectangle of its id.

use crate::guillotiere::{AllocId, Allocation, AtlasAllocator, Rectangle};
use crate::guillotiere_recording::error::RecordingError;
use crate::guillotiere_recording::names::LiveName;
use wollemigo_support::alloc::Allocator;
use wollemigo_support::prelude::Vec;

/// Calls `visit` on each name and its rectangle, in order. Requires that `visit` may be called along that list.
#[inline]
pub fn visit_names<A: Allocator + Copy, F: FnMut(AllocId, &Rectangle)>(
    atlas: &AtlasAllocator<A>,
    names: &[LiveName],
    mut visit: F,
) {
    for entry in names {
        visit(AllocId::deserialize(entry.name), &atlas[entry.id]);
    }
}

/// The names with their rectangles, in order. `Memory` is the only error.
#[inline]
pub fn gather_names<A: Allocator + Copy>(
    alloc: A,
    atlas: &AtlasAllocator<A>,
    names: &[LiveName],
) -> Result<Vec<Allocation, A>, RecordingError> {
    let mut found = Vec::new(alloc);
    for entry in names {
        found.push(Allocation {
            id: AllocId::deserialize(entry.name),
            rectangle: atlas[entry.id],
        })?;
    }
    Ok(found)
}
