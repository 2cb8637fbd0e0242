// Erased from crates/atlas_allocator/src/atlas/rearranging.rt by rust/erase: don't edit.
//! Repacking what is allocated: the order in which it is taken, and the placing itself.

use crate::atlas_allocator::atlas::AtlasAllocator;
use crate::atlas_model::{Allocation, AtlasError, Change, ChangeList, Rectangle, Size};
use crate::atlas_store::slots::walks::slot_number;
use core::cmp::Reverse;
use wollemigo_support::alloc::Allocator;
use wollemigo_support::prelude::Vec;

// How far `to` lies beyond `from`, where a number below 0 counts as 0.
#[inline]
fn extent(from: i32, to: i32) -> u64 {
    (to.max(0) as u64).saturating_sub(from.max(0) as u64)
}

// The area of an allocated rectangle, counted up to 2147483647, and its slot.
#[inline]
fn rank(allocation: &Allocation) -> (u64, u32) {
    let rectangle = allocation.rectangle;
    let width = extent(rectangle.min.x, rectangle.max.x);
    let height = extent(rectangle.min.y, rectangle.max.y);
    let slot = slot_number(allocation.id);
    ((width * height).min(2147483647), slot)
}

/// Puts allocations of different slots into the order in which they are placed anew: by descending area, and by
/// descending slot where areas are equal.
#[inline]
pub fn sort_for_refit<A: Allocator>(boxes: &mut Vec<Allocation, A>) {
    boxes.sort_unstable_by_key(|allocation| Reverse(rank(allocation)));
}

// The size of an allocated rectangle.
#[inline]
fn size_of_box(rectangle: Rectangle) -> Size {
    rectangle.size()
}

/// Places boxes in an atlas, in this order, and lists which were granted and which found no room. After a refusal the
/// boxes up to the refused one are placed. The failures are kept in the room of the boxes. Slots in their first
/// generations stay so.
#[inline]
pub fn refit<A: Allocator + Copy>(
    atlas: &mut AtlasAllocator<A>,
    order: Vec<Allocation, A>,
) -> Result<ChangeList<A>, AtlasError> {
    let mut failures = order;
    let mut changes = Vec::new(*failures.allocator());
    let mut failed = 0;
    for at in 0..failures.len() {
        let old = failures[at];
        match atlas.request(size_of_box(old.rectangle))? {
            Some(new) => changes.push(Change { old, new })?,
            None => {
                failures[failed] = old;
                failed += 1;
            }
        }
    }
    failures.truncate(failed);
    Ok(ChangeList { changes, failures })
}
