// Erased from crates/atlas_store/src/slots/walks.rt by rust/erase: don't edit.
//! Walks over the slots of an atlas: a look at the slot that an id names, and passes over the leaves.

use crate::atlas_model::{AllocId, Allocation, AtlasError, Rectangle, MOST_SLOTS};
use crate::atlas_store::slots::{NodeKind, Slot};
use wollemigo_support::alloc::Allocator;
use wollemigo_support::prelude::Vec;

/// The id of the slot with this number in this generation.
#[inline]
#[must_use]
pub fn slot_id(number: usize, generation: u8) -> AllocId {
    AllocId::deserialize(number as u32 + MOST_SLOTS * u32::from(generation))
}

/// The number of the slot that an id names.
#[inline]
#[must_use]
pub fn slot_number(id: AllocId) -> u32 {
    id.serialize() % MOST_SLOTS
}

/// The slot that an id names, if it is allocated under that id now.
#[inline]
#[must_use]
pub fn named_slot(slots: &[Slot], id: AllocId) -> Option<usize> {
    let at = slot_number(id) as usize;
    let slot = slots.get(at)?;
    if slot.kind == NodeKind::Alloc && u32::from(slot.generation) == id.serialize() / MOST_SLOTS {
        Some(at)
    } else {
        None
    }
}

/// Calls `visit` on each allocated slot, by rising number.
#[inline]
pub fn visit_allocated<F: FnMut(AllocId, &Rectangle)>(slots: &[Slot], mut visit: F) {
    for (number, slot) in slots.iter().enumerate() {
        if slot.kind == NodeKind::Alloc {
            visit(slot_id(number, slot.generation), &slot.area);
        }
    }
}

/// Calls `visit` on the rectangle of each free slot, by rising number.
#[inline]
pub fn visit_free<F: FnMut(&Rectangle)>(slots: &[Slot], mut visit: F) {
    for slot in slots {
        if slot.kind == NodeKind::Free {
            visit(&slot.area);
        }
    }
}

/// The allocated slots, by rising number. `Memory` is the only error.
#[inline]
pub fn gather_allocated<A: Allocator>(
    alloc: A,
    slots: &[Slot],
) -> Result<Vec<Allocation, A>, AtlasError> {
    let mut found = Vec::new(alloc);
    for (number, slot) in slots.iter().enumerate() {
        if slot.kind == NodeKind::Alloc {
            found.push(Allocation {
                id: slot_id(number, slot.generation),
                rectangle: slot.area,
            })?;
        }
    }
    Ok(found)
}

/// The rectangles of the free slots, by rising number. `Memory` is the only error.
#[inline]
pub fn gather_free<A: Allocator>(
    alloc: A,
    slots: &[Slot],
) -> Result<Vec<Rectangle, A>, AtlasError> {
    let mut found = Vec::new(alloc);
    for slot in slots {
        if slot.kind == NodeKind::Free {
            found.push(slot.area)?;
        }
    }
    Ok(found)
}

// The area of a rectangle, in unit squares.
#[inline]
fn area_of(rectangle: &Rectangle) -> u64 {
    rectangle.width() as u64 * rectangle.height() as u64
}

/// The area of all free slots together, in unit squares.
#[inline]
#[must_use]
pub fn free_sum(slots: &[Slot]) -> u64 {
    let mut sum = 0;
    for slot in slots {
        if slot.kind == NodeKind::Free {
            sum += area_of(&slot.area);
        }
    }
    sum
}

/// The area of all allocated slots together, in unit squares.
#[inline]
#[must_use]
pub fn live_sum(slots: &[Slot]) -> u64 {
    let mut sum = 0;
    for slot in slots {
        if slot.kind == NodeKind::Alloc {
            sum += area_of(&slot.area);
        }
    }
    sum
}
