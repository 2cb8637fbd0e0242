//! The members of the tree of cuts (docs/SLOTS.md, "Slots of an atlas"). Written by hand, and not proved: it only reads.

use crate::atlas_handle::AtlasReader;
use crate::plain::{DONE, EMPTY, NULL_POINTER};
use wollemigo_core::atlas_allocator::store_of;
use wollemigo_core::atlas_search::cut::Orientation;
use wollemigo_core::atlas_store::slots::walks::slot_id;
use wollemigo_core::atlas_store::slots::{NodeKind, Slot};
use wollemigo_support::raw::slice_mut;

/// A member by its slot; links are numbers of slots, 4294967295 for none. The axis is that of the sequence it is in.
#[repr(C)]
pub struct PlainMember {
    number: u32,
    parent: u32,
    previous: u32,
    next: u32,
    /// 0 of a container, 1 of a live box, 2 of a free one.
    kind: u32,
    /// 0 where members lie to the right of one another, 1 where they lie below one another.
    axis: u32,
    /// Of a live box; else 0.
    id: u32,
    min_x: i32,
    min_y: i32,
    max_x: i32,
    max_y: i32,
}

// A used slot; None of an unused one.
fn plain_member(number: usize, slot: &Slot) -> Option<PlainMember> {
    let (kind, id) = match slot.kind {
        NodeKind::Container => (0, 0),
        NodeKind::Alloc => (1, slot_id(number, slot.generation).serialize()),
        NodeKind::Free => (2, 0),
        NodeKind::Unused => return None,
    };
    let axis = match slot.axis {
        Orientation::Horizontal => 0,
        Orientation::Vertical => 1,
    };
    Some(PlainMember {
        number: number as u32,
        parent: slot.parent.number,
        previous: slot.previous.number,
        next: slot.next.number,
        kind,
        axis,
        id,
        min_x: slot.area.min.x,
        min_y: slot.area.min.y,
        max_x: slot.area.max.x,
        max_y: slot.area.max.y,
    })
}

/// Writes the members of the tree of cuts, by rising number of the slot, as many as there is room for, and into `count`
/// how many there are: as many as used slots. `DONE`.
#[no_mangle]
pub extern "C" fn guillotiere_atlas_members(
    atlas: &AtlasReader,
    found: *mut PlainMember,
    found_len: usize,
    count: &mut usize,
) -> u32 {
    if !atlas.holds() {
        return EMPTY;
    }
    let found = match unsafe { slice_mut(found, found_len) } {
        Some(found) => found,
        None => return NULL_POINTER,
    };
    let held = atlas.lent();
    let mut many = 0;
    for (number, slot) in store_of(held).slots().iter().enumerate() {
        if let Some(member) = plain_member(number, slot) {
            if let Some(place) = found.get_mut(many) {
                *place = member;
            }
            many += 1;
        }
    }
    *count = many;
    DONE
}
