// Erased from crates/atlas_store/src/slots/rehearsing.rt by rust/erase: don't edit.
//! A rehearsal of freeings: the free box that there would be, were some allocated leaves freed. What is stored stays as it is; marks, one
//! for each slot, show which members would be free.

use crate::atlas_model::Rectangle;
use crate::atlas_search::link::{Link, NO_SLOT};
use crate::atlas_store::slots::{read_node, Node, NodeKind, Slot};

// Whether there is a member at a slot that is free or shown as free.
#[inline]
fn is_open(slots: &[Slot], marks: &[bool], at: Link) -> bool {
    at.number != NO_SLOT
        && (read_node(slots, at).kind == NodeKind::Free || marks[at.number as usize])
}

// The first of the open members of a sequence that come without a gap before the one at a slot, or this one.
#[inline]
fn first_open(slots: &[Slot], marks: &[bool], at: Link) -> Link {
    let mut low = at;
    loop {
        let before = read_node(slots, low).previous;
        if !is_open(slots, marks, before) {
            return low;
        }
        low = before;
    }
}

// The last of those that come without a gap after it, or this one.
#[inline]
fn last_open(slots: &[Slot], marks: &[bool], at: Link) -> Link {
    let mut high = at;
    loop {
        let after = read_node(slots, high).next;
        if !is_open(slots, marks, after) {
            return high;
        }
        high = after;
    }
}

// Whether a run that begins and ends with these members is all that a container holds.
#[inline]
fn fills_container(low: &Node, high: &Node) -> bool {
    low.previous.number == NO_SLOT && high.next.number == NO_SLOT && low.parent.number != NO_SLOT
}

/// Shows an allocated leaf as free, and each container that has no other member left. The answer is the free box that would be around
/// it, were all that is shown freed.
#[inline]
pub fn show(slots: &[Slot], marks: &mut [bool], leaf: Link) -> Rectangle {
    let mut at = leaf;
    loop {
        marks[at.number as usize] = true;
        let low = read_node(slots, first_open(slots, marks, at));
        let high = read_node(slots, last_open(slots, marks, at));
        if !fills_container(&low, &high) {
            return Rectangle {
                min: low.area.min,
                max: high.area.max,
            };
        }
        at = low.parent;
    }
}
