// Erased from crates/atlas_store/src/slots/lists.rt by rust/erase: don't edit.
//! The lists of free slots, by the bands of both sides, and the list of unused slots: links inside the slots.

use crate::atlas_model::{point2, Rectangle};
use crate::atlas_search::bands::{Scale, BANDS};
use crate::atlas_search::cut::{exact_size, Orientation};
use crate::atlas_search::heap::{push, remove};
use crate::atlas_search::link::{Link, NO_SLOT, TAG};
use crate::atlas_search::table::{Table, FEW};
use crate::atlas_store::slots::{read_node, read_ring, write_node, NodeKind, Slot};
use wollemigo_support::alloc::Allocator;
use wollemigo_support::prelude::Vec;

/// The slot that was listed last, with the number of its list; none once it left it.
#[derive(Clone, Copy)]
pub struct Recent {
    pub at: Link,
    pub list: usize,
}

impl Recent {
    /// No slot.
    pub const NONE: Recent = Recent {
        at: Link::NONE,
        list: 0,
    };

    // The slot, if it stands in the list of this number.
    #[inline]
    fn in_list(&self, list: usize) -> Link {
        if self.list == list {
            self.at
        } else {
            Link::NONE
        }
    }

    // This slot leaves its list.
    #[inline]
    fn forget(&mut self, at: Link) {
        if self.at.number == at.number {
            self.at = Link::NONE;
        }
    }
}

// Where `up` tells a list, it begins with `first` from now on.
#[inline]
fn set_top<A: Allocator>(lists: &mut Table<A>, up: Link, first: Link) {
    if up.number >= TAG {
        lists.set_first((up.number - TAG) as usize, first);
    }
}

// What is on the right of a slot.
#[inline]
fn set_right(slots: &mut [Slot], at: Link, right: Link) {
    let slot = &mut slots[at.number as usize];
    slot.right = right;
}

/// Takes a free slot out of its list; it is detached from then on.
#[inline(always)]
pub fn unlist<A: Allocator>(
    slots: &mut [Slot],
    lists: &mut Table<A>,
    recent: &mut Recent,
    at: Link,
) {
    let up = read_ring(slots, at).up;
    let rest = remove(slots, at);
    set_top(lists, up, rest);
    recent.forget(at);
}

/// Puts a free and detached slot into its list. Each free slot has an exact rectangle.
#[inline(always)]
pub fn enlist<A: Allocator>(
    slots: &mut [Slot],
    lists: &mut Table<A>,
    options: &Scale,
    recent: &mut Recent,
    at: Link,
) {
    let node = read_node(slots, at);
    let place = options.place_for(exact_size(node.area));
    let list = BANDS * place.row + place.column;
    let first = push(
        slots,
        place.tag(),
        lists.head(place),
        recent.in_list(list),
        at,
    );
    lists.raise(place, first);
    *recent = Recent { at, list };
}

// A slot that was never taken.
#[inline]
fn fresh_slot() -> Slot {
    let none = Link { number: 0 };
    let corner = point2(0, 0);
    Slot {
        parent: none,
        previous: none,
        next: none,
        area: Rectangle {
            min: corner,
            max: corner,
        },
        up: none,
        left: none,
        right: none,
        kind: NodeKind::Unused,
        axis: Orientation::Vertical,
        generation: 0,
        is_fork: false,
    }
}

// The generation of a slot rises by one, and after 255 begins again at 0.
#[inline]
fn renew(slots: &mut [Slot], at: Link) {
    let mut node = read_node(slots, at);
    node.generation = node.generation.wrapping_add(1);
    write_node(slots, at, node);
}

/// Takes the first of the unused slots, whose generation rises, or else a new one, for which there is room. It is
/// claimed from then on.
#[inline]
pub fn take_slot<A: Allocator>(slots: &mut Vec<Slot, A>, unused: &mut Link) -> Link {
    let at = *unused;
    if at.number == NO_SLOT {
        let number = slots.len() as u32;
        slots.push_reserved(fresh_slot());
        Link { number }
    } else {
        let ring = read_ring(slots, at);
        *unused = ring.right;
        renew(slots, at);
        at
    }
}

/// Puts a slot that is claimed, and not used, in front of the unused ones.
#[inline]
pub fn give_back(slots: &mut [Slot], unused: &mut Link, at: Link) {
    set_right(slots, at, *unused);
    *unused = at;
}
