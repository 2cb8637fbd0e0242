// Erased from crates/atlas_tree/src/requests.rt by rust/erase: don't edit.
//! Granting a request: how the leaf of the free slot that it takes gives way (a plan), the slots that this needs, and
//! the placing itself, by the calls of `store`.

use crate::atlas_model::{Allocation, Size};
use crate::atlas_search::best::Found;
use crate::atlas_search::cut::{exact_size, orientation_of, Orientation};
use crate::atlas_search::link::Link;
use crate::atlas_store::slots::placing::Plan;
use crate::atlas_store::slots::walks::slot_id;
use crate::atlas_store::slots::Node;
use crate::atlas_store::store::Store;
use wollemigo_support::alloc::Allocator;

/// Places a request in the slot that it takes, which gives way by this plan. The answer is its id and its rectangle.
#[inline]
pub fn grant<A: Allocator>(store: &mut Store<A>, chosen: Found, plan: Plan) -> Allocation {
    store.unlist(chosen.at);
    let slot = place(store, chosen.at, plan);
    let node = store.node(slot);
    Allocation {
        id: slot_id(slot.number as usize, node.generation),
        rectangle: node.area,
    }
}

/// How many slots a plan takes.
#[inline]
#[must_use]
pub fn slots_needed(plan: Plan) -> u32 {
    match plan {
        Plan::Whole => 0,
        Plan::StripAlong(_) => 1,
        Plan::CornerAlong(_, _) => 3,
        Plan::StripAcross(_) => 2,
        Plan::CornerAcross(_, _) => 4,
    }
}

// The pixels of a size along an axis, and those across it.
#[inline]
fn along_and_across(size: Size, axis: Orientation) -> (u32, u32) {
    let width = size.width as u32;
    let height = size.height as u32;
    match axis {
        Orientation::Horizontal => (width, height),
        Orientation::Vertical => (height, width),
    }
}

// The plan for a request that has all pixels of a leaf but on one axis.
#[inline]
fn strip(leaf: &Node, axis: Orientation, pixels: u32) -> Plan {
    if axis == leaf.axis {
        Plan::StripAlong(pixels)
    } else {
        Plan::StripAcross(pixels)
    }
}

// The plan for a request that is smaller than a leaf on both axes.
#[inline]
fn corner(leaf: &Node, whole: Size, size: Size) -> Plan {
    let (along, across) = along_and_across(size, leaf.axis);
    if orientation_of(whole, size) == leaf.axis {
        Plan::CornerAlong(along, across)
    } else {
        Plan::CornerAcross(along, across)
    }
}

/// The plan for a request that fits a leaf.
#[inline]
#[must_use]
pub fn plan_for(leaf: &Node, size: Size) -> Plan {
    let whole = exact_size(leaf.area);
    if whole.width == size.width {
        if whole.height == size.height {
            Plan::Whole
        } else {
            strip(leaf, Orientation::Vertical, size.height as u32)
        }
    } else if whole.height == size.height {
        strip(leaf, Orientation::Horizontal, size.width as u32)
    } else {
        corner(leaf, whole, size)
    }
}

/// Carries out a plan in the detached leaf of a slot, for which there are slots. The answer is the slot that is
/// granted.
#[inline]
pub fn place<A: Allocator>(store: &mut Store<A>, at: Link, plan: Plan) -> Link {
    match plan {
        Plan::Whole => {
            store.place(at, plan);
            at
        }
        Plan::StripAlong(along) => strip_along(store, at, along),
        Plan::CornerAlong(along, across) => corner_along(store, at, along, across),
        Plan::StripAcross(across) => strip_across(store, at, across),
        Plan::CornerAcross(along, across) => corner_across(store, at, along, across),
    }
}

#[inline]
fn strip_along<A: Allocator>(store: &mut Store<A>, at: Link, along: u32) -> Link {
    let parts = store.place(at, Plan::StripAlong(along));
    store.list(parts.split);
    at
}

#[inline]
fn corner_along<A: Allocator>(store: &mut Store<A>, at: Link, along: u32, across: u32) -> Link {
    let parts = store.place(at, Plan::CornerAlong(along, across));
    store.list(parts.split);
    store.list(parts.leftover);
    parts.granted
}

#[inline]
fn strip_across<A: Allocator>(store: &mut Store<A>, at: Link, across: u32) -> Link {
    let parts = store.place(at, Plan::StripAcross(across));
    store.list(parts.split);
    parts.granted
}

#[inline]
fn corner_across<A: Allocator>(store: &mut Store<A>, at: Link, along: u32, across: u32) -> Link {
    let parts = store.place(at, Plan::CornerAcross(along, across));
    store.list(parts.split);
    store.list(parts.leftover);
    parts.granted
}
