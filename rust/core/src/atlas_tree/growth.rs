// Erased from crates/atlas_tree/src/growth.rt by rust/erase: don't edit.
//! Growing the tree of an atlas, by the calls of `store` and `extend`.

use crate::atlas_model::{size2, Size};
use crate::atlas_search::cut::Orientation;
use crate::atlas_search::link::{Link, NO_SLOT};
use crate::atlas_store::store::Store;
use wollemigo_support::alloc::Allocator;

/// How an atlas that isn't one free box grows: first along its top sequence, then across it.
#[derive(Clone, Copy)]
pub struct Growth {
    /// The last member of the top sequence, where that grows longer.
    pub last: Link,
    pub from: Size,
    /// The size once the side along the top sequence has grown.
    pub middle: Size,
    pub to: Size,
}

// The last member of the sequence that begins at `first`, found in one pass.
#[inline]
fn last_member<A: Allocator>(store: &Store<A>, first: Link) -> Link {
    let mut at = first;
    let mut next = store.node(at).next;
    while next.number != NO_SLOT {
        at = next;
        next = store.node(at).next;
    }
    at
}

// The size `from` with the side along an axis of the size `to`.
#[inline]
fn grown_along(from: Size, to: Size, axis: Orientation) -> Size {
    match axis {
        Orientation::Horizontal => size2(to.width, from.height),
        Orientation::Vertical => size2(from.width, to.height),
    }
}

/// How an atlas grows whose tree begins at `first`.
#[inline]
#[must_use]
pub fn growth_for<A: Allocator>(store: &Store<A>, first: Link, from: Size, to: Size) -> Growth {
    let middle = grown_along(from, to, store.node(first).axis);
    let last = if middle == from {
        first
    } else {
        last_member(store, first)
    };
    Growth {
        last,
        from,
        middle,
        to,
    }
}

/// How many slots a growth takes.
#[inline]
#[must_use]
pub fn slots_for<A: Allocator>(store: &Store<A>, growth: Growth) -> u32 {
    let has_strip = growth.middle != growth.from && !store.is_free(growth.last);
    let strip = if has_strip { 1 } else { 0 };
    let top = if growth.middle != growth.to { 2 } else { 0 };
    strip + top
}

// The top sequence, whose last member this is, grows to a size that is d longer: a free last member is enlarged, and
// else a free strip is appended.
#[inline]
fn lengthen<A: Allocator>(store: &mut Store<A>, last: Link, size: Size) {
    if store.is_free(last) {
        store.unlist(last);
        store.stretch(last, size);
        store.list(last);
    } else {
        let strip = store.append(last, size);
        store.list(strip);
    }
}

// The top sequence, which spans `inner`, becomes the first of two members, and a free strip the second: together they
// span `size`. The answer is the slot of the first.
#[inline]
fn widen<A: Allocator>(store: &mut Store<A>, first: Link, inner: Size, size: Size) -> Link {
    let (top, strip) = store.nest(first, inner, size);
    store.list(strip);
    top
}

/// Carries out a growth of the tree that begins at `first`, for which there are slots. The answer is the slot at which
/// the tree begins then. One pass along the top sequence where that is put into a new one.
#[inline]
pub fn grow_tree<A: Allocator>(store: &mut Store<A>, first: Link, growth: Growth) -> Link {
    if growth.middle != growth.from {
        lengthen(store, growth.last, growth.middle);
    }
    if growth.to == growth.middle {
        return first;
    }
    widen(store, first, growth.middle, growth.to)
}

/// Enlarges the one free box of an atlas that has no other. Takes no slots.
#[inline]
pub fn grow_whole<A: Allocator>(store: &mut Store<A>, at: Link, size: Size) {
    store.unlist(at);
    store.stretch_whole(at, size);
    store.list(at);
}
