// Erased from crates/atlas_allocator/src/atlas/room.rt by rust/erase: don't edit.
//! How much of what is free is of no use for a request, and the largest free rectangle.

use crate::atlas_allocator::atlas::AtlasAllocator;
use crate::atlas_model::{Rectangle, Size};
use crate::atlas_store::slots::walks::free_sum;
use crate::atlas_store::slots::{NodeKind, Slot};
use wollemigo_support::alloc::Allocator;

// The area of a free rectangle, in unit squares.
#[inline]
fn area_of(free: &Rectangle) -> u64 {
    free.width() as u64 * free.height() as u64
}

// The area of a free rectangle, if these sides don't fit it.
#[inline]
fn lost_in(free: &Rectangle, size: Size) -> u64 {
    if size.width <= free.width() && size.height <= free.height() {
        return 0;
    }
    area_of(free)
}

// The area of all free slots that these sides don't fit, together.
#[inline]
fn lost_sum(slots: &[Slot], size: Size) -> u64 {
    let mut sum = 0;
    for slot in slots {
        if slot.kind == NodeKind::Free {
            sum += lost_in(&slot.area, size);
        }
    }
    sum
}

// Whether a free rectangle has the larger area of two, or the same and lies above the other, or at the same height and left of it.
#[inline]
fn precedes(one: &Rectangle, other: &Rectangle) -> bool {
    let area = area_of(one);
    let other_area = area_of(other);
    if area != other_area {
        return other_area < area;
    }
    if one.min.y != other.min.y {
        return one.min.y < other.min.y;
    }
    one.min.x < other.min.x
}

// The one of two free rectangles that precedes the other.
#[inline]
fn larger_of(held: Rectangle, free: Rectangle) -> Rectangle {
    if precedes(&held, &free) {
        return held;
    }
    free
}

// That one of two free rectangles which precedes the other, or the second where there is no first.
#[inline]
fn larger(best: Option<Rectangle>, free: Rectangle) -> Rectangle {
    match best {
        Some(held) => larger_of(held, free),
        None => free,
    }
}

// Of the free slots the one whose rectangle precedes all others.
#[inline]
fn largest_of(slots: &[Slot]) -> Option<Rectangle> {
    let mut best = None;
    for slot in slots {
        if slot.kind == NodeKind::Free {
            best = Some(larger(best, slot.area));
        }
    }
    best
}

impl<A: Allocator + Copy> AtlasAllocator<A> {
    /// The area that is free in rectangles which have no room for a request of this size, rounded up to the alignment, in
    /// unit squares: all that is free, if a side is 0 or less. It says how much of the free area (`free_area`) is of no use
    /// for requests of the usual size: where that is a lot, it is time to rearrange. One pass over the slots, and no memory.
    #[inline]
    #[must_use]
    pub fn unusable_area(&self, requested_size: Size) -> u64 {
        match self.store.rounded(requested_size) {
            Some(size) => lost_sum(self.store.slots(), size),
            None => free_sum(self.store.slots()),
        }
    }

    /// The free rectangle of the largest area; of several the topmost one, and of these the leftmost. None if nothing is
    /// free. A request as large as its area needn't have room: `can_fit` is the test. One pass over the slots, and no memory.
    #[inline]
    #[must_use]
    pub fn largest_free(&self) -> Option<Rectangle> {
        largest_of(self.store.slots())
    }
}
