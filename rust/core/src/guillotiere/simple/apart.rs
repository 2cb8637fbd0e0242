// Erased from crates/guillotiere/src/simple/apart.rt by rust/erase: don't edit.
//! Whether boxes are disjoint, by halving the slab that they lie in.

use crate::atlas_model::{Rectangle, Size};
use wollemigo_support::alloc::{AllocError, Allocator};
use wollemigo_support::prelude::Vec;

// The columns from `low` on and before `high`.
#[derive(Clone, Copy)]
struct Slab {
    low: i32,
    high: i32,
}

// Two parts of a slab.
#[derive(Clone, Copy)]
struct Halves {
    first: Slab,
    second: Slab,
}

// Whether a box goes through a slab from side to side.
#[inline]
fn is_full(area: &Rectangle, slab: Slab) -> bool {
    area.min.x <= slab.low && slab.high <= area.max.x
}

// Whether a box that doesn't go through a slab reaches into a part of it.
#[inline]
fn is_part(area: &Rectangle, slab: Slab, part: Slab) -> bool {
    !is_full(area, slab) && area.min.x < part.high && part.low < area.max.x
}

// Whether a slab has one column.
#[inline]
fn is_one(slab: Slab) -> bool {
    slab.high - slab.low < 2
}

// A column inside a slab of two or more.
#[inline]
fn middle(slab: Slab) -> i32 {
    slab.low + (slab.high - slab.low) / 2
}

// A slab of two columns or more, in two.
#[inline]
fn halve(slab: Slab) -> Halves {
    let middle = middle(slab);
    Halves {
        first: Slab {
            low: slab.low,
            high: middle,
        },
        second: Slab {
            low: middle,
            high: slab.high,
        },
    }
}

// The slab of a whole size.
#[inline]
fn whole(size: Size) -> Slab {
    Slab {
        low: 0,
        high: size.width,
    }
}

// Whether a box begins above the end that it has to lie below: that of all boxes before it if it goes through, otherwise that of those
// that go through.
#[inline]
fn is_above(area: &Rectangle, is_full: bool, all: i32, full: i32) -> bool {
    if is_full {
        area.min.y < all
    } else {
        area.min.y < full
    }
}

// The end of some boxes and of one more, if that one counts.
#[inline]
fn end_with(end: i32, area: &Rectangle, counts: bool) -> i32 {
    if counts && end < area.max.y {
        area.max.y
    } else {
        end
    }
}

// Whether of boxes in this order each that goes through a slab lies below all before it, and each of the others below those before it
// that go through. It is so of disjoint boxes that come from the top down.
#[inline]
fn are_stacked(boxes: &[Rectangle], slab: Slab) -> bool {
    let mut all = 0;
    let mut full = 0;
    for area in boxes {
        let is_full = is_full(area, slab);
        if is_above(area, is_full, all, full) {
            return false;
        }
        all = end_with(all, area, true);
        full = end_with(full, area, is_full);
    }
    true
}

// The boxes of a slab that don't go through it and reach into a part of it, in their order.
#[inline]
fn parts<A: Allocator>(
    alloc: A,
    boxes: &[Rectangle],
    slab: Slab,
    part: Slab,
) -> Result<Vec<Rectangle, A>, AllocError> {
    let mut parts = Vec::new(alloc);
    for area in boxes {
        if is_part(area, slab, part) {
            parts.push(*area)?;
        }
    }
    Ok(parts)
}

// Whether no unit square of a slab lies in two of these boxes, each of which reaches into it, in their order from the top. The slab is
// halved until each of its boxes goes through, at most 31 times.
#[inline]
fn are_apart_in<A: Allocator + Copy>(
    alloc: A,
    boxes: &[Rectangle],
    slab: Slab,
) -> Result<bool, AllocError> {
    if boxes.len() < 2 {
        return Ok(true);
    }
    if !are_stacked(boxes, slab) {
        return Ok(false);
    }
    if is_one(slab) {
        return Ok(true);
    }
    let halves = halve(slab);
    let left = parts(alloc, boxes, slab, halves.first)?;
    if !are_apart_in(alloc, &left, halves.first)? {
        return Ok(false);
    }
    let right = parts(alloc, boxes, slab, halves.second)?;
    are_apart_in(alloc, &right, halves.second)
}

// Whether a box begins at the left side of a size or later, has a width, and doesn't pass the right side.
#[inline]
fn is_across(area: &Rectangle, size: Size) -> bool {
    area.min.x >= 0 && area.min.x < area.max.x && area.max.x <= size.width
}

// Whether a box begins at the upper side of a size or later, has a height, and doesn't pass the lower side.
#[inline]
fn is_along(area: &Rectangle, size: Size) -> bool {
    area.min.y >= 0 && area.min.y < area.max.y && area.max.y <= size.height
}

// Whether a box has sides above 0, and lies within a size.
#[inline]
fn is_within(area: &Rectangle, size: Size) -> bool {
    is_across(area, size) && is_along(area, size)
}

/// Whether each of these boxes has sides above 0, and lies within a size.
#[inline]
#[must_use]
pub fn are_within(boxes: &[Rectangle], size: Size) -> bool {
    for area in boxes {
        if !is_within(area, size) {
            return false;
        }
    }
    true
}

// Boxes in their order from the top.
#[inline]
fn in_order<A: Allocator>(alloc: A, boxes: &[Rectangle]) -> Result<Vec<Rectangle, A>, AllocError> {
    let mut sorted = Vec::from_slice(alloc, boxes)?;
    sorted.sort_unstable_by_key(|area| area.min.y);
    Ok(sorted)
}

/// Whether boxes within a size are disjoint.
#[inline]
pub fn are_disjoint<A: Allocator + Copy>(
    alloc: A,
    boxes: &[Rectangle],
    size: Size,
) -> Result<bool, AllocError> {
    let sorted = in_order(alloc, boxes)?;
    are_apart_in(alloc, &sorted, whole(size))
}
