// Erased from crates/atlas_search/src/choice.rt by rust/erase: don't edit.
//! Rounded sizes, and what a search compares of the boxes that it is shown.

use crate::atlas_model::{Rectangle, Size};
use crate::atlas_search::bands::Scale;

// The least multiple of the alignment that is at least `side`, if an `i32` can hold it.
#[inline]
fn rounded_side(side: i32, alignment: i32) -> Option<i32> {
    if side <= 0 {
        return None;
    }
    if alignment == 1 {
        return Some(side);
    }
    let divisor = alignment as u32;
    let multiple = (side as u32 + (divisor - 1)) / divisor * divisor;
    if multiple <= 2147483647 {
        Some(multiple as i32)
    } else {
        None
    }
}

/// The size with both sides rounded up to multiples of the alignment; None if a side is 0 or less, or if a rounded side
/// passes 2147483647.
#[inline]
#[must_use]
pub fn rounded(size: Size, options: &Scale) -> Option<Size> {
    let alignment = options.plain().alignment;
    let width = rounded_side(size.width, alignment.width)?;
    let height = rounded_side(size.height, alignment.height)?;
    Some(Size { width, height })
}

// What a side leaves of a stretch, which is below 0 exactly if it does not fit.
#[inline]
fn spare(from: i32, to: i32, side: i32) -> i32 {
    to - from - side
}

// The smaller of the two side differences, which is below 0 exactly if the size does not fit.
#[inline]
#[must_use]
pub fn margin_in(rectangle: Rectangle, size: Size) -> i32 {
    let width = spare(rectangle.min.x, rectangle.max.x, size.width);
    let height = spare(rectangle.min.y, rectangle.max.y, size.height);
    if width < height {
        width
    } else {
        height
    }
}
