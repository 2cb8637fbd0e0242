// Erased from crates/atlas_maxrects/src/corners.rt by rust/erase: don't edit.
//! Where a box of some sides may lie in free boxes: the topmost corner, and of these the leftmost.

use crate::atlas_maxrects::free::FreeBox;

/// A corner of a free box.
#[derive(Clone, Copy)]
pub struct Corner {
    pub x: u32,
    pub y: u32,
}

// Whether a box of these sides has room in a free one.
#[inline]
fn has_room(free: FreeBox, width: u32, height: u32) -> bool {
    width <= free.right.saturating_sub(free.left) && height <= free.bottom.saturating_sub(free.top)
}

// Whether the first corner is higher up, or as high and no further right.
#[inline]
fn comes_first(one: Corner, other: Corner) -> bool {
    one.y < other.y || one.y == other.y && one.x <= other.x
}

// The better of a corner, if there is one, and another.
#[inline]
fn better(best: Option<Corner>, other: Corner) -> Corner {
    match best {
        Some(one) if comes_first(one, other) => one,
        _ => other,
    }
}

/// The topmost corner of a free box that has room for these sides, and of these the leftmost.
#[inline]
#[must_use]
pub fn best_corner(free: &[FreeBox], width: u32, height: u32) -> Option<Corner> {
    let mut best = None;
    for one in free {
        if has_room(*one, width, height) {
            let corner = Corner {
                x: one.left,
                y: one.top,
            };
            best = Some(better(best, corner));
        }
    }
    best
}
