// Erased from crates/atlas_search/src/best.rt by rust/erase: don't edit.
//! The best free box that a search was shown.

use crate::atlas_model::{Rectangle, Size};
use crate::atlas_search::cells::Cell;
use crate::atlas_search::choice::margin_in;
use crate::atlas_search::link::Link;
use wollemigo_support::prelude::CastUnsigned;

/// The free box that a request takes, and its entry.
#[derive(Clone, Copy)]
pub struct Found {
    pub rectangle: Rectangle,
    pub at: Link,
}

// The rank of no box, and the corner of none.
const NO_RANK: u32 = 2147483647;

const NO_CORNER: u64 = u64::MAX;

// No limit of margins.
const NO_REACH: u32 = 4294967295;

// Half of what an `i32` can hold.
const FAR: u32 = 1073741824;

// A side, and so much more.
#[inline]
fn longer(side: i32, more: u32) -> i32 {
    (side as u32 + more) as i32
}

/// The best of the boxes that a search was shown.
#[derive(Clone, Copy)]
pub struct Best {
    size: Size,
    is_large: bool,
    // A least margin above 0 is the rank by exclusive or with this.
    flip: u32,
    // The lesser the better, and 0 for an equal side; `NO_RANK` as long as no box was shown that the request fits.
    rank: u32,
    // Its `min`, as `corner` has it.
    corner: u64,
    // Its corner once it has an equal side: no box that begins there or later is better. Before that `NO_CORNER`.
    bar: u64,
    // No box with a greater least margin is better; `NO_REACH` as long as that isn't known.
    reach: u32,
    // Its entry.
    at: Link,
}

// By exclusive or with this a margin above 0 is its rank: of a large request the greater the lesser.
#[inline]
fn flip_of(is_large: bool) -> u32 {
    if is_large {
        NO_RANK
    } else {
        0
    }
}

// The rank of a box with this least margin, if that is above 0.
#[inline]
fn rank_above_zero(flip: u32, margin: i32) -> u32 {
    margin.cast_unsigned() ^ flip
}

// The rank of a box with this least margin.
#[inline]
fn rank(flip: u32, margin: i32) -> u32 {
    if margin == 0 {
        return 0;
    }
    rank_above_zero(flip, margin)
}

// How great the least margin of a box may be that is better than the best of this rank. For a large request that doesn't end, unless there
// is an equal side.
#[inline]
fn reach_of(is_large: bool, rank: u32) -> u32 {
    if rank == 0 {
        return 0;
    }
    if is_large {
        return NO_REACH;
    }
    if rank >= NO_RANK {
        return NO_REACH;
    }
    rank
}

// The `min` of a box as one number, the greater the later the box comes: the y, and below it the x.
#[inline]
#[must_use]
pub fn corner(rectangle: Rectangle) -> u64 {
    rectangle.min.y as u32 as u64 * (1 << 32) + rectangle.min.x as u32 as u64
}

impl Best {
    /// No box was shown yet for a request of this rounded size.
    #[inline]
    #[must_use]
    pub fn new(size: Size, is_large: bool) -> Best {
        Best {
            size,
            is_large,
            flip: flip_of(is_large),
            rank: NO_RANK,
            corner: NO_CORNER,
            bar: NO_CORNER,
            reach: NO_REACH,
            at: Link::NONE,
        }
    }

    // Whether a box of this rank with this corner is to be kept rather than the best one.
    #[inline]
    fn is_beaten_by(&self, rank: u32, corner: u64) -> bool {
        rank < self.rank || (rank == self.rank && corner < self.corner)
    }

    // The rank of a box with this corner, if it is to be kept rather than the best one.
    #[inline]
    fn rank_ahead(&self, rectangle: Rectangle, corner: u64) -> Option<u32> {
        let margin = margin_in(rectangle, self.size);
        if margin < 0 {
            return None;
        }
        let rank = rank(self.flip, margin);
        if self.is_beaten_by(rank, corner) {
            Some(rank)
        } else {
            None
        }
    }

    /// Shows the box of an entry, which has this corner. Answers whether it is the best now and has an equal side: no box that begins there
    /// or later is better then.
    #[inline]
    pub fn look(&mut self, rectangle: Rectangle, corner: u64, at: Link) -> bool {
        if let Some(rank) = self.rank_ahead(rectangle, corner) {
            *self = Best {
                size: self.size,
                is_large: self.is_large,
                flip: self.flip,
                rank,
                corner,
                bar: if rank == 0 { corner } else { NO_CORNER },
                reach: reach_of(self.is_large, rank),
                at,
            };
            return rank == 0;
        }
        false
    }

    /// Shows the box of an entry, which has this corner and is longer on both sides than the request.
    #[inline(always)]
    pub fn look_larger(&mut self, rectangle: Rectangle, corner: u64, at: Link) {
        let rank = rank_above_zero(self.flip, margin_in(rectangle, self.size));
        if self.is_beaten_by(rank, corner) {
            *self = Best {
                size: self.size,
                is_large: self.is_large,
                flip: self.flip,
                rank,
                corner,
                bar: NO_CORNER,
                reach: if self.is_large { NO_REACH } else { rank },
                at,
            };
        }
    }

    /// Whether the best has an equal side.
    #[inline]
    #[must_use]
    pub fn has_equal_side(&self) -> bool {
        self.rank == 0
    }

    /// Whether the best has an equal side and begins at this corner or before it: no box that begins there or later is
    /// better.
    #[inline]
    #[must_use]
    pub fn passes(&self, corner: u64) -> bool {
        self.bar <= corner
    }

    /// Whether the best leaves over 1 or nothing and begins at this corner or before it: of boxes that are longer on both sides than the
    /// request, none that begins there or later is better.
    #[inline(always)]
    #[must_use]
    pub fn passes_larger(&self, corner: u64) -> bool {
        self.reach <= 1 && self.corner <= corner
    }

    /// Whether the request may fit a box of a size in this cell, by the widths there alone, or by the heights.
    #[inline(always)]
    #[must_use]
    pub fn may_fit_by(&self, cell: Cell, is_wide: bool) -> bool {
        cell.is_before_end(self.size, is_wide)
    }

    /// Whether the request may fit a box of a size in this cell.
    #[inline(always)]
    #[must_use]
    pub fn may_fit_in(&self, cell: Cell) -> bool {
        self.may_fit_by(cell, true) && self.may_fit_by(cell, false)
    }

    /// Whether a box of a size in this cell may leave no more over than the best does, or anything where the request is large and the best
    /// has no equal side.
    #[inline(always)]
    #[must_use]
    pub fn may_gain_in(&self, cell: Cell) -> bool {
        !cell.is_beyond(self.size, self.reach)
    }

    /// Whether no box of a size in this cell that begins at this corner or later is better than the best, since each leaves over as much as
    /// that or more. It isn't said where the best has an equal side, nor of a large request.
    #[inline(always)]
    #[must_use]
    pub fn ends_in(&self, cell: Cell, corner: u64) -> bool {
        if corner < self.corner {
            return false;
        }
        if self.reach == 0 {
            return false;
        }
        cell.is_beyond(self.size, self.reach - 1)
    }

    /// A size such that no box is better than the best that is both wider and higher; None as long as none is known, where the
    /// request is large and the best has no equal side, and where a side may pass what an `i32` can hold.
    #[inline]
    #[must_use]
    pub fn farthest(&self) -> Option<Size> {
        if self.reach >= FAR {
            return None;
        }
        if self.size.width >= FAR as i32 || self.size.height >= FAR as i32 {
            return None;
        }
        Some(Size {
            width: longer(self.size.width, self.reach),
            height: longer(self.size.height, self.reach),
        })
    }

    /// The entry of the best of the boxes shown.
    #[inline]
    #[must_use]
    pub fn found(&self) -> Option<Link> {
        if self.rank == NO_RANK {
            None
        } else {
            Some(self.at)
        }
    }
}
