// Erased from crates/atlas_cache/src/rooms/usable.rt by rust/erase: don't edit.
//! How much of a page's free area is of use for entries of a size.

use crate::atlas_cache::rooms::Rooms;
use crate::atlas_entries::error::CacheError;
use crate::guillotiere::{AtlasAllocator, Rectangle, Size};
use wollemigo_support::alloc::Allocator;

// A side with the padding at both ends, rounded up to a multiple of the alignment. A side below 0 counts as 0.
#[inline]
fn taken_side(side: i32, padding: i32, alignment: i32) -> u64 {
    let asked = side.max(0) as u64 + 2 * (padding as u64);
    let step = alignment as u64;
    (asked + (step - 1)) / step * step
}

/// How far `to` lies beyond `from`, where a position below 0 counts as 0.
#[inline]
#[must_use]
pub fn extent(from: i32, to: i32) -> u64 {
    (to.max(0) as u64).saturating_sub(from.max(0) as u64)
}

/// How many pixels a size has. A side below 0 counts as 0.
#[inline]
#[must_use]
pub fn pixels_of(size: Size) -> u64 {
    extent(0, size.width) * extent(0, size.height)
}

// The area of a free rectangle, if one of these sides doesn't fit it.
#[inline]
fn unusable_of(free: &Rectangle, width: u64, height: u64) -> u64 {
    let wide = extent(free.min.x, free.max.x);
    let high = extent(free.min.y, free.max.y);
    if width <= wide && height <= high {
        return 0;
    }
    wide * high
}

// The area of several free rectangles that one of these sides doesn't fit, together.
#[inline]
fn unusable_sum(free: &[Rectangle], width: u64, height: u64) -> u64 {
    let mut sum = 0;
    for at in 0..free.len() {
        sum += unusable_of(&free[at], width, height);
    }
    sum
}

// The area of a page's free rectangles that one of these sides doesn't fit.
#[inline]
fn unusable_on<A: Allocator + Copy>(
    page: &AtlasAllocator<A>,
    width: u64,
    height: u64,
) -> Result<u64, CacheError> {
    let _all = page.free_area();
    let free = match page.free_rectangles() {
        Ok(free) => free,
        _ => {
            return Err(CacheError::Memory);
        }
    };
    let lost = unusable_sum(&free, width, height);
    Ok(lost)
}

impl<A: Allocator + Copy> Rooms<A> {
    /// The area of a page, in pixels, that is free in rectangles which have no room for an entry of this size, with its
    /// padding and rounded up to the alignment. Requires that there is such a page. A side below 0 counts as 0. Takes memory
    /// for a list of the page's free rectangles: `Memory` if that is refused.
    #[inline]
    pub fn unusable_area(&self, page: u32, size: Size) -> Result<u64, CacheError> {
        let options = &self.options;
        let alignment = options.atlas.alignment;
        let width = taken_side(size.width, options.padding, alignment.width);
        let height = taken_side(size.height, options.padding, alignment.height);
        unusable_on(&self.pages[page as usize], width, height)
    }
}
