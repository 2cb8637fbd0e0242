// Erased from crates/atlas_sheet/src/search.rt by rust/erase: don't edit.
//! The search for the smallest sheet.

use crate::atlas_sheet::allowed::Allowed;
use crate::atlas_sheet::error::SheetError;
use crate::atlas_sheet::options::Spacing;
use crate::atlas_sheet::trials::{try_size, Packing, Trial};
use crate::guillotiere::{size2, Size};
use wollemigo_support::alloc::Allocator;
use wollemigo_support::prelude::Ilog2;

// Where the search goes on: at the first guess, then further and further away from it, until a size that packs and one
// that doesn't are known; then half way between them.
#[inline]
fn probe(low: u32, high: u32, count: u32, first: u32, step: u32) -> u32 {
    if low == 0 && high == count {
        first
    } else if low == 0 {
        high - step.clamp(1, high)
    } else if high == count {
        low + step.min(high - low - 1)
    } else {
        low + (high - low) / 2
    }
}

// How many pixels the sprites ask for, with the padding at one end of each side, or the greatest number.
#[inline]
fn asked_area(sprites: &[Size], padding: u16) -> u64 {
    let mut area: u64 = 0;
    for sprite in sprites {
        let width = sprite.width.max(0) as u64 + u64::from(padding);
        let height = sprite.height.max(0) as u64 + u64::from(padding);
        area = area.saturating_add(width * height);
    }
    area
}

// Whether a sheet has a little more pixels than these.
#[inline]
fn is_roomy(size: Size, pixels: u64) -> bool {
    let area = size.width.max(0) as u64 * size.height.max(0) as u64;
    area >= pixels.saturating_add(pixels / 12)
}

// The first of the allowed sizes that has a little more pixels than the sprites ask for, or the last.
#[inline]
fn first_guess(allowed: Allowed, pixels: u64) -> u32 {
    let mut low = 0;
    let mut high = allowed.count() - 1;
    while low < high {
        let middle = low + (high - low) / 2;
        if is_roomy(allowed.nth(middle), pixels) {
            high = middle;
        } else {
            low = middle + 1;
        }
    }
    low
}

// The smallest sheet of a row, by bisection.
#[inline]
fn bisect<A: Allocator + Copy>(
    alloc: A,
    sprites: &[Size],
    trials: &[Trial<A>],
    allowed: Allowed,
    spacing: Spacing,
) -> Result<Option<Packing<A>>, SheetError> {
    let count = allowed.count();
    let first = first_guess(allowed, asked_area(sprites, spacing.padding));
    let mut low = 0;
    let mut high = count;
    let mut step = first / 64 + 1;
    let mut best = None;
    while low < high {
        let middle = probe(low, high, count, first, step);
        let size = allowed.nth(middle);
        let found = try_size(alloc, sprites, trials, size, spacing)?;
        if found.is_some() {
            best = found;
            high = middle;
        } else {
            low = middle + 1;
        }
        step = step.saturating_mul(2);
    }
    Ok(best)
}

// A power of two as a side.
#[inline]
fn power(exponent: u32) -> u32 {
    1 << exponent
}

// A sheet whose sides are powers of two.
#[inline]
fn power_size(wide: u32, high: u32) -> Size {
    let width = power(wide) as i32;
    let height = power(high) as i32;
    size2(width, height)
}

// The exponent of the greatest power of two that isn't greater than a side.
#[inline]
fn exponent_of(side: u32) -> u32 {
    side.ilog2()
}

// The exponent of the greatest power of two that isn't greater than a side with a sign.
#[inline]
fn exponent_in(side: i32) -> u32 {
    exponent_of(side as u32)
}

// The sheets of 2 ^ sum pixels, those that are nearest to a square first.
#[inline]
fn try_shapes<A: Allocator + Copy>(
    alloc: A,
    sprites: &[Size],
    trials: &[Trial<A>],
    sum: u32,
    most: u32,
    spacing: Spacing,
) -> Result<Option<Packing<A>>, SheetError> {
    for flat in 0..sum / 2 + 1 {
        let less = sum / 2 - flat;
        let more = sum - less;
        if more > most {
            return Ok(None);
        }
        let wide = try_size(alloc, sprites, trials, power_size(more, less), spacing)?;
        if wide.is_some() {
            return Ok(wide);
        }
        let high = try_size(alloc, sprites, trials, power_size(less, more), spacing)?;
        if high.is_some() {
            return Ok(high);
        }
    }
    Ok(None)
}

// The smallest sheet whose sides are powers of two, by the number of pixels.
#[inline]
fn scan<A: Allocator + Copy>(
    alloc: A,
    sprites: &[Size],
    trials: &[Trial<A>],
    greatest: i32,
    spacing: Spacing,
) -> Result<Option<Packing<A>>, SheetError> {
    let most = exponent_in(greatest);
    for sum in 0..2 * most + 1 {
        let found = try_shapes(alloc, sprites, trials, sum, most, spacing)?;
        if found.is_some() {
            return Ok(found);
        }
    }
    Ok(None)
}

// The smallest sheet of those allowed.
#[inline]
pub fn smallest<A: Allocator + Copy>(
    alloc: A,
    sprites: &[Size],
    trials: &[Trial<A>],
    allowed: Allowed,
    spacing: Spacing,
) -> Result<Option<Packing<A>>, SheetError> {
    match allowed {
        Allowed::Powers { greatest } => scan(alloc, sprites, trials, greatest, spacing),
        _ => bisect(alloc, sprites, trials, allowed, spacing),
    }
}

// The greatest sheet whose sides are powers of two.
#[inline]
fn greatest_power(greatest: i32) -> Size {
    let most = exponent_in(greatest);
    power_size(most, most)
}

/// The allowed sheet whose sides no other exceeds.
#[inline]
#[must_use]
pub fn greatest_sheet(allowed: Allowed) -> Size {
    match allowed {
        Allowed::Powers { greatest } => greatest_power(greatest),
        _ => allowed.greatest(),
    }
}

// One pixel less.
#[inline]
fn less_one(side: i32) -> i32 {
    side - 1
}

// Half of a side.
#[inline]
fn half(side: i32) -> i32 {
    (side as u32 / 2) as i32
}

// A square that is a pixel smaller.
#[inline]
fn smaller_square(size: Size, least: Size) -> Option<Size> {
    if size.width <= least.width {
        return None;
    }
    Some(size2(less_one(size.width), less_one(size.height)))
}

// A sheet that is a pixel lower.
#[inline]
fn lower(size: Size) -> Option<Size> {
    if size.height <= 1 {
        return None;
    }
    Some(size2(size.width, less_one(size.height)))
}

// A sheet with half of the longer side.
#[inline]
fn smaller_power(size: Size) -> Option<Size> {
    if size.width > 1 && size.width >= size.height {
        return Some(size2(half(size.width), size.height));
    }
    if size.height > 1 {
        return Some(size2(size.width, half(size.height)));
    }
    None
}

/// The allowed sheet that is one step smaller: a pixel lower, or with half of the longer side among powers of two.
#[inline]
#[must_use]
pub fn smaller_sheet(allowed: Allowed, size: Size) -> Option<Size> {
    match allowed {
        Allowed::One(_) => None,
        Allowed::Squares { .. } => smaller_square(size, allowed.least()),
        Allowed::Heights { .. } => lower(size),
        Allowed::Powers { .. } => smaller_power(size),
    }
}
