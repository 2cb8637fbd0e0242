// Erased from crates/atlas_sheet/src/filling.rt by rust/erase: don't edit.
//! A sheet of one size with as many pixels of sprites as it takes.

use crate::atlas_sheet::error::SheetError;
use crate::atlas_sheet::options::Spacing;
use crate::atlas_sheet::places::{try_way, Found};
use crate::atlas_sheet::ways::Way;
use crate::guillotiere::{Rectangle, Size};
use wollemigo_support::alloc::Allocator;
use wollemigo_support::prelude::Vec;

/// What the best of several ways finds.
pub struct Filling<A: Allocator> {
    pub way: Way,
    pub found: Found<A>,
    /// How many pixels the places have together.
    pub used_area: u128,
}

// Whether a side with the padding at both its ends is at most 2147483647.
#[inline]
fn is_short(side: i32, padding: u16) -> bool {
    side <= i32::MAX - 2 * i32::from(padding)
}

// Whether a sprite can be packed.
#[inline]
fn check_sprite(number: usize, sprite: Size, spacing: Spacing) -> Result<(), SheetError> {
    if !sprite.is_positive() {
        return Err(SheetError::EmptySprite(number));
    }
    if !is_short(sprite.width, spacing.padding) || !is_short(sprite.height, spacing.padding) {
        return Err(SheetError::GreatSprite(number));
    }
    Ok(())
}

// Whether all sprites can be packed.
#[inline]
pub fn check(sprites: &[Size], spacing: Spacing) -> Result<(), SheetError> {
    for (number, sprite) in sprites.iter().enumerate() {
        check_sprite(number, *sprite, spacing)?;
    }
    Ok(())
}

/// A coordinate or a side, or 0 for one below 0.
#[inline]
#[must_use]
pub fn from_zero(coordinate: i32) -> u64 {
    coordinate.max(0) as u64
}

// How many pixels a place has.
#[inline]
fn place_area(place: Option<Rectangle>) -> u64 {
    let place = match place {
        Some(place) => place,
        _ => {
            return 0;
        }
    };
    let width = from_zero(place.max.x).saturating_sub(from_zero(place.min.x));
    let height = from_zero(place.max.y).saturating_sub(from_zero(place.min.y));
    width * height
}

// How many pixels the places have together.
#[inline]
#[must_use]
pub fn used_area(places: &[Option<Rectangle>]) -> u128 {
    let mut area = 0;
    for place in places {
        area += u128::from(place_area(*place));
    }
    area
}

// What these ways find, from the best one so far on.
#[inline]
pub fn fill_by<A: Allocator + Copy>(
    alloc: A,
    sprites: &[Size],
    size: Size,
    spacing: Spacing,
    ways: &[Way],
) -> Result<Filling<A>, SheetError> {
    let mut best = Found {
        order: Vec::new(alloc),
        places: Vec::new(alloc),
    };
    let mut best_way = ways[0];
    let mut most = 0;
    for way in ways {
        let found = try_way(alloc, sprites, size, spacing, *way)?;
        let area = used_area(&found.places);
        if most <= area {
            best = found;
            best_way = *way;
            most = area;
        }
    }
    Ok(Filling {
        way: best_way,
        found: best,
        used_area: most,
    })
}
