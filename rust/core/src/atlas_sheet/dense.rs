// Erased from crates/atlas_sheet/src/dense.rt by rust/erase: don't edit.
//! Sheets that are packed with no guillotine cuts.

use crate::atlas_sheet::allowed::Allowed;
use crate::atlas_sheet::cells::topmost_places;
use crate::atlas_sheet::error::SheetError;
use crate::atlas_sheet::filling::used_area;
use crate::atlas_sheet::options::SheetOptions;
use crate::atlas_sheet::orders::numbered;
use crate::atlas_sheet::placed::{whole, Placed};
use crate::atlas_sheet::search::{greatest_sheet, smaller_sheet};
use crate::atlas_sheet::sheets::{check_all, numbers_of, pack, Sheet};
use crate::guillotiere::{Rectangle, Size};
use core::cmp::Reverse;
use wollemigo_support::alloc::Allocator;
use wollemigo_support::prelude::Vec;

// What a sprite counts: its height, and among those as high its width.
#[inline]
fn height_rank(sprite: Size) -> u64 {
    sprite.height.max(0) as u64 * (1 << 32) + sprite.width.max(0) as u64
}

// The sprites with their numbers: the highest come first, and of those as high the widest.
#[inline]
fn by_height<A: Allocator + Copy>(
    alloc: A,
    sprites: &[Size],
) -> Result<Vec<(usize, Size), A>, SheetError> {
    let mut order = numbered(alloc, sprites)?;
    order.sort_by_key(|sprite| Reverse(height_rank(sprite.1)))?;
    Ok(order)
}

// Where a sprite lies, if it has a place.
#[inline]
fn area_of(placed: Option<Placed>) -> Option<Rectangle> {
    let placed = placed?;
    Some(placed.area)
}

// Where sprites lie.
#[inline]
fn areas<A: Allocator + Copy>(
    alloc: A,
    placed: &[Option<Placed>],
) -> Result<Vec<Option<Rectangle>, A>, SheetError> {
    let mut areas = Vec::new(alloc);
    for place in placed {
        areas.push(area_of(*place))?;
    }
    Ok(areas)
}

/// How many pixels a sheet has.
#[inline]
#[must_use]
pub fn pixels_of(size: Size) -> u64 {
    size.width.max(0) as u64 * size.height.max(0) as u64
}

/// How many pixels the sprites have together, but at most 2^64 - 1.
#[inline]
#[must_use]
pub fn sprite_pixels(sprites: &[Size]) -> u64 {
    let mut area: u64 = 0;
    for sprite in sprites {
        area = area.saturating_add(pixels_of(*sprite));
    }
    area
}

// A sheet on which each sprite has one of these places.
#[inline]
fn sheet_of<A: Allocator + Copy>(
    alloc: A,
    sprites: &[Size],
    options: &SheetOptions,
    order: &[(usize, Size)],
    size: Size,
    placed: &[Option<Placed>],
) -> Result<Sheet<A>, SheetError> {
    let areas = areas(alloc, placed)?;
    let places = whole(alloc, placed)?;
    let order = numbers_of(alloc, order)?;
    let used_area = used_area(&areas);
    Ok(Sheet {
        size,
        places,
        used_area,
        order,
    })
}

// All sprites in a grid of cells in a sheet of this size, if they find room.
#[inline]
fn dense_at<A: Allocator + Copy>(
    alloc: A,
    sprites: &[Size],
    options: &SheetOptions,
    order: &[(usize, Size)],
    size: Size,
) -> Result<Option<Sheet<A>>, SheetError> {
    match topmost_places(alloc, sprites, options, order, size)? {
        None => Ok(None),
        Some(placed) => {
            let sheet = sheet_of(alloc, sprites, options, order, size, &placed)?;
            Ok(Some(sheet))
        }
    }
}

// Whether a sheet has fewer pixels than the best one, if there is one.
#[inline]
fn is_smaller<A: Allocator>(size: Size, best: &Option<Sheet<A>>) -> bool {
    match best {
        None => true,
        Some(sheet) => pixels_of(size) < pixels_of(sheet.size),
    }
}

// A sheet of this size whose sprites lie in a grid of cells, if it is smaller than the best one and takes all sprites.
#[inline]
fn denser_at<A: Allocator + Copy>(
    alloc: A,
    sprites: &[Size],
    options: &SheetOptions,
    order: &[(usize, Size)],
    size: Size,
    best: &Option<Sheet<A>>,
) -> Result<Option<Sheet<A>>, SheetError> {
    if pixels_of(size) < sprite_pixels(sprites) {
        return Ok(None);
    }
    if is_smaller(size, best) {
        dense_at(alloc, sprites, options, order, size)
    } else {
        Ok(None)
    }
}

// What was found, or else the best one.
#[inline]
fn newer<A: Allocator>(found: Option<Sheet<A>>, best: Option<Sheet<A>>) -> Option<Sheet<A>> {
    match found {
        Some(sheet) => Some(sheet),
        None => best,
    }
}

// The smallest sheet of a row that is found by bisection, or the first.
#[inline]
fn denser_in_row<A: Allocator + Copy>(
    alloc: A,
    sprites: &[Size],
    options: &SheetOptions,
    order: &[(usize, Size)],
    first: Option<Sheet<A>>,
) -> Result<Option<Sheet<A>>, SheetError> {
    let mut low = 0;
    let mut high = options.allowed.count();
    let mut best = first;
    while low < high {
        let middle = low + (high - low) / 2;
        let size = options.allowed.nth(middle);
        let found = denser_at(alloc, sprites, options, order, size, &best)?;
        best = newer(found, best);
        if is_smaller(size, &best) {
            low = middle + 1;
        } else {
            high = middle;
        }
    }
    Ok(best)
}

// The sheet after the best one: the greatest, if there is none.
#[inline]
fn next_size<A: Allocator>(
    options: &SheetOptions,
    sprites: &[Size],
    best: &Option<Sheet<A>>,
) -> Option<Size> {
    match best {
        None => Some(greatest_sheet(options.allowed)),
        Some(sheet) => smaller_sheet(options.allowed, sheet.size),
    }
}

// Smaller and smaller powers of two, from the first on.
#[inline]
fn denser_powers<A: Allocator + Copy>(
    alloc: A,
    sprites: &[Size],
    options: &SheetOptions,
    order: &[(usize, Size)],
    first: Option<Sheet<A>>,
) -> Result<Option<Sheet<A>>, SheetError> {
    let mut best = first;
    let mut next = next_size(options, sprites, &best);
    while let Some(size) = next {
        let found = denser_at(alloc, sprites, options, order, size, &best)?;
        if found.is_none() {
            return Ok(best);
        }
        best = found;
        next = next_size(options, sprites, &best);
    }
    Ok(best)
}

// A sheet whose sprites lie in a grid of cells, if one is found that is smaller than the first.
#[inline]
fn denser<A: Allocator + Copy>(
    alloc: A,
    sprites: &[Size],
    options: &SheetOptions,
    first: Option<Sheet<A>>,
) -> Result<Option<Sheet<A>>, SheetError> {
    let order = by_height(alloc, sprites)?;
    match options.allowed {
        Allowed::Powers { .. } => denser_powers(alloc, sprites, options, &order, first),
        _ => denser_in_row(alloc, sprites, options, &order, first),
    }
}

/// The sheet of `pack`, or a smaller one laid out without guillotine cuts: the sprites come by height, the highest
/// first, and each is placed as high up as it can lie, and there as far left. That is tried in smaller sheets than that of
/// `pack`, by bisection, and among powers of two in one after another; where `pack` finds none, in the greatest too. The
/// sheet never has more pixels than that of `pack`. In a smaller one no sprite is turned.
///
/// The errors are those of `pack`.
#[inline]
pub fn pack_dense<A: Allocator + Copy>(
    alloc: A,
    sprites: &[Size],
    options: &SheetOptions,
) -> Result<Option<Sheet<A>>, SheetError> {
    check_all(sprites, options)?;
    let first = pack(alloc, sprites, options)?;
    let found = denser(alloc, sprites, options, first)?;
    Ok(found)
}
