// Erased from crates/atlas_sheet/src/sheets.rt by rust/erase: don't edit.
//! Sheets as callers see them.

use crate::atlas_sheet::allowed::check_allowed;
use crate::atlas_sheet::arrangement::Arrangement;
use crate::atlas_sheet::climbing::improve;
use crate::atlas_sheet::error::SheetError;
use crate::atlas_sheet::filling::{check, fill_by, used_area};
use crate::atlas_sheet::options::SheetOptions;
use crate::atlas_sheet::packing::packed;
use crate::atlas_sheet::placed::{placed_all, whole, Placed};
use crate::atlas_sheet::random::Random;
use crate::atlas_sheet::search::greatest_sheet;
use crate::atlas_sheet::turnings::{laid, Turning};
use crate::atlas_sheet::ways::{ways_tried, WAYS};
use crate::guillotiere::Size;
use wollemigo_support::alloc::{Allocator, Global};
use wollemigo_support::prelude::Vec;

/// A sheet that takes all sprites.
pub struct Sheet<A: Allocator = Global> {
    /// The size of the sheet, in pixels.
    pub size: Size,
    /// A place for each sprite, in the order of the sprites.
    pub places: Vec<Placed, A>,
    /// How many pixels these places have together.
    pub used_area: u128,
    /// The numbers of the sprites, counted from 0, in the order in which they asked for places.
    pub order: Vec<usize, A>,
}

/// A filled sheet.
pub struct Filled<A: Allocator = Global> {
    /// The size of the sheet, in pixels.
    pub size: Size,
    /// A place or none for each sprite, in the order of the sprites.
    pub places: Vec<Option<Placed>, A>,
    /// How many pixels these places have together.
    pub used_area: u128,
    /// The numbers of the sprites, counted from 0, in the order in which they asked for places.
    pub order: Vec<usize, A>,
}

// Whether the options and all sprites are good.
#[inline]
pub fn check_all(sprites: &[Size], options: &SheetOptions) -> Result<(), SheetError> {
    check_allowed(options.allowed)?;
    if !options.alignment.is_positive() {
        return Err(SheetError::EmptyAlignment);
    }
    check(sprites, options.spacing())
}

// The numbers of numbered sprites.
#[inline]
pub fn numbers_of<A: Allocator>(
    alloc: A,
    order: &[(usize, Size)],
) -> Result<Vec<usize, A>, SheetError> {
    let mut numbers = Vec::with_capacity(alloc, order.len())?;
    numbers.extend(order.iter().map(|sprite| sprite.0))?;
    Ok(numbers)
}

// An arrangement as a filled sheet.
#[inline]
pub fn filled_of<A: Allocator + Copy>(
    alloc: A,
    sprites: &[Size],
    options: &SheetOptions,
    arrangement: &Arrangement<A>,
) -> Result<Filled<A>, SheetError> {
    let used = used_area(&arrangement.places);
    let order = numbers_of(alloc, &arrangement.order)?;
    let places = placed_all(alloc, sprites, options, arrangement)?;
    Ok(Filled {
        size: arrangement.size,
        places,
        used_area: used,
        order,
    })
}

// What the best of the first ways finds for the sprites as they are laid.
#[inline]
fn filled_so<A: Allocator + Copy>(
    alloc: A,
    sprites: &[Size],
    options: &SheetOptions,
    size: Size,
    how: Turning,
) -> Result<Arrangement<A>, SheetError> {
    let lying = laid(alloc, sprites, options, how)?;
    let ways = ways_tried(sprites.len());
    let filling = fill_by(alloc, &lying, size, options.spacing(), &WAYS[..ways])?;
    Ok(Arrangement {
        size,
        choice: filling.way.choice,
        lying,
        order: filling.found.order,
        places: filling.found.places,
    })
}

// The arrangement with more pixels of sprites; of two with as many the first.
#[inline]
fn fuller<A: Allocator>(one: Arrangement<A>, other: Arrangement<A>) -> Arrangement<A> {
    if used_area(&one.places) < used_area(&other.places) {
        other
    } else {
        one
    }
}

// What the best of the first ways finds, however the sprites are laid.
#[inline]
fn first_filled<A: Allocator + Copy>(
    alloc: A,
    sprites: &[Size],
    options: &SheetOptions,
) -> Result<Arrangement<A>, SheetError> {
    let size = greatest_sheet(options.allowed);
    let given = filled_so(alloc, sprites, options, size, Turning::AsGiven)?;
    if !options.turn {
        return Ok(given);
    }
    let wide = filled_so(alloc, sprites, options, size, Turning::Wide)?;
    let high = filled_so(alloc, sprites, options, size, Turning::High)?;
    Ok(fuller(given, fuller(wide, high)))
}

// What the first ways find, and no fewer pixels by changes of the order.
#[inline]
pub fn best_filled<A: Allocator + Copy>(
    alloc: A,
    sprites: &[Size],
    options: &SheetOptions,
) -> Result<Arrangement<A>, SheetError> {
    let first = first_filled(alloc, sprites, options)?;
    if options.effort == 0 {
        return Ok(first);
    }
    let mut tries = options.effort;
    let mut random = Random::new(options.seed);
    let best = improve(alloc, options, &mut random, &mut tries, first)?;
    Ok(best)
}

/// Places sprites in the greatest sheet that is allowed. The places have no fewer pixels than those that any of the
/// first `ways_tried` of `WAYS` finds; without effort they are those of the best of these ways, of equal ones the last.
/// Where sprites may be turned, this holds with each `Turning`, and of equal ones the first is taken. With effort the order
/// is changed so many times, and a change stays if it leaves no more pixels of sprites without a place. A sprite that found
/// no room has no place.
///
/// `EmptySheet` if the least allowed side is below 1, else `EmptyRange` if the greatest is less than the least, else
/// `EmptyAlignment` if a side of the alignment is below 1; else `EmptySprite` and `GreatSprite` name the first sprite that
/// can't be placed in any sheet; `Memory` if memory is refused.
#[inline]
pub fn fill<A: Allocator + Copy>(
    alloc: A,
    sprites: &[Size],
    options: &SheetOptions,
) -> Result<Filled<A>, SheetError> {
    check_all(sprites, options)?;
    let best = best_filled(alloc, sprites, options)?;
    let filled = filled_of(alloc, sprites, options, &best)?;
    Ok(filled)
}

// A filled sheet in which each sprite has a place.
#[inline]
fn sheet_of<A: Allocator + Copy>(alloc: A, filled: Filled<A>) -> Result<Sheet<A>, SheetError> {
    Ok(Sheet {
        size: filled.size,
        places: whole(alloc, &filled.places)?,
        used_area: filled.used_area,
        order: filled.order,
    })
}

/// Places all sprites in a sheet that is as small as the search finds. Without effort the first of `WAYS` that packs them
/// into it is taken, and none does into the allowed sheet that is a pixel lower (among powers of two: into any with fewer
/// pixels, nor into one with as many that is nearer to a square, or that is this one turned and wider than high). Where
/// sprites may be turned, this is the smallest of the sheets that are found so with each `Turning`, of equal ones the
/// first. With effort so many more orders are tried, each a small change of the one before, on a sheet that is one step
/// smaller than the best; the sheet is never larger than without effort. None only where no way, and no order that was
/// tried, packs all sprites into the greatest sheet that is allowed.
///
/// `EmptySheet` if the least allowed side is below 1, else `EmptyRange` if the greatest is less than the least, else
/// `EmptyAlignment` if a side of the alignment is below 1; else `EmptySprite` and `GreatSprite` name the first sprite that
/// can't be placed in any sheet; `Memory` if memory is refused.
#[inline]
pub fn pack<A: Allocator + Copy>(
    alloc: A,
    sprites: &[Size],
    options: &SheetOptions,
) -> Result<Option<Sheet<A>>, SheetError> {
    pack_telling(alloc, sprites, options, |_| {})
}

/// `pack`, and calls `told` with the size of each sheet that takes all sprites as soon as it is found: first that which
/// is found without changes of the order, then smaller and smaller ones. The last is the size of the sheet.
#[inline]
pub fn pack_telling<A: Allocator + Copy, F: FnMut(Size)>(
    alloc: A,
    sprites: &[Size],
    options: &SheetOptions,
    told: F,
) -> Result<Option<Sheet<A>>, SheetError> {
    check_all(sprites, options)?;
    let found = packed(alloc, sprites, options, told)?;
    let best = match found {
        Some(best) => best,
        _ => {
            return Ok(None);
        }
    };
    let filled = filled_of(alloc, sprites, options, &best)?;
    let sheet = sheet_of(alloc, filled)?;
    Ok(Some(sheet))
}
