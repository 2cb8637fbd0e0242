// Erased from crates/atlas_sheet/src/paging.rt by rust/erase: don't edit.
//! All sprites on several sheets.

use crate::atlas_sheet::arrangement::Arrangement;
use crate::atlas_sheet::climbing::is_whole;
use crate::atlas_sheet::error::SheetError;
use crate::atlas_sheet::options::SheetOptions;
use crate::atlas_sheet::packing::packed;
use crate::atlas_sheet::placed::Placed;
use crate::atlas_sheet::sheets::{best_filled, check_all, filled_of};
use crate::guillotiere::Size;
use wollemigo_support::alloc::{Allocator, Global};
use wollemigo_support::prelude::{vec, Vec};

/// A place on one of several sheets.
#[derive(Clone, Copy, Debug, PartialEq, Eq)]
pub struct OnPage {
    /// The number of the sheet, counted from 0.
    pub page: usize,
    /// The place on this sheet.
    pub placed: Placed,
}

/// Sheets that take all sprites together.
pub struct Pages<A: Allocator = Global> {
    /// The size of each sheet, in pixels.
    pub sizes: Vec<Size, A>,
    /// A place for each sprite, in the order of the sprites.
    pub places: Vec<OnPage, A>,
}

/// Whether no sprite has a place.
#[inline]
#[must_use]
pub fn is_bare(places: &[Option<Placed>]) -> bool {
    places.iter().all(|place| place.is_none())
}

/// Where the sprites without a place lie next: in the smallest sheet that takes them all, or in a full one.
#[inline]
pub fn next_page<A: Allocator + Copy>(
    alloc: A,
    left: &[Size],
    options: &SheetOptions,
) -> Result<Arrangement<A>, SheetError> {
    let filled = best_filled(alloc, left, options)?;
    if !is_whole(&filled) {
        return Ok(filled);
    }
    let smallest = packed(alloc, left, options, |_| {})?;
    match smallest {
        Some(sheet) => Ok(sheet),
        None => Ok(filled),
    }
}

/// The sprites that have no place.
#[inline]
pub fn sprites_left<A: Allocator>(
    alloc: A,
    sprites: &[Size],
    places: &[Option<OnPage>],
) -> Result<Vec<Size, A>, SheetError> {
    let mut left = Vec::new(alloc);
    for (number, place) in places.iter().enumerate() {
        if place.is_none() {
            left.push(sprites[number])?;
        }
    }
    Ok(left)
}

// What was found on a sheet.
#[inline]
fn found_on(page: usize, place: Option<Placed>) -> Option<OnPage> {
    let placed = place?;
    Some(OnPage { page, placed })
}

/// The places, with those added that the sprites without one found on a sheet, in their order.
#[inline]
pub fn put_on<A: Allocator>(
    alloc: A,
    page: usize,
    places: &[Option<OnPage>],
    found: &[Option<Placed>],
) -> Result<Vec<Option<OnPage>, A>, SheetError> {
    let mut all = Vec::new(alloc);
    let mut next = 0;
    for place in places {
        match place {
            Some(before) => all.push(Some(*before))?,
            None => {
                all.push(found_on(page, found[next]))?;
                next += 1;
            }
        }
    }
    Ok(all)
}

/// The places, where each sprite has one.
#[inline]
pub fn all_on<A: Allocator>(
    alloc: A,
    places: &[Option<OnPage>],
) -> Result<Vec<OnPage, A>, SheetError> {
    let mut all = Vec::new(alloc);
    for place in places {
        if let Some(placed) = place {
            all.push(*placed)?;
        }
    }
    Ok(all)
}

// One sheet after another, until each sprite has a place or one fits no empty sheet.
#[inline]
fn paged<A: Allocator + Copy>(
    alloc: A,
    sprites: &[Size],
    options: &SheetOptions,
) -> Result<Option<Pages<A>>, SheetError> {
    let mut sizes = Vec::new(alloc);
    let mut places = vec![in alloc; None; sprites.len()]?;
    let mut left = Vec::from_slice(alloc, sprites)?;
    while !left.is_empty() {
        let next = next_page(alloc, &left, options)?;
        let page = filled_of(alloc, &left, options, &next)?;
        if is_bare(&page.places) {
            return Ok(None);
        }
        places = put_on(alloc, sizes.len(), &places, &page.places)?;
        sizes.push(page.size)?;
        left = sprites_left(alloc, sprites, &places)?;
    }
    let all = all_on(alloc, &places)?;
    Ok(Some(Pages { sizes, places: all }))
}

/// Places all sprites on as few sheets as are found: on each what `fill` places there of the sprites that are left, and
/// the last sprites in as small a sheet as `pack` finds. Each sheet but the last is the greatest that is allowed. A
/// sprite on a later sheet asked for a place on each earlier one, and found no room there; no sheet is empty. With no
/// sprites there are no sheets. `effort` changes of the order are tried for each sheet. None only where a sprite, in each
/// of the ways that it may lie, is too large for an empty sheet; then nothing is packed.
///
/// `EmptySheet` if the least allowed side is below 1, else `EmptyRange` if the greatest is less than the least, else
/// `EmptyAlignment` if a side of the alignment is below 1; else `EmptySprite` and `GreatSprite` name the first sprite that
/// can't be placed in any sheet; `Memory` if memory is refused.
#[inline]
pub fn pack_pages<A: Allocator + Copy>(
    alloc: A,
    sprites: &[Size],
    options: &SheetOptions,
) -> Result<Option<Pages<A>>, SheetError> {
    check_all(sprites, options)?;
    let found = paged(alloc, sprites, options)?;
    Ok(found)
}
