// Erased from crates/atlas_sheet/src/choosing.rt by rust/erase: don't edit.
//! Sprites that are chosen for one sheet: whole groups, and sprites in no group.

use crate::atlas_sheet::arrangement::Arrangement;
use crate::atlas_sheet::climbing::is_whole;
use crate::atlas_sheet::dense::{pixels_of, sprite_pixels};
use crate::atlas_sheet::error::SheetError;
use crate::atlas_sheet::options::SheetOptions;
use crate::atlas_sheet::packing::packed;
use crate::atlas_sheet::picking::{picked, row_of, row_with, row_with_single, spread};
use crate::atlas_sheet::placed::Placed;
use crate::atlas_sheet::search::greatest_sheet;
use crate::atlas_sheet::sheets::{best_filled, filled_of, Filled};
use crate::atlas_sheet::slots::{is_open, slot_pixels, slots_of};
use crate::guillotiere::Size;
use wollemigo_support::alloc::{Allocator, Global};
use wollemigo_support::prelude::{vec, Vec};

/// A sheet, and a place or none on it for each of the sprites that have none yet.
pub struct OneSheet<A: Allocator = Global> {
    /// The size of the sheet.
    pub size: Size,
    /// A place or none for each of these sprites.
    pub places: Vec<Option<Placed>, A>,
}

/// Some of the sprites, and how all of them lie on one sheet.
pub struct Chosen<A: Allocator> {
    /// Which of the sprites are chosen.
    pub row: Vec<bool, A>,
    /// How they lie.
    pub page: Arrangement<A>,
}

/// The first group of a sprite.
#[inline]
#[must_use]
pub fn first_group(groups: &[Option<usize>]) -> Option<usize> {
    for number in groups {
        if let Some(group) = number {
            return Some(*group);
        }
    }
    None
}

// What the best of the first ways finds, without changes of the order.
#[inline]
fn plainly_filled<A: Allocator + Copy>(
    alloc: A,
    sprites: &[Size],
    options: &SheetOptions,
) -> Result<Arrangement<A>, SheetError> {
    let plain = SheetOptions {
        effort: 0,
        ..*options
    };
    let page = best_filled(alloc, sprites, &plain)?;
    Ok(page)
}

// The smallest sheet that one of the ways finds, without changes of the order.
#[inline]
fn plainly_packed<A: Allocator + Copy>(
    alloc: A,
    sprites: &[Size],
    options: &SheetOptions,
) -> Result<Option<Arrangement<A>>, SheetError> {
    let plain = SheetOptions {
        effort: 0,
        ..*options
    };
    let found = packed(alloc, sprites, &plain, |_| {})?;
    Ok(found)
}

// The chosen sprites on the greatest sheet, if the best of the first ways finds places for all of them.
#[inline]
fn all_of<A: Allocator + Copy>(
    alloc: A,
    row: Vec<bool, A>,
    sprites: &[Size],
    options: &SheetOptions,
) -> Result<Option<Chosen<A>>, SheetError> {
    let some = picked(alloc, &row, sprites)?;
    if pixels_of(greatest_sheet(options.allowed)) < sprite_pixels(&some) {
        return Ok(None);
    }
    let page = plainly_filled(alloc, &some, options)?;
    if is_whole(&page) {
        Ok(Some(Chosen { row, page }))
    } else {
        Ok(None)
    }
}

// With the group as well, if the sheet takes it.
#[inline]
fn with_group<A: Allocator + Copy>(
    alloc: A,
    sprites: &[Size],
    groups: &[Option<usize>],
    options: &SheetOptions,
    group: usize,
    chosen: Chosen<A>,
) -> Result<Chosen<A>, SheetError> {
    let row = row_with(alloc, &chosen.row, group, groups)?;
    match all_of(alloc, row, sprites, options)? {
        Some(more) => Ok(more),
        None => Ok(chosen),
    }
}

// How many pixels of the greatest sheet the sprites don't take where the row says so.
#[inline]
fn room_beside<A: Allocator>(
    alloc: A,
    row: &[bool],
    sprites: &[Size],
    options: &SheetOptions,
) -> Result<u64, SheetError> {
    let some = picked(alloc, row, sprites)?;
    let room = pixels_of(greatest_sheet(options.allowed));
    Ok(room.saturating_sub(sprite_pixels(&some)))
}

// With each other group that the sheet takes, in the order of their first sprites. Each is asked for once, and one with more
// pixels than are left isn't tried.
#[inline]
fn with_groups<A: Allocator + Copy>(
    alloc: A,
    sprites: &[Size],
    groups: &[Option<usize>],
    options: &SheetOptions,
    first: Chosen<A>,
) -> Result<Chosen<A>, SheetError> {
    let slots = slots_of(alloc, groups)?;
    let pixels = slot_pixels(alloc, &slots, sprites)?;
    let mut asked = vec![in alloc; false; slots.len()]?;
    let mut room = room_beside(alloc, &first.row, sprites, options)?;
    let mut chosen = first;
    for (number, place) in groups.iter().enumerate() {
        if let Some(group) = place {
            let is_chosen = chosen.row[number];
            if is_open(&mut asked, slots[number], is_chosen, &pixels, room) {
                chosen = with_group(alloc, sprites, groups, options, *group, chosen)?;
                room = room_beside(alloc, &chosen.row, sprites, options)?;
            }
        }
    }
    Ok(chosen)
}

// How many sprites are in no group.
#[inline]
fn single_count(groups: &[Option<usize>]) -> usize {
    groups.iter().filter(|number| number.is_none()).count()
}

// With as many sprites in no group as the sheet takes, by bisection: with one more it doesn't take them, or there are no more.
#[inline]
fn with_singles<A: Allocator + Copy>(
    alloc: A,
    sprites: &[Size],
    groups: &[Option<usize>],
    options: &SheetOptions,
    first: Chosen<A>,
) -> Result<Chosen<A>, SheetError> {
    let whole = Vec::from_slice(alloc, &first.row)?;
    let mut chosen = first;
    let mut taken = 0;
    let mut refused = single_count(groups) + 1;
    while taken + 1 < refused {
        let many = taken + (refused - taken) / 2;
        let row = row_with_single(alloc, &whole, many, groups)?;
        match all_of(alloc, row, sprites, options)? {
            Some(more) => {
                chosen = more;
                taken = many;
            }
            None => refused = many,
        }
    }
    Ok(chosen)
}

// The chosen sprites in the smallest sheet that is found for them, or else as they lie.
#[inline]
fn smallest<A: Allocator + Copy>(
    alloc: A,
    sprites: &[Size],
    options: &SheetOptions,
    page: Arrangement<A>,
) -> Result<Arrangement<A>, SheetError> {
    let found = packed(alloc, sprites, options, |_| {})?;
    match found {
        Some(smaller) => Ok(smaller),
        None => Ok(page),
    }
}

// The smallest sheet for these sprites, as it is shown.
#[inline]
fn shown_smallest<A: Allocator + Copy>(
    alloc: A,
    sprites: &[Size],
    options: &SheetOptions,
    page: Arrangement<A>,
) -> Result<Filled<A>, SheetError> {
    let smaller = smallest(alloc, sprites, options, page)?;
    let filled = filled_of(alloc, sprites, options, &smaller)?;
    Ok(filled)
}

// The sheet of the chosen sprites.
#[inline]
fn sheet_of_chosen<A: Allocator + Copy>(
    alloc: A,
    sprites: &[Size],
    groups: &[Option<usize>],
    options: &SheetOptions,
    chosen: Chosen<A>,
) -> Result<OneSheet<A>, SheetError> {
    let some = picked(alloc, &chosen.row, sprites)?;
    let filled = shown_smallest(alloc, &some, options, chosen.page)?;
    let places = spread(alloc, &chosen.row, &filled.places)?;
    Ok(OneSheet {
        size: filled.size,
        places,
    })
}

/// The sprites of a group in the smallest sheet that one of the ways finds for them.
#[inline]
pub fn opened<A: Allocator + Copy>(
    alloc: A,
    sprites: &[Size],
    groups: &[Option<usize>],
    options: &SheetOptions,
    group: usize,
) -> Result<Option<Chosen<A>>, SheetError> {
    let row = row_of(alloc, group, groups)?;
    let some = picked(alloc, &row, sprites)?;
    let found = plainly_packed(alloc, &some, options)?;
    match found {
        Some(page) => Ok(Some(Chosen { row, page })),
        None => Ok(None),
    }
}

/// A sheet with a group on it, with other groups and with sprites in no group; none where no way packs the group into one.
#[inline]
pub fn group_sheet<A: Allocator + Copy>(
    alloc: A,
    sprites: &[Size],
    groups: &[Option<usize>],
    options: &SheetOptions,
    group: usize,
) -> Result<Option<OneSheet<A>>, SheetError> {
    let one = match opened(alloc, sprites, groups, options, group)? {
        Some(one) => one,
        _ => {
            return Ok(None);
        }
    };
    let whole = with_groups(alloc, sprites, groups, options, one)?;
    let more = with_singles(alloc, sprites, groups, options, whole)?;
    let sheet = sheet_of_chosen(alloc, sprites, groups, options, more)?;
    Ok(Some(sheet))
}
