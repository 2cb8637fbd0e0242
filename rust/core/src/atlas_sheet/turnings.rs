// Erased from crates/atlas_sheet/src/turnings.rt by rust/erase: don't edit.
//! How sprites that may be turned lie where the ways are tried with them.

use crate::atlas_sheet::changes::flipped;
use crate::atlas_sheet::error::SheetError;
use crate::atlas_sheet::options::{SheetOptions, Spacing};
use crate::atlas_sheet::places::inner;
use crate::atlas_sheet::search::greatest_sheet;
use crate::guillotiere::Size;
use wollemigo_support::alloc::Allocator;
use wollemigo_support::prelude::Vec;

/// How sprites that may be turned lie when the ways are tried with them. One that has room in the greatest sheet only when
/// it lies the other way round lies that way.
#[derive(Clone, Copy, Debug, PartialEq, Eq)]
pub enum Turning {
    /// Each as it is given.
    AsGiven,
    /// Each at least as wide as high.
    Wide,
    /// Each at least as high as wide.
    High,
}

// Whether a side with its padding, rounded up to the alignment, is within another.
#[inline]
fn is_roomy(side: i32, padding: u16, step: i32, room: i32) -> bool {
    let step = step as u64;
    let asked = side as u64 + u64::from(padding);
    (asked + (step - 1)) / step * step <= room as u64
}

// Whether a sprite that lies so has room in an empty sheet.
#[inline]
fn has_room(sheet: Size, spacing: Spacing, lying: Size) -> bool {
    let room = inner(sheet, spacing);
    is_roomy(
        lying.width,
        spacing.padding,
        spacing.alignment.width,
        room.width,
    ) && is_roomy(
        lying.height,
        spacing.padding,
        spacing.alignment.height,
        room.height,
    )
}

// A sprite as it is given, as wide as it can lie, or as high.
#[inline]
fn turned_to(how: Turning, sprite: Size) -> Size {
    match how {
        Turning::AsGiven => sprite,
        Turning::Wide => {
            if sprite.width < sprite.height {
                flipped(sprite)
            } else {
                sprite
            }
        }
        Turning::High => {
            if sprite.height < sprite.width {
                flipped(sprite)
            } else {
                sprite
            }
        }
    }
}

// The other way where it has room in the sheet only so.
#[inline]
fn fitted(sheet: Size, spacing: Spacing, sprite: Size) -> Size {
    let turned = flipped(sprite);
    if !has_room(sheet, spacing, sprite) && has_room(sheet, spacing, turned) {
        turned
    } else {
        sprite
    }
}

// A sprite that is laid so.
#[inline]
fn laid_one(sheet: Size, spacing: Spacing, how: Turning, sprite: Size) -> Size {
    fitted(sheet, spacing, turned_to(how, sprite))
}

/// The sprites as they are laid.
#[inline]
pub fn laid<A: Allocator + Copy>(
    alloc: A,
    sprites: &[Size],
    options: &SheetOptions,
    how: Turning,
) -> Result<Vec<Size, A>, SheetError> {
    let sheet = greatest_sheet(options.allowed);
    if !options.turn {
        return Ok(Vec::from_slice(alloc, sprites)?);
    }
    let spacing = options.spacing();
    let mut lying = Vec::with_capacity(alloc, sprites.len())?;
    for sprite in sprites {
        lying.push(laid_one(sheet, spacing, how, *sprite))?;
    }
    Ok(lying)
}
