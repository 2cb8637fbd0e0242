// Erased from crates/guillotiere_c/src/filled.rt by rust/erase: don't edit.
//! The export that fills one sheet with sprites known beforehand.

use crate::plain::{plain_size, PlainSize, BAD_CALL, DONE, EMPTY_SPRITE, GREAT_SPRITE, SHORT};
use crate::plain_sheet::{
    sheet_options_for, status_of_sheet_error, PlainMaybePlaced, PlainSheetOptions,
};
use crate::sheet::sizes_of;
use crate::writing::write_maybe_placed;
use wollemigo_core::atlas_sheet::{fill, Filled, Placed, SheetError, SheetOptions};
use wollemigo_support::alloc::Global;
use wollemigo_support::raw::{slice, slice_mut, spare};

// The sheet that the library fills.
fn filled(
    alloc: Global,
    sprites: &[PlainSize],
    options: &SheetOptions,
) -> Result<Filled, SheetError> {
    let sizes = sizes_of(alloc, sprites)?;
    let filled = fill(alloc, &sizes, options)?;
    Ok(filled)
}

// How many sprites have no place.
fn unplaced(places: &[Option<Placed>]) -> usize {
    let mut left = 0;
    for place in places {
        if place.is_none() {
            left += 1;
        }
    }
    left
}

/// Places sprites in the greatest sheet that is allowed, as many pixels of them as it finds room for. `DONE`, even if not all
/// of them have a place: `places` has a place or none for each, in the order of the sprites, `left` how many have none, and
/// `size` the sheet's size. Never `NO_ROOM`; else as `guillotiere_pack`.
#[no_mangle]
pub extern "C" fn guillotiere_fill(
    sprites: *const PlainSize,
    sprites_len: usize,
    options: Option<&PlainSheetOptions>,
    places: *mut PlainMaybePlaced,
    places_len: usize,
    left: Option<&mut usize>,
    size: Option<&mut PlainSize>,
    sprite: Option<&mut usize>,
) -> u32 {
    let alloc = Global;
    let sprites = match unsafe { slice(sprites, sprites_len) } {
        Some(sprites) => sprites,
        None => return crate::plain::NULL_POINTER,
    };
    let options = match options {
        Some(options) => options,
        None => return crate::plain::NULL_POINTER,
    };
    let places = match unsafe { slice_mut(places, places_len) } {
        Some(places) => places,
        None => return crate::plain::NULL_POINTER,
    };
    let left = match left {
        Some(left) => left,
        None => return crate::plain::NULL_POINTER,
    };
    let size = match size {
        Some(size) => size,
        None => return crate::plain::NULL_POINTER,
    };
    let mut spare_sprite = unsafe { spare() };
    let sprite = sprite.unwrap_or(&mut spare_sprite);
    let options = match sheet_options_for(options) {
        Some(options) => options,
        _ => {
            return BAD_CALL;
        }
    };
    if places.len() < sprites.len() {
        return SHORT;
    }
    match filled(alloc, sprites, &options) {
        Ok(sheet) => {
            write_maybe_placed(&sheet.places, places);
            *left = unplaced(&sheet.places);
            *size = plain_size(sheet.size);
            DONE
        }
        Err(error) => status_of_sheet_error(error, sprite),
    }
}
