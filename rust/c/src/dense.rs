// Erased from crates/guillotiere_c/src/dense.rt by rust/erase: don't edit.
//! The export that packs sprites known beforehand into a sheet with no guillotine cuts.

use crate::plain::{
    plain_size, PlainSize, BAD_CALL, DONE, EMPTY_SPRITE, GREAT_SPRITE, NO_ROOM, SHORT,
};
use crate::plain_sheet::{
    sheet_options_for, status_of_sheet_error, PlainPlaced, PlainSheetOptions,
};
use crate::sheet::sizes_of;
use crate::writing::write_placed;
use wollemigo_core::atlas_sheet::{pack_dense, Sheet, SheetError, SheetOptions};
use wollemigo_support::alloc::Global;
use wollemigo_support::raw::{slice, slice_mut, spare};

// The sheet that the library finds.
fn found(
    alloc: Global,
    sprites: &[PlainSize],
    options: &SheetOptions,
) -> Result<Option<Sheet>, SheetError> {
    let sizes = sizes_of(alloc, sprites)?;
    let sheet = pack_dense(alloc, &sizes, options)?;
    Ok(sheet)
}

/// Packs as `guillotiere_pack`, and then tries smaller sheets of those allowed, laid out without guillotine cuts: each
/// sprite, the highest first, as high up as it can lie, and there as far left. The sheet never has more pixels than that of
/// `guillotiere_pack`; in one that has fewer no sprite is turned. It may find a sheet where `guillotiere_pack` finds none. It
/// takes longer. All else as `guillotiere_pack`.
#[no_mangle]
pub extern "C" fn guillotiere_pack_dense(
    sprites: *const PlainSize,
    sprites_len: usize,
    options: Option<&PlainSheetOptions>,
    places: *mut PlainPlaced,
    places_len: usize,
    size: Option<&mut PlainSize>,
    sprite: Option<&mut usize>,
) -> u32 {
    let alloc = Global;
    let sprites = match unsafe { slice(sprites, sprites_len) } {
        Some(sprites) => sprites,
        None => return crate::plain::NULL_POINTER,
    };
    let options = match options {
        Some(options) => options,
        None => return crate::plain::NULL_POINTER,
    };
    let places = match unsafe { slice_mut(places, places_len) } {
        Some(places) => places,
        None => return crate::plain::NULL_POINTER,
    };
    let size = match size {
        Some(size) => size,
        None => return crate::plain::NULL_POINTER,
    };
    let mut spare_sprite = unsafe { spare() };
    let sprite = sprite.unwrap_or(&mut spare_sprite);
    let options = match sheet_options_for(options) {
        Some(options) => options,
        _ => {
            return BAD_CALL;
        }
    };
    if places.len() < sprites.len() {
        return SHORT;
    }
    match found(alloc, sprites, &options) {
        Ok(Some(sheet)) => {
            write_placed(&sheet.places, places);
            *size = plain_size(sheet.size);
            DONE
        }
        Ok(None) => NO_ROOM,
        Err(error) => status_of_sheet_error(error, sprite),
    }
}
