// Erased from crates/guillotiere_c/src/pages.rt by rust/erase: don't edit.
//! The export that packs sprites known beforehand into several sheets.

use crate::plain::{PlainSize, BAD_CALL, DONE, EMPTY_SPRITE, GREAT_SPRITE, NO_ROOM, SHORT};
use crate::plain_sheet::{
    sheet_options_for, status_of_sheet_error, PlainOnPage, PlainSheetOptions,
};
use crate::sheet::sizes_of;
use crate::writing::{write_on_pages, write_sizes};
use wollemigo_core::atlas_sheet::{pack_pages, Pages, SheetError, SheetOptions};
use wollemigo_support::alloc::Global;
use wollemigo_support::raw::{slice, slice_mut, spare};

// The sheets that the library finds.
fn found(
    alloc: Global,
    sprites: &[PlainSize],
    options: &SheetOptions,
) -> Result<Option<Pages>, SheetError> {
    let sizes = sizes_of(alloc, sprites)?;
    let pages = pack_pages(alloc, &sizes, options)?;
    Ok(pages)
}

/// Packs all sprites into as few sheets as are found: the greatest of those allowed gets what `guillotiere_fill` places
/// there, the same is done with the sprites that are left, and the last of them get as small a sheet as `guillotiere_pack`
/// finds. For each sheet `effort` changes of the order are tried. `DONE`: `places` has where each sprite lies, in the order
/// of the sprites, `count` how many sheets there are, at most as many as sprites, and `sizes` their sizes; what the arrays
/// have after that stays. No two places on one sheet overlap, and no sheet is empty. There may be no sprites: then there are
/// no sheets.
/// `NO_ROOM` if a sprite is too large for an empty sheet; `SHORT` also if there are more sheets than sizes_len; else as
/// `guillotiere_pack`.
#[no_mangle]
pub extern "C" fn guillotiere_pack_pages(
    sprites: *const PlainSize,
    sprites_len: usize,
    options: Option<&PlainSheetOptions>,
    places: *mut PlainOnPage,
    places_len: usize,
    sizes: *mut PlainSize,
    sizes_len: usize,
    count: Option<&mut usize>,
    sprite: Option<&mut usize>,
) -> u32 {
    let alloc = Global;
    let sprites = match unsafe { slice(sprites, sprites_len) } {
        Some(sprites) => sprites,
        None => return crate::plain::NULL_POINTER,
    };
    let options = match options {
        Some(options) => options,
        None => return crate::plain::NULL_POINTER,
    };
    let places = match unsafe { slice_mut(places, places_len) } {
        Some(places) => places,
        None => return crate::plain::NULL_POINTER,
    };
    let sizes = match unsafe { slice_mut(sizes, sizes_len) } {
        Some(sizes) => sizes,
        None => return crate::plain::NULL_POINTER,
    };
    let count = match count {
        Some(count) => count,
        None => return crate::plain::NULL_POINTER,
    };
    let mut spare_sprite = unsafe { spare() };
    let sprite = sprite.unwrap_or(&mut spare_sprite);
    let options = match sheet_options_for(options) {
        Some(options) => options,
        _ => {
            return BAD_CALL;
        }
    };
    if places.len() < sprites.len() {
        return SHORT;
    }
    match found(alloc, sprites, &options) {
        Ok(Some(pages)) => {
            if sizes.len() < pages.sizes.len() {
                return SHORT;
            }
            write_on_pages(&pages.places, places);
            write_sizes(&pages.sizes, sizes);
            *count = pages.sizes.len();
            DONE
        }
        Ok(None) => NO_ROOM,
        Err(error) => status_of_sheet_error(error, sprite),
    }
}
