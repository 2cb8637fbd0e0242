// Erased from crates/guillotiere_c/src/sheet.rt by rust/erase: don't edit.
//! The export that packs sprites known beforehand into a sheet.

use crate::plain::{
    plain_size, PlainSize, BAD_CALL, DONE, EMPTY_SPRITE, GREAT_SPRITE, NO_ROOM, SHORT,
};
use crate::plain_sheet::{
    sheet_options_for, status_of_sheet_error, PlainPlaced, PlainSheetOptions,
};
use crate::writing::write_placed;
use wollemigo_core::atlas_sheet::{pack, Sheet, SheetError, SheetOptions};
use wollemigo_core::guillotiere::{size2, Size};
use wollemigo_support::alloc::Global;
use wollemigo_support::prelude::{CollectIn, Vec};
use wollemigo_support::raw::{slice, slice_mut, spare};

/// The sizes of these numbers.
pub fn sizes_of(alloc: Global, numbers: &[PlainSize]) -> Result<Vec<Size>, SheetError> {
    let sizes = numbers.iter().map(|size| size2(size.width, size.height));
    Ok(sizes.collect_in(alloc)?)
}

// The sheet that the library finds.
fn found(
    alloc: Global,
    sprites: &[PlainSize],
    options: &SheetOptions,
) -> Result<Option<Sheet>, SheetError> {
    let sizes = sizes_of(alloc, sprites)?;
    let sheet = pack(alloc, &sizes, options)?;
    Ok(sheet)
}

/// Packs all sprites into the smallest sheet of those allowed that is found, by ten ways to order them and then by `effort`
/// small changes of the order. `DONE`: `size` has the sheet's size, and `places` where each sprite lies, in the order of the
/// sprites; no two places overlap, and what `places` has after them stays. Nothing is kept by the library, and nothing is to
/// be freed. There may be no sprites: then the sheet is the least.
/// `NO_ROOM` if not even the greatest sheet took all sprites; `BAD_CALL` if `allowed` is no kind of sheets or the padding is
/// above 65535; `SHORT` if places_len is below sprites_len; `EMPTY_SHEET`; `EMPTY_RANGE`; `EMPTY_ALIGNMENT`; `EMPTY_SPRITE`
/// and `GREAT_SPRITE`, and then `sprite` has the number of the first such sprite, counted from 0, and otherwise it stays as
/// before; `MEMORY`. Faults are looked for in this order; of powers of two and of one width the least side is 1, so a
/// greatest side of 0 is `EMPTY_RANGE`. Sprites that rank equal keep their order: in another order there may be another
/// sheet, or none.
#[no_mangle]
pub extern "C" fn guillotiere_pack(
    sprites: *const PlainSize,
    sprites_len: usize,
    options: Option<&PlainSheetOptions>,
    places: *mut PlainPlaced,
    places_len: usize,
    size: Option<&mut PlainSize>,
    sprite: Option<&mut usize>,
) -> u32 {
    let alloc = Global;
    let sprites = match unsafe { slice(sprites, sprites_len) } {
        Some(sprites) => sprites,
        None => return crate::plain::NULL_POINTER,
    };
    let options = match options {
        Some(options) => options,
        None => return crate::plain::NULL_POINTER,
    };
    let places = match unsafe { slice_mut(places, places_len) } {
        Some(places) => places,
        None => return crate::plain::NULL_POINTER,
    };
    let size = match size {
        Some(size) => size,
        None => return crate::plain::NULL_POINTER,
    };
    let mut spare_sprite = unsafe { spare() };
    let sprite = sprite.unwrap_or(&mut spare_sprite);
    let options = match sheet_options_for(options) {
        Some(options) => options,
        _ => {
            return BAD_CALL;
        }
    };
    if places.len() < sprites.len() {
        return SHORT;
    }
    match found(alloc, sprites, &options) {
        Ok(Some(sheet)) => {
            write_placed(&sheet.places, places);
            *size = plain_size(sheet.size);
            DONE
        }
        Ok(None) => NO_ROOM,
        Err(error) => status_of_sheet_error(error, sprite),
    }
}
