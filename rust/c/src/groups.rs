// Erased from crates/guillotiere_c/src/groups.rt by rust/erase: don't edit.
//! The export that packs sprites known beforehand into several sheets, those of a group on one.

use crate::plain::{
    PlainSize, BAD_CALL, DONE, EMPTY_SPRITE, GREAT_SPRITE, NO_GROUP, NO_ROOM, SHORT,
};
use crate::plain_sheet::{
    sheet_options_for, status_of_sheet_error, PlainOnPage, PlainSheetOptions,
};
use crate::sheet::sizes_of;
use crate::writing::{write_on_pages, write_sizes};
use wollemigo_core::atlas_sheet::{pack_groups, Pages, SheetError, SheetOptions};
use wollemigo_support::alloc::Global;
use wollemigo_support::prelude::{CollectIn, Vec};
use wollemigo_support::raw::{slice, slice_mut, spare};

// The group with this number.
fn group_of(number: u32) -> Option<usize> {
    if number == NO_GROUP {
        None
    } else {
        Some(number as usize)
    }
}

// The groups with these numbers.
fn groups_of(alloc: Global, numbers: &[u32]) -> Result<Vec<Option<usize>>, SheetError> {
    let groups = numbers.iter().map(|number| group_of(*number));
    Ok(groups.collect_in(alloc)?)
}

// The sheets that the library finds.
fn found(
    alloc: Global,
    sprites: &[PlainSize],
    groups: &[u32],
    options: &SheetOptions,
) -> Result<Option<Pages>, SheetError> {
    let sizes = sizes_of(alloc, sprites)?;
    let numbers = groups_of(alloc, groups)?;
    let pages = pack_groups(alloc, &sizes, &numbers, options)?;
    Ok(pages)
}

/// Packs as `guillotiere_pack_pages`, with all sprites of a group on one sheet. `groups` has the number of each sprite's
/// group, in the order of the sprites; `GUILLOTIERE_NO_GROUP`, or no number where groups_len is below sprites_len, says that
/// a sprite is in none, and numbers past the last sprite are ignored. A group that none of the ten ways packs by itself into
/// the greatest of the sheets allowed is given up before the first sheet is begun: each of its sprites counts as one in no
/// group. The other groups come in the order of their first sprites. The first opens a sheet; then each other group that the
/// greatest sheet takes as well goes onto it, and then sprites in no group, in their order: all, or so many that it doesn't
/// take the next one as well. Then the sheet is made as small as `guillotiere_pack` finds it. Once no group is left, the
/// sprites without a place are packed as by `guillotiere_pack_pages`. All else as `guillotiere_pack_pages`.
#[no_mangle]
pub extern "C" fn guillotiere_pack_groups(
    sprites: *const PlainSize,
    sprites_len: usize,
    groups: *const u32,
    groups_len: usize,
    options: Option<&PlainSheetOptions>,
    places: *mut PlainOnPage,
    places_len: usize,
    sizes: *mut PlainSize,
    sizes_len: usize,
    count: Option<&mut usize>,
    sprite: Option<&mut usize>,
) -> u32 {
    let alloc = Global;
    let sprites = match unsafe { slice(sprites, sprites_len) } {
        Some(sprites) => sprites,
        None => return crate::plain::NULL_POINTER,
    };
    let groups = match unsafe { slice(groups, groups_len) } {
        Some(groups) => groups,
        None => return crate::plain::NULL_POINTER,
    };
    let options = match options {
        Some(options) => options,
        None => return crate::plain::NULL_POINTER,
    };
    let places = match unsafe { slice_mut(places, places_len) } {
        Some(places) => places,
        None => return crate::plain::NULL_POINTER,
    };
    let sizes = match unsafe { slice_mut(sizes, sizes_len) } {
        Some(sizes) => sizes,
        None => return crate::plain::NULL_POINTER,
    };
    let count = match count {
        Some(count) => count,
        None => return crate::plain::NULL_POINTER,
    };
    let mut spare_sprite = unsafe { spare() };
    let sprite = sprite.unwrap_or(&mut spare_sprite);
    let options = match sheet_options_for(options) {
        Some(options) => options,
        _ => {
            return BAD_CALL;
        }
    };
    if places.len() < sprites.len() {
        return SHORT;
    }
    match found(alloc, sprites, groups, &options) {
        Ok(Some(pages)) => {
            if sizes.len() < pages.sizes.len() {
                return SHORT;
            }
            write_on_pages(&pages.places, places);
            write_sizes(&pages.sizes, sizes);
            *count = pages.sizes.len();
            DONE
        }
        Ok(None) => NO_ROOM,
        Err(error) => status_of_sheet_error(error, sprite),
    }
}
