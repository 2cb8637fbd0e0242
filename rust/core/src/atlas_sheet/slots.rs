// Erased from crates/atlas_sheet/src/slots.rt by rust/erase: don't edit.
//! A slot for each group, so that what is known of one is found without looking through all sprites.

use crate::atlas_sheet::dense::pixels_of;
use crate::atlas_sheet::error::SheetError;
use crate::guillotiere::Size;
use wollemigo_support::alloc::Allocator;
use wollemigo_support::prelude::{vec, Vec};

// The numbers of the groups in rising order, each as often as a sprite has it.
#[inline]
fn sorted_numbers<A: Allocator>(
    alloc: A,
    groups: &[Option<usize>],
) -> Result<Vec<usize, A>, SheetError> {
    let mut all = Vec::new(alloc);
    for number in groups {
        if let Some(group) = number {
            all.push(*group)?;
        }
    }
    all.sort_unstable();
    Ok(all)
}

// Where a group's number stands among these.
#[inline]
fn slot_in(sorted: &[usize], number: Option<usize>) -> Option<usize> {
    let group = number?;
    sorted.binary_search(&group).ok()
}

/// The slot of each sprite's group: where its number stands among those of all sprites. None for a sprite in no group.
#[inline]
pub fn slots_of<A: Allocator + Copy>(
    alloc: A,
    groups: &[Option<usize>],
) -> Result<Vec<Option<usize>, A>, SheetError> {
    let sorted = sorted_numbers(alloc, groups)?;
    let mut slots = Vec::new(alloc);
    for number in groups {
        let slot = slot_in(&sorted, *number);
        slots.push(slot)?;
    }
    Ok(slots)
}

// Adds the pixels of a sprite to those of its slot.
#[inline]
fn add_pixels(all: &mut [u64], slot: Option<usize>, sprite: Size) {
    let number = match slot {
        Some(number) => number,
        _ => {
            return;
        }
    };
    if number < all.len() {
        all[number] = all[number].saturating_add(pixels_of(sprite));
    }
}

/// How many pixels the sprites of each slot have together, but at most 2^64 - 1.
#[inline]
pub fn slot_pixels<A: Allocator>(
    alloc: A,
    slots: &[Option<usize>],
    sprites: &[Size],
) -> Result<Vec<u64, A>, SheetError> {
    let mut pixels = vec![in alloc; 0; slots.len()]?;
    for (number, slot) in slots.iter().enumerate() {
        add_pixels(&mut pixels, *slot, sprites[number]);
    }
    Ok(pixels)
}

/// Whether the sprites of a slot have more pixels than this.
#[inline]
#[must_use]
pub fn is_over(pixels: &[u64], slot: Option<usize>, room: u64) -> bool {
    let number = match slot {
        Some(number) => number,
        _ => {
            return false;
        }
    };
    number < pixels.len() && room < pixels[number]
}

/// Whether a slot is asked for the first time; from now on it has been asked for.
#[inline]
pub fn asks(asked: &mut [bool], slot: Option<usize>) -> bool {
    let number = match slot {
        Some(number) => number,
        _ => {
            return true;
        }
    };
    if number >= asked.len() {
        return true;
    }
    let is_new = !asked[number];
    asked[number] = true;
    is_new
}

/// Whether a group is to be asked for: a sprite of it isn't chosen yet, its slot wasn't asked for before, and its sprites don't have
/// more pixels than there is room for. From now on its slot has been asked for.
#[inline]
pub fn is_open(
    asked: &mut [bool],
    slot: Option<usize>,
    is_chosen: bool,
    pixels: &[u64],
    room: u64,
) -> bool {
    asks(asked, slot) && !is_chosen && !is_over(pixels, slot, room)
}
