// Erased from crates/atlas_sheet/src/picking.rt by rust/erase: don't edit.
//! Rows that say of each sprite whether it is chosen.

use crate::atlas_sheet::error::SheetError;
use crate::atlas_sheet::placed::Placed;
use crate::guillotiere::Size;
use wollemigo_support::alloc::Allocator;
use wollemigo_support::prelude::Vec;

/// Whether this is the number of the group.
#[inline]
#[must_use]
pub fn is_in(group: usize, number: Option<usize>) -> bool {
    match number {
        Some(number) => number == group,
        None => false,
    }
}

/// Which sprites are in the group.
#[inline]
pub fn row_of<A: Allocator>(
    alloc: A,
    group: usize,
    groups: &[Option<usize>],
) -> Result<Vec<bool, A>, SheetError> {
    let mut all = Vec::with_capacity(alloc, groups.len())?;
    all.extend(groups.iter().map(|number| is_in(group, *number)))?;
    Ok(all)
}

// Whether a sprite is chosen, or in the group.
#[inline]
fn or_in(chosen: bool, group: usize, number: Option<usize>) -> bool {
    chosen || is_in(group, number)
}

/// A row with those that are in the group as well.
#[inline]
pub fn row_with<A: Allocator>(
    alloc: A,
    row: &[bool],
    group: usize,
    groups: &[Option<usize>],
) -> Result<Vec<bool, A>, SheetError> {
    let mut all = Vec::new(alloc);
    for (number, chosen) in row.iter().enumerate() {
        let is_chosen = or_in(*chosen, group, groups[number]);
        all.push(is_chosen)?;
    }
    Ok(all)
}

// Whether a sprite is chosen, or in no group where there is room for one.
#[inline]
fn or_single(chosen: bool, room: usize, number: Option<usize>) -> bool {
    chosen || (room > 0 && number.is_none())
}

// The room that is left: one less if the sprite wasn't chosen before.
#[inline]
fn room_left(room: usize, is_chosen: bool, chosen: bool) -> usize {
    if is_chosen == chosen {
        room
    } else {
        room.saturating_sub(1)
    }
}

/// A row with so many more of those that are in no group, the first ones.
#[inline]
pub fn row_with_single<A: Allocator>(
    alloc: A,
    row: &[bool],
    many: usize,
    groups: &[Option<usize>],
) -> Result<Vec<bool, A>, SheetError> {
    let mut all = Vec::new(alloc);
    let mut room = many;
    for (number, chosen) in row.iter().enumerate() {
        let is_chosen = or_single(*chosen, room, groups[number]);
        all.push(is_chosen)?;
        room = room_left(room, is_chosen, *chosen);
    }
    Ok(all)
}

/// The sprites where the row says so.
#[inline]
pub fn picked<A: Allocator>(
    alloc: A,
    row: &[bool],
    sprites: &[Size],
) -> Result<Vec<Size, A>, SheetError> {
    let mut all = Vec::new(alloc);
    for (number, chosen) in row.iter().enumerate() {
        if *chosen {
            all.push(sprites[number])?;
        }
    }
    Ok(all)
}

/// What was found, where the row says so.
#[inline]
pub fn spread<A: Allocator>(
    alloc: A,
    row: &[bool],
    found: &[Option<Placed>],
) -> Result<Vec<Option<Placed>, A>, SheetError> {
    let mut all = Vec::new(alloc);
    let mut next = 0;
    for chosen in row {
        if *chosen {
            all.push(found[next])?;
            next += 1;
        } else {
            all.push(None)?;
        }
    }
    Ok(all)
}
