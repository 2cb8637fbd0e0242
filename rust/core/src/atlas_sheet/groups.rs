// Erased from crates/atlas_sheet/src/groups.rt by rust/erase: don't edit.
//! All sprites on several sheets, those of a group on one.

use crate::atlas_sheet::choosing::{first_group, group_sheet, opened, OneSheet};
use crate::atlas_sheet::error::SheetError;
use crate::atlas_sheet::options::SheetOptions;
use crate::atlas_sheet::paging::{all_on, is_bare, next_page, put_on, sprites_left, OnPage, Pages};
use crate::atlas_sheet::picking::is_in;
use crate::atlas_sheet::sheets::{check_all, filled_of};
use crate::atlas_sheet::slots::{asks, slots_of};
use crate::guillotiere::Size;
use wollemigo_support::alloc::{Allocator, Global};
use wollemigo_support::prelude::{vec, Vec};

// Sheets for some of the sprites.
struct SoFar<A: Allocator = Global> {
    sizes: Vec<Size, A>,
    // A place or none for each sprite.
    places: Vec<Option<OnPage>, A>,
    // The sprites that have no place.
    left: Vec<Size, A>,
    // The group of each sprite; none where no way packs it.
    kept: Vec<Option<usize>, A>,
}

// The numbers of so many sprites, none where the list ends before.
#[inline]
fn padded_to<A: Allocator + Copy>(
    alloc: A,
    count: usize,
    groups: &[Option<usize>],
) -> Result<Vec<Option<usize>, A>, SheetError> {
    let mut all = Vec::from_slice(alloc, &groups[..groups.len().min(count)])?;
    all.resize(count, None)?;
    Ok(all)
}

// The numbers of the sprites that have no place.
#[inline]
fn waiting<A: Allocator + Copy>(
    alloc: A,
    groups: &[Option<usize>],
    places: &[Option<OnPage>],
) -> Result<Vec<Option<usize>, A>, SheetError> {
    let mut all = Vec::new(alloc);
    for (number, place) in places.iter().enumerate() {
        if place.is_none() {
            all.push(groups[number])?;
        }
    }
    Ok(all)
}

// The number, if it isn't that of the group.
#[inline]
fn unless_in(group: usize, number: Option<usize>) -> Option<usize> {
    if is_in(group, number) {
        None
    } else {
        number
    }
}

// The numbers, without that of one group.
#[inline]
fn without<A: Allocator>(
    alloc: A,
    group: usize,
    groups: &[Option<usize>],
) -> Result<Vec<Option<usize>, A>, SheetError> {
    let mut all = Vec::with_capacity(alloc, groups.len())?;
    all.extend(groups.iter().map(|number| unless_in(group, *number)))?;
    Ok(all)
}

// A sheet as for sprites in no group, or none where one is too large.
#[inline]
fn plain_sheet<A: Allocator + Copy>(
    alloc: A,
    sprites: &[Size],
    options: &SheetOptions,
) -> Result<Option<OneSheet<A>>, SheetError> {
    let next = next_page(alloc, sprites, options)?;
    let page = filled_of(alloc, sprites, options, &next)?;
    if is_bare(&page.places) {
        return Ok(None);
    }
    Ok(Some(OneSheet {
        size: page.size,
        places: page.places,
    }))
}

// One sheet more.
#[inline]
fn with_sheet<A: Allocator + Copy>(
    alloc: A,
    sprites: &[Size],
    so_far: SoFar<A>,
    sheet: OneSheet<A>,
) -> Result<SoFar<A>, SheetError> {
    let places = put_on(alloc, so_far.sizes.len(), &so_far.places, &sheet.places)?;
    let left = sprites_left(alloc, sprites, &places)?;
    let mut sizes = so_far.sizes;
    sizes.push(sheet.size)?;
    Ok(SoFar {
        sizes,
        places,
        left,
        kept: so_far.kept,
    })
}

// After a sheet on which a group lies whole or not at all.
#[inline]
fn after_sheet<A: Allocator + Copy>(
    alloc: A,
    sprites: &[Size],
    groups: &[Option<usize>],
    options: &SheetOptions,
    so_far: SoFar<A>,
    sheet: OneSheet<A>,
) -> Result<SoFar<A>, SheetError> {
    let more = with_sheet(alloc, sprites, so_far, sheet)?;
    Ok(more)
}

// No sheets yet, with the groups that are kept.
#[inline]
fn begun<A: Allocator + Copy>(
    alloc: A,
    sprites: &[Size],
    groups: &[Option<usize>],
    options: &SheetOptions,
    kept: Vec<Option<usize>, A>,
) -> Result<SoFar<A>, SheetError> {
    let places = vec![in alloc; None; sprites.len()]?;
    let left = Vec::from_slice(alloc, sprites)?;
    let sizes = Vec::new(alloc);
    Ok(SoFar {
        sizes,
        places,
        left,
        kept,
    })
}

// Without a group, if no way packs it into one sheet.
#[inline]
fn kept_unless_lost<A: Allocator + Copy>(
    alloc: A,
    sprites: &[Size],
    groups: &[Option<usize>],
    options: &SheetOptions,
    kept: Vec<Option<usize>, A>,
    group: usize,
) -> Result<Vec<Option<usize>, A>, SheetError> {
    let found = opened(alloc, sprites, groups, options, group)?;
    if found.is_some() {
        return Ok(kept);
    }
    let less = without(alloc, group, &kept)?;
    Ok(less)
}

// The groups that a way packs into one sheet, each by itself. Each is asked for once.
#[inline]
fn kept_groups<A: Allocator + Copy>(
    alloc: A,
    sprites: &[Size],
    groups: &[Option<usize>],
    options: &SheetOptions,
) -> Result<Vec<Option<usize>, A>, SheetError> {
    let slots = slots_of(alloc, groups)?;
    let mut asked = vec![in alloc; false; slots.len()]?;
    let mut kept = Vec::from_slice(alloc, groups)?;
    for (number, place) in groups.iter().enumerate() {
        if let Some(group) = place {
            let slot = slots[number];
            let is_new = asks(&mut asked, slot);
            if is_new {
                kept = kept_unless_lost(alloc, sprites, groups, options, kept, *group)?;
            }
        }
    }
    Ok(kept)
}

// A group that was kept and that no way packs is given up, and the sheets begin anew.
#[inline]
fn after_group<A: Allocator + Copy>(
    alloc: A,
    sprites: &[Size],
    groups: &[Option<usize>],
    options: &SheetOptions,
    so_far: SoFar<A>,
    group: usize,
) -> Result<SoFar<A>, SheetError> {
    let kept = without(alloc, group, &so_far.kept)?;
    let again = begun(alloc, sprites, groups, options, kept)?;
    Ok(again)
}

// The next sheet has a group on it; or no way packs it into one.
#[inline]
fn group_step<A: Allocator + Copy>(
    alloc: A,
    sprites: &[Size],
    groups: &[Option<usize>],
    options: &SheetOptions,
    so_far: SoFar<A>,
    numbers: &[Option<usize>],
    group: usize,
) -> Result<SoFar<A>, SheetError> {
    let found = group_sheet(alloc, &so_far.left, numbers, options, group)?;
    match found {
        Some(sheet) => after_sheet(alloc, sprites, groups, options, so_far, sheet),
        None => after_group(alloc, sprites, groups, options, so_far, group),
    }
}

// The next sheet, where no group is left; none where a sprite is too large.
#[inline]
fn plain_step<A: Allocator + Copy>(
    alloc: A,
    sprites: &[Size],
    groups: &[Option<usize>],
    options: &SheetOptions,
    so_far: SoFar<A>,
) -> Result<Option<SoFar<A>>, SheetError> {
    let found = plain_sheet(alloc, &so_far.left, options)?;
    match found {
        Some(sheet) => {
            let more = after_sheet(alloc, sprites, groups, options, so_far, sheet)?;
            Ok(Some(more))
        }
        None => Ok(None),
    }
}

// One sheet more, or one group less; none where a sprite is too large.
#[inline]
fn step<A: Allocator + Copy>(
    alloc: A,
    sprites: &[Size],
    groups: &[Option<usize>],
    options: &SheetOptions,
    so_far: SoFar<A>,
) -> Result<Option<SoFar<A>>, SheetError> {
    let numbers = waiting(alloc, &so_far.kept, &so_far.places)?;
    match first_group(&numbers) {
        Some(group) => {
            let more = group_step(alloc, sprites, groups, options, so_far, &numbers, group)?;
            Ok(Some(more))
        }
        None => plain_step(alloc, sprites, groups, options, so_far),
    }
}

// One sheet after another, until each sprite has a place or one fits no empty sheet.
#[inline]
fn grouped<A: Allocator + Copy>(
    alloc: A,
    sprites: &[Size],
    groups: &[Option<usize>],
    options: &SheetOptions,
) -> Result<Option<Pages<A>>, SheetError> {
    let kept = kept_groups(alloc, sprites, groups, options)?;
    let mut so_far = begun(alloc, sprites, groups, options, kept)?;
    while !so_far.left.is_empty() {
        let more = match step(alloc, sprites, groups, options, so_far)? {
            Some(more) => more,
            _ => {
                return Ok(None);
            }
        };
        so_far = more;
    }
    let all = all_on(alloc, &so_far.places)?;
    Ok(Some(Pages {
        sizes: so_far.sizes,
        places: all,
    }))
}

/// `pack_pages`, with the sprites of a group on one sheet: `groups` has the number of each sprite's group, in the order of
/// the sprites. A sprite is in no group where that is None, or where the list ends before; entries past the last sprite
/// are ignored. All sprites of a group lie on one sheet, unless no way packs them by themselves into the greatest sheet that
/// is allowed. Such a group is given up before the first sheet is begun: each of its sprites counts as one in no group.
///
/// The other groups are taken in the order of their first sprites. The first one opens a sheet; then each other group that
/// the greatest sheet takes as well goes onto it, and then sprites in no group, in their order: all, or so many that it
/// doesn't take the next one as well. A sheet takes sprites if they have no more pixels than it, and the best of the ways
/// that `fill` tries first places them all. Such a sheet is as small as `pack` finds it for what lies there. When no group
/// is left, the other sprites are packed as `pack_pages` does, so with no number in `groups` this is `pack_pages`.
/// `effort` changes of the order are tried for each sheet. None only where a sprite, in each of the ways that
/// it may lie, is too large for an empty sheet; then nothing is packed.
///
/// The errors are those of `pack_pages`.
#[inline]
pub fn pack_groups<A: Allocator + Copy>(
    alloc: A,
    sprites: &[Size],
    groups: &[Option<usize>],
    options: &SheetOptions,
) -> Result<Option<Pages<A>>, SheetError> {
    check_all(sprites, options)?;
    let numbers = padded_to(alloc, sprites.len(), groups)?;
    let found = grouped(alloc, sprites, &numbers, options)?;
    Ok(found)
}
