// Erased from crates/atlas_sheet/src/climbing.rt by rust/erase: don't edit.
//! Climbing: an order is changed a little, and what fills a sheet no worse stays.

use crate::atlas_sheet::arrangement::Arrangement;
use crate::atlas_sheet::changes::change_of;
use crate::atlas_sheet::error::SheetError;
use crate::atlas_sheet::filling::used_area;
use crate::atlas_sheet::options::SheetOptions;
use crate::atlas_sheet::places::find_places;
use crate::atlas_sheet::random::Random;
use crate::atlas_sheet::ways::Choice;
use crate::guillotiere::Size;
use wollemigo_support::alloc::Allocator;
use wollemigo_support::prelude::Vec;

/// Whether each sprite has a place.
#[inline]
#[must_use]
pub fn is_whole<A: Allocator>(arrangement: &Arrangement<A>) -> bool {
    arrangement.places.iter().all(|place| place.is_some())
}

/// What sprites that lie this way find in a sheet when they ask in this order.
#[inline]
pub fn asked_in<A: Allocator + Copy>(
    alloc: A,
    options: &SheetOptions,
    size: Size,
    choice: Choice,
    sprites: &[Size],
    order: &[(usize, Size)],
) -> Result<Arrangement<A>, SheetError> {
    let places = find_places(alloc, sprites, order, size, options.spacing(), choice)?;
    let lying = Vec::from_slice(alloc, sprites)?;
    let order = Vec::from_slice(alloc, order)?;
    Ok(Arrangement {
        size,
        choice,
        lying,
        order,
        places,
    })
}

// An arrangement's sprites in another order, with one change, and what they find in it.
#[inline]
fn changed<A: Allocator + Copy>(
    alloc: A,
    options: &SheetOptions,
    random: &mut Random,
    from: &Arrangement<A>,
) -> Result<Arrangement<A>, SheetError> {
    let asking = change_of(alloc, random, options.turn, &from.lying, &from.order)?;
    let to = asked_in(
        alloc,
        options,
        from.size,
        from.choice,
        &asking.lying,
        &asking.order,
    )?;
    Ok(to)
}

/// Changes the order of an arrangement as long as there are tries and a sprite has no place. A change stays if the
/// places have no fewer pixels with it.
#[inline]
pub fn improve<A: Allocator + Copy>(
    alloc: A,
    options: &SheetOptions,
    random: &mut Random,
    tries: &mut u32,
    first: Arrangement<A>,
) -> Result<Arrangement<A>, SheetError> {
    let mut best = first;
    let mut most = used_area(&best.places);
    while *tries > 0 && !is_whole(&best) {
        *tries -= 1;
        let next = changed(alloc, options, random, &best)?;
        let area = used_area(&next.places);
        if most <= area {
            best = next;
            most = area;
        }
    }
    Ok(best)
}
