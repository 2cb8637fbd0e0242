// Erased from crates/atlas_sheet/src/packing.rt by rust/erase: don't edit.
//! Smaller and smaller sheets.

use crate::atlas_sheet::arrangement::Arrangement;
use crate::atlas_sheet::climbing::{asked_in, improve, is_whole};
use crate::atlas_sheet::error::SheetError;
use crate::atlas_sheet::filling::from_zero;
use crate::atlas_sheet::options::SheetOptions;
use crate::atlas_sheet::orders::greatest_first;
use crate::atlas_sheet::random::Random;
use crate::atlas_sheet::search::{greatest_sheet, smaller_sheet, smallest};
use crate::atlas_sheet::trials::{trials_of, Packing};
use crate::atlas_sheet::turnings::{laid, Turning};
use crate::atlas_sheet::ways::WAYS;
use crate::guillotiere::{Rectangle, Size};
use wollemigo_support::alloc::Allocator;
use wollemigo_support::prelude::Vec;

// Places that are there.
#[inline]
fn somes<A: Allocator + Copy>(
    alloc: A,
    places: &[Rectangle],
) -> Result<Vec<Option<Rectangle>, A>, SheetError> {
    let mut all = Vec::with_capacity(alloc, places.len())?;
    all.extend(places.iter().map(|area| Some(*area)))?;
    Ok(all)
}

// What a way packs, as an arrangement.
#[inline]
fn arrangement_of<A: Allocator + Copy>(
    alloc: A,
    options: &SheetOptions,
    lying: Vec<Size, A>,
    packing: Packing<A>,
) -> Result<Arrangement<A>, SheetError> {
    let places = somes(alloc, &packing.places)?;
    Ok(Arrangement {
        size: packing.size,
        choice: packing.way.choice,
        lying,
        order: packing.order,
        places,
    })
}

// The sprites as they are laid, in the smallest sheet into which a way packs them.
#[inline]
fn first_so<A: Allocator + Copy>(
    alloc: A,
    sprites: &[Size],
    options: &SheetOptions,
    how: Turning,
) -> Result<Option<Arrangement<A>>, SheetError> {
    let lying = laid(alloc, sprites, options, how)?;
    let trials = trials_of(alloc, &lying, &WAYS)?;
    let found = smallest(alloc, &lying, &trials, options.allowed, options.spacing())?;
    match found {
        None => Ok(None),
        Some(packing) => {
            let first = arrangement_of(alloc, options, lying, packing)?;
            Ok(Some(first))
        }
    }
}

// How many pixels a sheet has.
#[inline]
fn pixels(size: Size) -> u64 {
    from_zero(size.width) * from_zero(size.height)
}

// The arrangement in the smaller sheet, if there is one; of two with as many pixels the first.
#[inline]
fn smaller_of<A: Allocator>(
    one: Option<Arrangement<A>>,
    other: Option<Arrangement<A>>,
) -> Option<Arrangement<A>> {
    let first = match one {
        Some(first) => first,
        _ => {
            return other;
        }
    };
    let second = match other {
        Some(second) => second,
        _ => {
            return Some(first);
        }
    };
    if pixels(second.size) < pixels(first.size) {
        Some(second)
    } else {
        Some(first)
    }
}

// The smallest sheet into which a way packs all sprites, however they are laid.
#[inline]
fn first_found<A: Allocator + Copy>(
    alloc: A,
    sprites: &[Size],
    options: &SheetOptions,
) -> Result<Option<Arrangement<A>>, SheetError> {
    let given = first_so(alloc, sprites, options, Turning::AsGiven)?;
    if !options.turn {
        return Ok(given);
    }
    let wide = first_so(alloc, sprites, options, Turning::Wide)?;
    let high = first_so(alloc, sprites, options, Turning::High)?;
    Ok(smaller_of(given, smaller_of(wide, high)))
}

// Sprites in smaller and smaller sheets, as long as there are tries: the last one that took all. `told` is called with
// the size of the first, and of each one that takes all, as soon as it is found.
#[inline]
fn descend<A: Allocator + Copy, F: FnMut(Size)>(
    alloc: A,
    options: &SheetOptions,
    random: &mut Random,
    tries: &mut u32,
    first: Arrangement<A>,
    mut told: F,
) -> Result<Arrangement<A>, SheetError> {
    told(first.size);
    let mut best = first;
    while *tries > 0 {
        let size = match smaller_sheet(options.allowed, best.size) {
            Some(size) => size,
            _ => {
                break;
            }
        };
        *tries -= 1;
        let moved = asked_in(alloc, options, size, best.choice, &best.lying, &best.order)?;
        let found = improve(alloc, options, random, tries, moved)?;
        if !is_whole(&found) {
            break;
        }
        told(found.size);
        best = found;
    }
    Ok(best)
}

// Sprites that none of the ways packs, in the greatest sheet by the first way, and the changes of its order.
#[inline]
fn squeeze<A: Allocator + Copy>(
    alloc: A,
    sprites: &[Size],
    options: &SheetOptions,
    random: &mut Random,
    tries: &mut u32,
) -> Result<Option<Arrangement<A>>, SheetError> {
    if *tries == 0 {
        return Ok(None);
    }
    let size = greatest_sheet(options.allowed);
    let way = WAYS[0];
    let lying = laid(alloc, sprites, options, Turning::AsGiven)?;
    let order = greatest_first(alloc, &lying, way.key)?;
    let asked = asked_in(alloc, options, size, way.choice, &lying, &order)?;
    let found = improve(alloc, options, random, tries, asked)?;
    if !is_whole(&found) {
        return Ok(None);
    }
    Ok(Some(found))
}

// The first arrangement of all sprites: in the smallest sheet that a way finds, or else squeezed into the greatest one.
#[inline]
fn first_whole<A: Allocator + Copy>(
    alloc: A,
    sprites: &[Size],
    options: &SheetOptions,
    random: &mut Random,
    tries: &mut u32,
) -> Result<Option<Arrangement<A>>, SheetError> {
    let found = first_found(alloc, sprites, options)?;
    match found {
        None => {
            let squeezed = squeeze(alloc, sprites, options, random, tries)?;
            Ok(squeezed)
        }
        Some(first) => Ok(Some(first)),
    }
}

/// All sprites in the smallest sheet that the ways and the changes of the order find; `told` is last called with its
/// size. None only where no way packs them into the greatest one.
#[inline]
pub fn packed<A: Allocator + Copy, F: FnMut(Size)>(
    alloc: A,
    sprites: &[Size],
    options: &SheetOptions,
    mut told: F,
) -> Result<Option<Arrangement<A>>, SheetError> {
    let mut random = Random::new(options.seed);
    let mut tries = options.effort;
    let found = first_whole(alloc, sprites, options, &mut random, &mut tries)?;
    let first = match found {
        Some(first) => first,
        _ => {
            return Ok(None);
        }
    };
    if options.effort == 0 {
        told(first.size);
        return Ok(Some(first));
    }
    let best = descend(alloc, options, &mut random, &mut tries, first, told)?;
    Ok(Some(best))
}
