// Erased from crates/atlas_sheet/src/trials.rt by rust/erase: don't edit.
//! All ways to place sprites, each with its order.

use crate::atlas_sheet::error::SheetError;
use crate::atlas_sheet::options::Spacing;
use crate::atlas_sheet::orders::greatest_first;
use crate::atlas_sheet::places::find_all;
use crate::atlas_sheet::ways::Way;
use crate::guillotiere::{Rectangle, Size};
use wollemigo_support::alloc::Allocator;
use wollemigo_support::prelude::Vec;

/// A way with its order of the sprites.
pub struct Trial<A: Allocator> {
    pub way: Way,
    pub order: Vec<(usize, Size), A>,
}

// Each of these ways with its order.
#[inline]
pub fn trials_of<A: Allocator + Copy>(
    alloc: A,
    sprites: &[Size],
    ways: &[Way],
) -> Result<Vec<Trial<A>, A>, SheetError> {
    let mut trials = Vec::new(alloc);
    for way in ways {
        let order = greatest_first(alloc, sprites, way.key)?;
        trials.push(Trial { way: *way, order })?;
    }
    Ok(trials)
}

/// A sheet that takes all sprites, and the way that packs them.
pub struct Packing<A: Allocator> {
    pub size: Size,
    pub way: Way,
    pub order: Vec<(usize, Size), A>,
    pub places: Vec<Rectangle, A>,
}

// All sprites in a sheet of this size by one way, if it packs them.
#[inline]
fn try_trial<A: Allocator + Copy>(
    alloc: A,
    sprites: &[Size],
    trial: &Trial<A>,
    size: Size,
    spacing: Spacing,
) -> Result<Option<Packing<A>>, SheetError> {
    let way = trial.way;
    let found = find_all(alloc, sprites, &trial.order, size, spacing, way.choice)?;
    let places = match found {
        Some(places) => places,
        _ => {
            return Ok(None);
        }
    };
    let order = Vec::from_slice(alloc, &trial.order)?;
    Ok(Some(Packing {
        size,
        way,
        order,
        places,
    }))
}

// All sprites in a sheet of this size by the first way that packs them, if one does.
#[inline]
pub fn try_size<A: Allocator + Copy>(
    alloc: A,
    sprites: &[Size],
    trials: &[Trial<A>],
    size: Size,
    spacing: Spacing,
) -> Result<Option<Packing<A>>, SheetError> {
    for trial in trials {
        let found = try_trial(alloc, sprites, trial, size, spacing)?;
        if found.is_some() {
            return Ok(found);
        }
    }
    Ok(None)
}
