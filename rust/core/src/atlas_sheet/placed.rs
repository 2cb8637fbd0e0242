// Erased from crates/atlas_sheet/src/placed.rt by rust/erase: don't edit.
//! Where sprites lie in a sheet.

use crate::atlas_sheet::arrangement::Arrangement;
use crate::atlas_sheet::error::SheetError;
use crate::atlas_sheet::options::SheetOptions;
use crate::guillotiere::{Rectangle, Size};
use wollemigo_support::alloc::Allocator;
use wollemigo_support::prelude::Vec;

/// Where a sprite lies in a sheet.
#[derive(Clone, Copy, Debug, PartialEq, Eq)]
pub struct Placed {
    /// Its place, in pixels, without the padding.
    pub area: Rectangle,
    /// Whether it is turned by 90 degrees: the place is as wide as the sprite is high. A square sprite never is.
    pub turned: bool,
}

// Where a sprite lies that has a place.
#[inline]
fn placed_in(turn: bool, sprite: Size, lying: Size, place: Option<Rectangle>) -> Option<Placed> {
    let area = place?;
    Some(Placed {
        area,
        turned: turn && lying != sprite,
    })
}

/// The places of an arrangement, each with how its sprite lies.
#[inline]
pub fn placed_all<A: Allocator + Copy>(
    alloc: A,
    sprites: &[Size],
    options: &SheetOptions,
    arrangement: &Arrangement<A>,
) -> Result<Vec<Option<Placed>, A>, SheetError> {
    let mut placed = Vec::new(alloc);
    for (number, place) in arrangement.places.iter().enumerate() {
        placed.push(placed_in(
            options.turn,
            sprites[number],
            arrangement.lying[number],
            *place,
        ))?;
    }
    Ok(placed)
}

/// The places, where each sprite has one.
#[inline]
pub fn whole<A: Allocator + Copy>(
    alloc: A,
    places: &[Option<Placed>],
) -> Result<Vec<Placed, A>, SheetError> {
    let mut all = Vec::new(alloc);
    for place in places {
        if let Some(placed) = place {
            all.push(*placed)?;
        }
    }
    Ok(all)
}
