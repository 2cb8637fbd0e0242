// Erased from crates/atlas_sheet/src/places.rt by rust/erase: don't edit.
//! Places for sprites, one after another.

use crate::atlas_sheet::error::SheetError;
use crate::atlas_sheet::options::Spacing;
use crate::atlas_sheet::orders::greatest_first;
use crate::atlas_sheet::ways::{Choice, Way};
use crate::guillotiere::{point2, size2, Point, Rectangle, SimpleAtlasAllocator, Size};
use wollemigo_support::alloc::Allocator;
use wollemigo_support::prelude::{vec, Vec};

// What stands for a place until it is found.
const NOWHERE: Rectangle = Rectangle {
    min: Point { x: 0, y: 0 },
    max: Point { x: 0, y: 0 },
};

// What is left of a sheet's side without the padding at one end, and at least 1.
#[inline]
fn inner_side(side: i32, padding: u16) -> i32 {
    (side as u32).saturating_sub(u32::from(padding)).max(1) as i32
}

/// What is left of a sheet without the padding at its right and below.
#[inline]
#[must_use]
pub fn inner(sheet: Size, spacing: Spacing) -> Size {
    size2(
        inner_side(sheet.width, spacing.padding),
        inner_side(sheet.height, spacing.padding),
    )
}

// A new sheet, in which each sprite has the padding at its left and above.
#[inline]
fn start<A: Allocator + Copy>(
    alloc: A,
    sheet: Size,
    spacing: Spacing,
    choice: Choice,
) -> Result<SimpleAtlasAllocator<A>, SheetError> {
    Ok(SimpleAtlasAllocator::with_options(
        alloc,
        inner(sheet, spacing),
        &choice.options(spacing),
    )?)
}

// What a sprite asks for: its sides with the padding.
#[inline]
#[must_use]
pub fn asked(sprite: Size, padding: u16) -> Size {
    let border = i32::from(padding);
    size2(sprite.width + border, sprite.height + border)
}

// A part of a box's side behind the padding.
#[inline]
fn inset_side(low: i32, padding: u16, side: i32) -> (i32, i32) {
    let from = low + i32::from(padding);
    (from, from + side)
}

// The place of a sprite in the corner of a box, without the padding at its left and above.
#[inline]
#[must_use]
pub fn inset(area: Rectangle, sprite: Size, padding: u16) -> Rectangle {
    let across = inset_side(area.min.x, padding, sprite.width);
    let down = inset_side(area.min.y, padding, sprite.height);
    Rectangle {
        min: point2(across.0, down.0),
        max: point2(across.1, down.1),
    }
}

// Asks for a box of these sides.
#[inline]
fn request<A: Allocator + Copy>(
    packer: &mut SimpleAtlasAllocator<A>,
    size: Size,
) -> Result<Option<Rectangle>, SheetError> {
    Ok(packer.allocate(size)?)
}

// Asks for a place for a sprite.
#[inline]
fn place<A: Allocator + Copy>(
    packer: &mut SimpleAtlasAllocator<A>,
    sprite: Size,
    spacing: Spacing,
) -> Result<Option<Rectangle>, SheetError> {
    let area = match request(packer, asked(sprite, spacing.padding))? {
        Some(area) => area,
        _ => {
            return Ok(None);
        }
    };
    Ok(Some(inset(area, sprite, spacing.padding)))
}

// Asks for a place for a sprite, if it hasn't the size that found none just before.
#[inline]
fn place_unless<A: Allocator + Copy>(
    packer: &mut SimpleAtlasAllocator<A>,
    sprite: Size,
    spacing: Spacing,
    refused: Option<Size>,
) -> Result<Option<Rectangle>, SheetError> {
    if refused == Some(sprite) {
        return Ok(None);
    }
    place(packer, sprite, spacing)
}

// The size that found no place, if it found none.
#[inline]
fn refused_by(sprite: Size, found: Option<Rectangle>) -> Option<Size> {
    match found {
        Some(_) => None,
        None => Some(sprite),
    }
}

// Numbered sprites ask one after another; what each finds is written at its number.
#[inline]
fn find_in<A: Allocator + Copy>(
    packer: &mut SimpleAtlasAllocator<A>,
    order: &[(usize, Size)],
    spacing: Spacing,
    places: &mut [Option<Rectangle>],
) -> Result<(), SheetError> {
    let mut refused = None;
    for sprite in order {
        let found = place_unless(packer, sprite.1, spacing, refused)?;
        places[sprite.0] = found;
        refused = refused_by(sprite.1, found);
    }
    Ok(())
}

/// What each of the numbered sprites finds in a new sheet, in the order of the numbers.
#[inline]
pub fn find_places<A: Allocator + Copy>(
    alloc: A,
    sprites: &[Size],
    order: &[(usize, Size)],
    sheet: Size,
    spacing: Spacing,
    choice: Choice,
) -> Result<Vec<Option<Rectangle>, A>, SheetError> {
    let mut places = vec![in alloc; None; sprites.len()]?;
    let mut packer = start(alloc, sheet, spacing, choice)?;
    find_in(&mut packer, order, spacing, &mut places)?;
    Ok(places)
}

// A place for each of the numbered sprites in a new sheet, in the order of the numbers. None as soon as one finds none.
#[inline]
pub fn find_all<A: Allocator + Copy>(
    alloc: A,
    sprites: &[Size],
    order: &[(usize, Size)],
    sheet: Size,
    spacing: Spacing,
    choice: Choice,
) -> Result<Option<Vec<Rectangle, A>>, SheetError> {
    let mut places = vec![in alloc; NOWHERE; sprites.len()]?;
    let mut packer = start(alloc, sheet, spacing, choice)?;
    for sprite in order {
        match place(&mut packer, sprite.1, spacing)? {
            Some(found) => places[sprite.0] = found,
            None => return Ok(None),
        }
    }
    Ok(Some(places))
}

/// What sprites find in a new sheet by one way.
pub struct Found<A: Allocator> {
    /// The numbered sprites in the order in which they ask.
    pub order: Vec<(usize, Size), A>,
    /// A place or none for each sprite, in the order of the sprites.
    pub places: Vec<Option<Rectangle>, A>,
}

/// What each sprite finds in a new sheet in this way.
#[inline]
pub fn try_way<A: Allocator + Copy>(
    alloc: A,
    sprites: &[Size],
    sheet: Size,
    spacing: Spacing,
    way: Way,
) -> Result<Found<A>, SheetError> {
    let order = greatest_first(alloc, sprites, way.key)?;
    let places = find_places(alloc, sprites, &order, sheet, spacing, way.choice)?;
    Ok(Found { order, places })
}
