// Erased from crates/atlas_sheet/src/cells.rt by rust/erase: don't edit.
//! Sprites placed in a grid of cells of the alignment's sides, each as high up as it can lie, and there as far left.

use crate::atlas_maxrects::TopmostPacker;
use crate::atlas_sheet::error::SheetError;
use crate::atlas_sheet::options::{SheetOptions, Spacing};
use crate::atlas_sheet::placed::Placed;
use crate::atlas_sheet::places::{asked, inner, inset};
use crate::guillotiere::{point2, size2, Rectangle, Size};
use wollemigo_support::alloc::Allocator;
use wollemigo_support::prelude::{vec, Vec};

// How many whole cells a side has.
#[inline]
fn whole_cells(side: i32, cell: i32) -> i32 {
    (side as u32 / cell as u32) as i32
}

// How many cells a side takes.
#[inline]
fn cells_for(side: i32, cell: i32) -> i32 {
    ((side as u32 - 1) / cell as u32 + 1) as i32
}

// The grid of a sheet.
#[inline]
fn grid_in(sheet: Size, spacing: Spacing) -> Size {
    let room = inner(sheet, spacing);
    size2(
        whole_cells(room.width, spacing.alignment.width),
        whole_cells(room.height, spacing.alignment.height),
    )
}

// How many cells a sprite takes.
#[inline]
fn cells_of(asked: Size, cell: Size) -> Size {
    size2(
        cells_for(asked.width, cell.width),
        cells_for(asked.height, cell.height),
    )
}

// A number that fits an `i32`, as one.
#[inline]
fn signed(number: u32) -> i32 {
    number as i32
}

// A number, or 0 for one below 0.
#[inline]
fn unsigned(number: i32) -> u32 {
    number.max(0) as u32
}

// Where a side begins that begins at a cell, and where it ends.
#[inline]
fn stretch(from: i32, cell: i32, side: i32) -> (i32, i32) {
    let low = unsigned(from) * unsigned(cell);
    (signed(low), signed(low + unsigned(side)))
}

// The box with these sides that begins at a corner of a cell.
#[inline]
fn box_from(cells: Rectangle, cell: Size, asked: Size) -> Rectangle {
    let across = stretch(cells.min.x, cell.width, asked.width);
    let down = stretch(cells.min.y, cell.height, asked.height);
    Rectangle {
        min: point2(across.0, down.0),
        max: point2(across.1, down.1),
    }
}

// The cells of a box of this size, if they have room.
#[inline]
fn take_cells<A: Allocator + Copy>(
    packer: &mut TopmostPacker<A>,
    size: Size,
) -> Result<Option<Rectangle>, SheetError> {
    Ok(packer.place(size)?)
}

// Places a sprite, if it has room.
#[inline]
fn place_sprite<A: Allocator + Copy>(
    packer: &mut TopmostPacker<A>,
    sprite: Size,
    spacing: Spacing,
) -> Result<Option<Rectangle>, SheetError> {
    let wanted = asked(sprite, spacing.padding);
    match take_cells(packer, cells_of(wanted, spacing.alignment))? {
        None => Ok(None),
        Some(cells) => {
            let area = box_from(cells, spacing.alignment, wanted);
            Ok(Some(inset(area, sprite, spacing.padding)))
        }
    }
}

// So many sprites without a place.
#[inline]
fn none_yet<A: Allocator>(alloc: A, count: usize) -> Result<Vec<Option<Placed>, A>, SheetError> {
    let placed = vec![in alloc; None; count]?;
    Ok(placed)
}

/// Sprites in a grid of cells, one after another in this order. None as soon as one has no room.
#[inline]
pub fn topmost_places<A: Allocator + Copy>(
    alloc: A,
    sprites: &[Size],
    options: &SheetOptions,
    order: &[(usize, Size)],
    sheet: Size,
) -> Result<Option<Vec<Option<Placed>, A>>, SheetError> {
    let spacing = options.spacing();
    let mut packer = TopmostPacker::new(alloc, grid_in(sheet, spacing))?;
    let mut placed = none_yet(alloc, sprites.len())?;
    for sprite in order {
        match place_sprite(&mut packer, sprite.1, spacing)? {
            Some(area) => placed[sprite.0] = Some(upright(area)),
            None => return Ok(None),
        }
    }
    Ok(Some(placed))
}

// A place that isn't turned.
#[inline]
fn upright(area: Rectangle) -> Placed {
    Placed {
        area,
        turned: false,
    }
}
