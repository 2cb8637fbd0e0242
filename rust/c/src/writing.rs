// Erased from crates/guillotiere_c/src/writing.rt by rust/erase: don't edit.
//! Lists, written into arrays of the caller's: as much as there is room for.

use crate::plain::{
    plain_allocation, plain_change, plain_rectangle, plain_size, PlainAllocation, PlainChange,
    PlainRectangle, PlainSize,
};
use crate::plain_sheet::{
    plain_maybe_placed, plain_on_page, plain_placed, PlainMaybePlaced, PlainOnPage, PlainPlaced,
};
use wollemigo_core::atlas_sheet::{OnPage, Placed};
use wollemigo_core::guillotiere::{Allocation, Change, Rectangle, Size};

/// Writes ids with their rectangles.
pub fn write_allocations(list: &[Allocation], array: &mut [PlainAllocation]) {
    for i in 0..list.len().min(array.len()) {
        array[i] = plain_allocation(list[i]);
    }
}

/// Writes rectangles.
pub fn write_rectangles(list: &[Rectangle], array: &mut [PlainRectangle]) {
    for i in 0..list.len().min(array.len()) {
        array[i] = plain_rectangle(list[i]);
    }
}

/// Writes changes.
pub fn write_changes(list: &[Change], array: &mut [PlainChange]) {
    for i in 0..list.len().min(array.len()) {
        array[i] = plain_change(list[i]);
    }
}

/// Writes the places of sprites.
pub fn write_placed(list: &[Placed], array: &mut [PlainPlaced]) {
    for i in 0..list.len().min(array.len()) {
        array[i] = plain_placed(list[i]);
    }
}

/// Writes the places of sprites that have one.
pub fn write_maybe_placed(list: &[Option<Placed>], array: &mut [PlainMaybePlaced]) {
    for i in 0..list.len().min(array.len()) {
        array[i] = plain_maybe_placed(list[i]);
    }
}

/// Writes the places of sprites on several sheets.
pub fn write_on_pages(list: &[OnPage], array: &mut [PlainOnPage]) {
    for i in 0..list.len().min(array.len()) {
        array[i] = plain_on_page(list[i]);
    }
}

/// Writes sizes.
pub fn write_sizes(list: &[Size], array: &mut [PlainSize]) {
    for i in 0..list.len().min(array.len()) {
        array[i] = plain_size(list[i]);
    }
}
