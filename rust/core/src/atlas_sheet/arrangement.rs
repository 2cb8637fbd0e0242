// Erased from crates/atlas_sheet/src/arrangement.rt by rust/erase: don't edit.
//! Sprites as they lie, the order in which they ask for places, and what they find.
use crate::atlas_sheet::ways::Choice;
use crate::guillotiere::{Rectangle, Size};
use wollemigo_support::alloc::Allocator;
use wollemigo_support::prelude::Vec;

/// Sprites as they lie, the order in which they ask for places in a sheet, and what they find.
pub struct Arrangement<A: Allocator> {
    /// The size of the sheet.
    pub size: Size,
    /// How each takes a free box.
    pub choice: Choice,
    /// The sides of each sprite, as it lies.
    pub lying: Vec<Size, A>,
    /// The sprites with their numbers, in the order in which they ask.
    pub order: Vec<(usize, Size), A>,
    /// A place or none for each sprite, in the order of the sprites.
    pub places: Vec<Option<Rectangle>, A>,
}
