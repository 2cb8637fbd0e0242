// Erased from crates/atlas_sheet/src/orders.rt by rust/erase: don't edit.
//! The orders in which sprites are placed.

use crate::atlas_sheet::error::SheetError;
use crate::guillotiere::Size;
use core::cmp::Reverse;
use wollemigo_support::alloc::Allocator;
use wollemigo_support::prelude::Vec;

/// What sprites are sorted by, the greatest first; those that compare equal keep their order.
#[derive(Clone, Copy, Debug, PartialEq, Eq)]
pub enum Key {
    Height,
    Area,
    LesserSide,
    GreaterSide,
    HeightTimesGreaterSide,
}

impl Key {
    /// The value of a sprite under this key: pixels, or pixels times pixels. A side below 0 counts as 0.
    #[inline]
    #[must_use]
    pub fn of(self, sprite: Size) -> u64 {
        let width = sprite.width.max(0) as u64;
        let height = sprite.height.max(0) as u64;
        match self {
            Key::Height => height,
            Key::Area => width * height,
            Key::LesserSide => width.min(height),
            Key::GreaterSide => width.max(height),
            Key::HeightTimesGreaterSide => height * width.max(height),
        }
    }
}

// The sprites with their numbers, from 0.
#[inline]
pub fn numbered<A: Allocator>(
    alloc: A,
    sprites: &[Size],
) -> Result<Vec<(usize, Size), A>, SheetError> {
    let mut order = Vec::with_capacity(alloc, sprites.len())?;
    order.extend(sprites.iter().copied().enumerate())?;
    Ok(order)
}

// The sprites with their numbers, those with the greatest key first.
#[inline]
pub fn greatest_first<A: Allocator>(
    alloc: A,
    sprites: &[Size],
    key: Key,
) -> Result<Vec<(usize, Size), A>, SheetError> {
    let mut order = numbered(alloc, sprites)?;
    order.sort_by_key(|sprite| Reverse(key.of(sprite.1)))?;
    Ok(order)
}
