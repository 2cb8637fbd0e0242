// Erased from crates/atlas_maxrects/src/packer.rt by rust/erase: don't edit.
//! The packer.

use crate::atlas_maxrects::corners::{best_corner, Corner};
use crate::atlas_maxrects::free::{left_over, FreeBox};
use crate::atlas_model::{point2, AtlasError, Rectangle, Size};
use wollemigo_support::alloc::{Allocator, Global};
use wollemigo_support::prelude::Vec;

/// A sheet in which boxes are placed one after another: each at the topmost position at which it lies in the sheet and on
/// no other, and of these at the leftmost. No box is taken back.
///
/// It keeps the boxes that it placed, and the maximal free boxes: all that may still lie in the sheet lies inside one of
/// these.
pub struct TopmostPacker<A: Allocator + Copy = Global> {
    size: Size,
    free: Vec<FreeBox, A>,
    placed: Vec<Rectangle, A>,
}

// The width and the height.
#[inline]
fn sides_in(size: Size) -> (u32, u32) {
    (size.width as u32, size.height as u32)
}

// The box with these sides at a corner.
#[inline]
fn taken_at(corner: Corner, width: u32, height: u32) -> FreeBox {
    FreeBox {
        left: corner.x,
        top: corner.y,
        right: corner.x + width,
        bottom: corner.y + height,
    }
}

// A box of these coordinates.
#[inline]
fn rectangle_in(taken: FreeBox) -> Rectangle {
    Rectangle {
        min: point2(taken.left as i32, taken.top as i32),
        max: point2(taken.right as i32, taken.bottom as i32),
    }
}

// The box of a whole sheet. A side below 0 counts as 0.
#[inline]
fn whole(size: Size) -> FreeBox {
    FreeBox {
        left: 0,
        top: 0,
        right: size.width.max(0) as u32,
        bottom: size.height.max(0) as u32,
    }
}

impl<A: Allocator + Copy> TopmostPacker<A> {
    /// A sheet of this size, in pixels, in which nothing lies. The only error is `Memory`.
    #[inline]
    pub fn new(alloc: A, size: Size) -> Result<Self, AtlasError> {
        let mut free = Vec::new(alloc);
        free.push(whole(size))?;
        Ok(TopmostPacker {
            size,
            free,
            placed: Vec::new(alloc),
        })
    }

    /// Places a box of this size, in pixels, at the topmost position that is free for it, and of these at the leftmost.
    /// None if the size is empty, or if the box has no room anywhere. The only error is `Memory`. Unless something is
    /// placed, nothing changes.
    #[inline]
    pub fn place(&mut self, size: Size) -> Result<Option<Rectangle>, AtlasError> {
        if !size.is_positive() {
            return Ok(None);
        }
        let (width, height) = sides_in(size);
        match best_corner(&self.free, width, height) {
            None => Ok(None),
            Some(corner) => {
                let taken = taken_at(corner, width, height);
                let free = left_over(*self.free.allocator(), &self.free, taken)?;
                let rectangle = rectangle_in(taken);
                self.placed.push(rectangle)?;
                self.free = free;
                Ok(Some(rectangle))
            }
        }
    }

    /// The size of the sheet.
    #[inline]
    #[must_use]
    pub fn size(&self) -> Size {
        self.size
    }

    /// The boxes that were placed, the first one first. They lie in the sheet, and no pixel lies in two.
    #[inline]
    #[must_use]
    pub fn placed(&self) -> &[Rectangle] {
        &self.placed
    }
}
