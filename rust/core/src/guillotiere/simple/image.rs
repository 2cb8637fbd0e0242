// Erased from crates/guillotiere/src/simple/image.rt by rust/erase: don't edit.
//! A simple allocator as plain data, and one made of such data, whoever gives them.

use super::changes::file_area;
use super::SimpleAtlasAllocator;
use crate::atlas_model::{AllocatorOptions, AtlasError, Rectangle, Size};
use crate::atlas_search::bands::Scale;
use crate::guillotiere::simple::apart::{are_disjoint, are_within};
use crate::guillotiere::simple::boxes::{FreeBox, FreeBoxes};
use wollemigo_support::alloc::{AllocError, Allocator, Global};
use wollemigo_support::prelude::Vec;

/// A simple allocator's size, its options and its free boxes, whose order has no meaning.
pub struct SimpleImage<A: Allocator = Global> {
    pub size: Size,
    pub options: AllocatorOptions,
    pub free: Vec<Rectangle, A>,
}

// Whether data are those of a simple allocator.
#[inline]
fn is_simple<A: Allocator + Copy>(alloc: A, image: &SimpleImage<A>) -> Result<bool, AllocError> {
    if !image.size.is_positive() {
        return Ok(false);
    }
    if !image.options.is_valid() {
        return Ok(false);
    }
    if !are_within(&image.free, image.size) {
        return Ok(false);
    }
    are_disjoint(alloc, &image.free, image.size)
}

// Whether an entry is a free box.
#[inline]
fn is_free(entry: &FreeBox) -> bool {
    entry.area.min.x < entry.area.max.x
}

// The rectangles of the free entries.
#[inline]
fn free_entry_areas<A: Allocator>(
    alloc: A,
    entries: &[FreeBox],
) -> Result<Vec<Rectangle, A>, AllocError> {
    let mut areas = Vec::new(alloc);
    for entry in entries {
        if is_free(entry) {
            areas.push(entry.area)?;
        }
    }
    Ok(areas)
}

// Adds rectangles, and room for them.
#[inline]
fn file_areas<A: Allocator>(
    boxes: &mut FreeBoxes<A>,
    areas: &[Rectangle],
    options: &Scale,
) -> Result<(), AtlasError> {
    for area in areas {
        file_area(boxes, *area, options)?;
    }
    Ok(())
}

impl<A: Allocator + Copy> SimpleAtlasAllocator<A> {
    /// The allocator as plain data. `Memory` is the only error.
    #[inline]
    pub fn image(&self) -> Result<SimpleImage<A>, AtlasError> {
        let free = free_entry_areas(*self.boxes.entries.allocator(), &self.boxes.entries)?;
        Ok(SimpleImage {
            size: self.size,
            options: self.options.plain(),
            free,
        })
    }

    /// The allocator that data describe; None if they are those of none. Later calls have the answers that they have of the allocator
    /// that the data are of, except where memory is refused. Takes time in proportion to the boxes and the digits of the width, and to
    /// sort them. `Memory` is the only error.
    #[inline]
    pub fn from_image(alloc: A, image: &SimpleImage<A>) -> Result<Option<Self>, AtlasError> {
        if !is_simple(alloc, image)? {
            return Ok(None);
        }
        let options = Scale::new(&image.options);
        let mut boxes = FreeBoxes::new(alloc)?;
        file_areas(&mut boxes, &image.free, &options)?;
        Ok(Some(SimpleAtlasAllocator {
            boxes,
            size: image.size,
            options,
        }))
    }
}
