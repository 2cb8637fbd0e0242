// Erased from crates/guillotiere/src/simple.rt by rust/erase: don't edit.
//! An allocator that hands out boxes and never takes one back.

mod apart;
pub mod boxes;
mod changes;
pub mod image;

use crate::atlas_model::{
    AllocatorOptions, AtlasError, Rectangle, Size, SlotCount, DEFAULT_OPTIONS,
};
use crate::atlas_search::bands::Scale;
use crate::atlas_search::best::Found;
use crate::atlas_search::choice::rounded;
use crate::atlas_search::cut::{granted, guillotine, Rest};
use crate::atlas_search::search::pick;
use crate::guillotiere::simple::boxes::{FreeBox, FreeBoxes, MOST_BOXES};
use wollemigo_support::alloc::{Allocator, Global};

/// A simpler allocator, which hands out boxes and never takes one back: its free boxes make up no tree, and a part that
/// is narrower or lower than the alignment is lost.
///
/// It keeps the memory allocator that it was made with. Contracts see what it stores, and for how many entries it has memory;
/// `simple_state_of` reads its free boxes, its size and its options there.
///
/// Each entry for a free box takes 32 bytes on the heap. Where a second one is needed there are eight, and the memory for a
/// ninth one comes with 11,656 for the table of its lists of free boxes, once. Entries
/// that aren't used any more are used first by later calls, and the room for entries is kept until a start from an atlas. There are at
/// most 4,261,412,864 entries: where more would be used, `Memory` is the answer.
pub struct SimpleAtlasAllocator<A: Allocator + Copy = Global> {
    boxes: FreeBoxes<A>,
    size: Size,
    options: Scale,
}

impl<A: Allocator + Copy> SimpleAtlasAllocator<A> {
    /// An allocator of one free box of this size, in pixels, with `DEFAULT_OPTIONS`. Requires a size that isn't empty. The
    /// only error is `Memory`.
    #[inline]
    pub fn new(alloc: A, size: Size) -> Result<Self, AtlasError> {
        Self::with_options(alloc, size, &DEFAULT_OPTIONS)
    }

    /// An allocator of one free box of this size, in pixels, with these options. Requires a size that isn't empty and valid
    /// options. The only error is `Memory`.
    #[inline]
    pub fn with_options(
        alloc: A,
        size: Size,
        options: &AllocatorOptions,
    ) -> Result<Self, AtlasError> {
        let mut boxes = FreeBoxes::new(alloc)?;
        let options = Scale::new(options);
        boxes.restart(Rectangle::from(size), &options);
        Ok(SimpleAtlasAllocator {
            boxes,
            size,
            options,
        })
    }

    /// A copy: the whole stored value is equal, entries and lists included, with as much room for entries, and so are its answers to
    /// later calls, except where memory is refused. `Memory` is the only error.
    #[inline]
    pub fn clone(&self) -> Result<Self, AtlasError> {
        let boxes = self.boxes.copy()?;
        Ok(SimpleAtlasAllocator {
            boxes,
            size: self.size,
            options: self.options.copy(),
        })
    }

    /// Grants a request: the box of the rounded size at the `min` of the free box that is picked. None if the size is
    /// empty, if a rounded side passes 2147483647, or if the rounded size fits no free box; then no memory is asked
    /// for. The only error is `Memory`, if more entries would be used than there is room for and memory for them is refused.
    /// Unless something is granted, nothing changes. Keeps the room of the entries.
    #[inline]
    pub fn allocate(&mut self, requested_size: Size) -> Result<Option<Rectangle>, AtlasError> {
        grant(&mut self.boxes, requested_size, &self.options)
    }

    /// The size of the allocator.
    #[inline]
    #[must_use]
    pub fn size(&self) -> Size {
        self.size
    }

    /// The options of the allocator.
    #[inline]
    #[must_use]
    pub fn options(&self) -> AllocatorOptions {
        self.options.plain()
    }

    /// Whether `grow` may be called with this size: neither side is less than the allocator's.
    #[inline]
    #[must_use]
    pub fn can_grow_to(&self, new_size: Size) -> bool {
        let size = self.size();
        size.width <= new_size.width && size.height <= new_size.height
    }

    /// Whether one free box has the allocator's size.
    #[inline]
    #[must_use]
    pub fn is_empty(&self) -> bool {
        is_listed(&self.boxes.entries, &Rectangle::from(self.size))
    }

    /// How many entries are used, one for each free box, how many there are, and how many there may be: 4,261,412,864. There is
    /// room for the second number at least.
    #[inline]
    #[must_use]
    pub fn slots(&self) -> SlotCount {
        SlotCount {
            used: self.boxes.used,
            kept: self.boxes.entries.len() as u32,
            limit: MOST_BOXES,
        }
    }
}

// Whether a box is one of the entries.
#[inline]
fn is_listed(entries: &[FreeBox], rectangle: &Rectangle) -> bool {
    for entry in entries {
        if entry.area == *rectangle {
            return true;
        }
    }
    false
}

// Whether a part is neither narrower nor lower than the alignment.
#[inline]
fn is_kept(part: Rectangle, options: &Scale) -> bool {
    let size = part.size();
    let least = options.plain().alignment;
    size.width >= least.width && size.height >= least.height
}

// Adds a part if it is kept.
#[inline]
fn keep<A: Allocator>(boxes: &mut FreeBoxes<A>, part: Rectangle, options: &Scale) {
    if is_kept(part, options) {
        boxes.add(part, options);
    }
}

// How many parts of a rest are kept.
#[inline]
fn kept_count(rest: &Rest, options: &Scale) -> u32 {
    let split = if is_kept(rest.split, options) { 1 } else { 0 };
    let leftover = if is_kept(rest.leftover, options) {
        1
    } else {
        0
    };
    split + leftover
}

// Cuts a picked box: it gives way to what is kept of it, and its entry is used again.
#[inline]
fn cut_picked<A: Allocator>(
    boxes: &mut FreeBoxes<A>,
    found: Found,
    size: Size,
    options: &Scale,
) -> Result<(), AtlasError> {
    let rest = guillotine(found.rectangle, size);
    boxes.make_room(kept_count(&rest, options).saturating_sub(1))?;
    boxes.remove(found);
    keep(boxes, rest.split, options);
    keep(boxes, rest.leftover, options);
    Ok(())
}

// Grants a request from the boxes, if there is room.
#[inline]
fn grant<A: Allocator>(
    boxes: &mut FreeBoxes<A>,
    requested_size: Size,
    options: &Scale,
) -> Result<Option<Rectangle>, AtlasError> {
    let size = match rounded(requested_size, options) {
        Some(size) => size,
        _ => {
            return Ok(None);
        }
    };
    let found = match pick(&boxes.entries, &boxes.table, options, size) {
        Some(found) => found,
        _ => {
            return Ok(None);
        }
    };
    let rectangle = granted(found.rectangle, size);
    cut_picked(boxes, found, size, options)?;
    Ok(Some(rectangle))
}
