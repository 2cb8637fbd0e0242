// Erased from crates/guillotiere/src/simple/changes.rt by rust/erase: don't edit.
//! A simple allocator that grows or begins anew.

use super::{keep, kept_count, SimpleAtlasAllocator};
use crate::atlas_allocator::{store_of, AtlasAllocator};
use crate::atlas_model::{AllocatorOptions, AtlasError, Rectangle, Size};
use crate::atlas_search::bands::Scale;
use crate::atlas_search::cut::guillotine;
use crate::atlas_store::slots::{NodeKind, Slot};
use crate::guillotiere::simple::boxes::FreeBoxes;
use wollemigo_support::alloc::Allocator;

impl<A: Allocator + Copy> SimpleAtlasAllocator<A> {
    /// Makes the allocator larger: the new size is cut for the old one, and the split and the leftover are added, except that one
    /// that is narrower or lower than the alignment is dropped. Nothing is merged; at an equal size nothing changes. Requires
    /// that neither side shrinks. The only error is `Memory`, if more entries would be used than there is room for and memory
    /// for them is refused; then nothing changes. Keeps the room of the entries.
    #[inline]
    pub fn grow(&mut self, new_size: Size) -> Result<(), AtlasError> {
        if new_size == self.size {
            return Ok(());
        }
        add_rest(&mut self.boxes, self.size, new_size, &self.options)?;
        self.size = new_size;
        Ok(())
    }

    /// Begins anew with one free box of the allocator's size. Always Ok. Keeps the room of the entries, and takes no
    /// memory.
    #[inline]
    pub fn clear(&mut self) -> Result<(), AtlasError> {
        let options = self.options.plain();
        self.reset(self.size, &options)
    }

    /// Begins anew with one free box of this size and with these options. Requires a size that isn't empty and valid
    /// options. Always Ok. Keeps the room of the entries, and takes no memory.
    #[inline]
    pub fn reset(&mut self, size: Size, options: &AllocatorOptions) -> Result<(), AtlasError> {
        self.options.set(options);
        self.boxes.restart(Rectangle::from(size), &self.options);
        self.size = size;
        Ok(())
    }

    /// Takes over an atlas's size, its options and each of its free rectangles, whatever their size. Live rectangles of
    /// the atlas are never granted. The room is that of new entries then. The only error is `Memory`, and after it everything is as
    /// before.
    #[inline]
    pub fn init_from_allocator(&mut self, source: &AtlasAllocator<A>) -> Result<(), AtlasError> {
        let size = source.size();
        let store = store_of(source);
        let options = store.scale();
        let mut boxes = FreeBoxes::new(*self.boxes.entries.allocator())?;
        file_free(&mut boxes, store.slots(), &options)?;
        self.boxes = boxes;
        self.size = size;
        self.options = options;
        Ok(())
    }
}

// Adds what is kept of a size cut for another that fits it.
#[inline]
fn add_rest<A: Allocator>(
    boxes: &mut FreeBoxes<A>,
    size: Size,
    new_size: Size,
    options: &Scale,
) -> Result<(), AtlasError> {
    let rest = guillotine(Rectangle::from(new_size), size);
    boxes.make_room(kept_count(&rest, options))?;
    keep(boxes, rest.split, options);
    keep(boxes, rest.leftover, options);
    Ok(())
}

/// Adds a rectangle, and room for it.
#[inline]
pub fn file_area<A: Allocator>(
    boxes: &mut FreeBoxes<A>,
    area: Rectangle,
    options: &Scale,
) -> Result<(), AtlasError> {
    boxes.make_room(1)?;
    boxes.add(area, options);
    Ok(())
}

// Adds the rectangle of each free slot.
#[inline]
fn file_free<A: Allocator>(
    boxes: &mut FreeBoxes<A>,
    slots: &[Slot],
    options: &Scale,
) -> Result<(), AtlasError> {
    for slot in slots {
        if slot.kind == NodeKind::Free {
            file_area(boxes, slot.area, options)?;
        }
    }
    Ok(())
}
