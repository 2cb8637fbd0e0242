// Erased from crates/atlas_cache/src/rooms/copying.rt by rust/erase: don't edit.
//! Copies of the pages.

use crate::atlas_cache::rooms::Rooms;
use crate::guillotiere::AtlasAllocator;
use wollemigo_support::alloc::{AllocError, Allocator};
use wollemigo_support::prelude::Vec;

// A copy of each atlas.
#[inline]
fn copied_pages<A: Allocator + Copy>(
    pages: &[AtlasAllocator<A>],
    alloc: A,
) -> Result<Vec<AtlasAllocator<A>, A>, AllocError> {
    let mut copies = Vec::with_capacity(alloc, pages.len())?;
    for page in pages {
        let copy = match page.clone() {
            Ok(copy) => copy,
            _ => {
                return Err(AllocError);
            }
        };
        copies.push(copy)?;
    }
    Ok(copies)
}

impl<A: Allocator + Copy> Rooms<A> {
    /// A copy, in new memory of the same allocator: each atlas stores the same. What pages have in reserve isn't copied.
    #[inline]
    pub fn copy(&self) -> Result<Self, AllocError> {
        let alloc = *self.pages.allocator();
        let pages = copied_pages(&self.pages, alloc)?;
        let known = Vec::from_slice(alloc, &self.known)?;
        Ok(Rooms {
            pages,
            known,
            options: self.options,
        })
    }
}
