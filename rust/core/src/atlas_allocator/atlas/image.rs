// Erased from crates/atlas_allocator/src/atlas/image.rt by rust/erase: don't edit.
//! An atlas as plain data, and an atlas made of such data, whoever gives them.

use crate::atlas_allocator::atlas::AtlasAllocator;
use crate::atlas_image::image::{count_used, first_of};
use crate::atlas_model::{AllocatorOptions, AtlasError, Size, MOST_SLOTS};
use crate::atlas_search::link::Link;
use crate::atlas_store::slots::Node;
use crate::atlas_store::store::Store;
use wollemigo_support::alloc::{Allocator, Global};
use wollemigo_support::prelude::Vec;

/// All that an atlas stores but for the shape of its lists, on which no answer depends: its size, its options, its limit on slots, the
/// unused slot that is taken next, and the node of each slot by its number. The node of an unused slot says which unused one comes next.
pub struct AtlasImage<A: Allocator = Global> {
    pub size: Size,
    pub options: AllocatorOptions,
    pub limit: u32,
    pub unused: Link,
    pub nodes: Vec<Node, A>,
}

// Whether a size isn't empty. Each side fits an `i32`.
#[inline]
fn is_size(size: Size) -> bool {
    size.is_positive()
}

impl<A: Allocator + Copy> AtlasAllocator<A> {
    /// The atlas as plain data. `Memory` is the only error.
    #[inline]
    pub fn image(&self) -> Result<AtlasImage<A>, AtlasError> {
        Ok(AtlasImage {
            size: self.size,
            options: self.store.options(),
            limit: self.limit,
            unused: self.store.unused(),
            nodes: self.store.nodes()?,
        })
    }

    /// The atlas that data describe; None if they are those of none. Later calls have the answers and the ids that they have of the atlas
    /// that the data are of, except where memory is refused. Its turns begin at 0. Takes time in proportion to the slots, but for the
    /// listing of the free ones, whatever the data say. `Memory` is the only error.
    #[inline]
    pub fn from_image(alloc: A, image: &AtlasImage<A>) -> Result<Option<Self>, AtlasError> {
        let AtlasImage {
            size,
            options,
            limit,
            unused,
            nodes,
        } = image;
        let (size, limit, unused) = (*size, *limit, *unused);
        if !is_size(size)
            || !options.is_valid()
            || limit > MOST_SLOTS
            || nodes.len() > limit as usize
        {
            return Ok(None);
        }
        let first = match first_of(alloc, nodes, unused, size, options)? {
            Some(first) => first,
            _ => {
                return Ok(None);
            }
        };
        let used = count_used(nodes);
        let store = Store::restore(alloc, nodes, unused, options)?;
        Ok(Some(AtlasAllocator {
            store,
            first,
            used,
            size,
            limit,
        }))
    }
}
