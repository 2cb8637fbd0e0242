// Erased from crates/guillotiere/src/lib.rt by rust/erase: don't edit.
//! A dynamic allocator of rectangles inside one large texture: a port of the Rust crate `guillotiere` 0.7.0.
//!
//! Two limits, which the Rust crate has too. Free boxes are joined within one container of the tree of cuts, and not
//! across containers. And grids of equal cells are served better by other packers.

pub mod pages;
pub mod session;
mod simple;

pub use crate::atlas_allocator::{AtlasAllocator, AtlasImage, FreeIter, LiveIter};
pub use crate::atlas_model::{
    point2, size2, AllocId, Allocation, AllocatorOptions, AtlasError, Change, ChangeList, Point,
    Rectangle, Size, SlotCount, DEFAULT_OPTIONS, MOST_SLOTS,
};
pub use crate::atlas_store::slots::NodeKind;
pub use simple::image::SimpleImage;
pub use simple::SimpleAtlasAllocator;
