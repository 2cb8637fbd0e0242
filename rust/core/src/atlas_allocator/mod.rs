// Erased from crates/atlas_allocator/src/lib.rt by rust/erase: don't edit.
//! The atlas allocator, which `guillotiere` re-exports, over the tree of slots of `atlas_tree`.

mod atlas;

pub use atlas::image::AtlasImage;
pub use atlas::iter::{FreeIter, LiveIter};
pub use atlas::{store_of, AtlasAllocator};
