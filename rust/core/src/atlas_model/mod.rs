// Erased from crates/atlas_model/src/lib.rt by rust/erase: don't edit.
//! What the allocators of `guillotiere` mean: points, sizes, rectangles, options, ids and errors, the model of an atlas
//! as a tree of cuts, and the laws that hold of it. `guillotiere` re-exports all of it.

mod allocation;
mod change;
mod error;
mod geometry;

mod options;

pub use allocation::{AllocId, Allocation, SlotCount, MOST_SLOTS};
pub use change::{Change, ChangeList};
pub use error::AtlasError;
pub use geometry::{point2, size2, Point, Rectangle, Size};
pub use options::{AllocatorOptions, DEFAULT_OPTIONS};
