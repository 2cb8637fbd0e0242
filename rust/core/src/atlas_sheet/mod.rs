// Erased from crates/atlas_sheet/src/lib.rt by rust/erase: don't edit.
//! Sheets for sprites that are known beforehand: all of them in the smallest sheet, or as many as one sheet takes.

mod allowed;
mod arrangement;
mod cells;
mod changes;
mod choosing;
mod climbing;
mod dense;
mod error;
mod filling;
mod groups;
mod options;
mod orders;
mod packing;
mod paging;
mod picking;
mod placed;
mod places;
mod random;
mod search;
mod sheets;
mod slots;
mod trials;
mod turnings;
mod ways;

pub use allowed::Allowed;
pub use dense::pack_dense;
pub use error::SheetError;
pub use groups::pack_groups;
pub use options::{SheetOptions, Spacing};
pub use orders::Key;
pub use paging::{pack_pages, OnPage, Pages};
pub use placed::Placed;
pub use sheets::{fill, pack, pack_telling, Filled, Sheet};
pub use turnings::Turning;
pub use ways::{ways_tried, Choice, Way, WAYS};
