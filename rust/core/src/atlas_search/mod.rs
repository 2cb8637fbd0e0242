// Erased from crates/atlas_search/src/lib.rt by rust/erase: don't edit.
//! The search for a free box, for the library's crates alone: how a request is rounded and a box is cut, the table of lists
//! of free boxes, and the search through it, over any entries that show a rectangle. A caller depends on
//! `guillotiere`, which re-exports none of these functions.

pub mod bands;
pub mod best;
pub mod cells;
pub mod choice;
pub mod cut;
pub mod glance;
pub mod heap;
pub mod link;
pub mod marks;
pub mod masks;
pub mod search;
pub mod table;
