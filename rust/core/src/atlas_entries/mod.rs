// Erased from crates/atlas_entries/src/lib.rt by rust/erase: don't edit.
//! Entries of a cache under their keys, in the order of their use: the layer below `atlas_cache` that knows no pages.

pub mod entries;
pub mod error;
pub mod recency;
