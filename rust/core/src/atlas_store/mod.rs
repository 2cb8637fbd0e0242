// Erased from crates/atlas_store/src/lib.rt by rust/erase: don't edit.
//! How an atlas is stored, for the library's crates alone: slots that represent a tree of cuts, the lists that run through
//! them, and the store that changes both together. A caller depends on `guillotiere`, which re-exports none
//! of these functions.

pub mod slots;
pub mod store;
