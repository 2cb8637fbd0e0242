// Erased from crates/atlas_tree/src/lib.rt by rust/erase: don't edit.
//! The tree of an atlas, for `guillotiere` alone: the slot that a request is granted, how its leaf is cut, how a freed
//! leaf joins and rises, and how an atlas grows. Each is a short list of calls of `atlas_store`.

pub mod freeing;
pub mod growth;
pub mod requests;
