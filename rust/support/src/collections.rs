//! Maps and sets that are given an allocator. A call that gives an Err leaves them as they were.

pub mod btree_map;
mod btree_set;
pub mod hash_map;

pub use btree_map::BTreeMap;
pub use btree_set::BTreeSet;
pub use hash_map::HashMap;
