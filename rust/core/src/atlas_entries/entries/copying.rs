// Erased from crates/atlas_entries/src/entries/copying.rt by rust/erase: don't edit.
//! Copies of entries, each under the number and the key that it has.

use crate::atlas_entries::entries::Entries;
use wollemigo_support::alloc::{AllocError, Allocator};
use wollemigo_support::clone::Clone;
use wollemigo_support::collections::HashMap;
use wollemigo_support::hash::{BuildHasher, Hash};
use wollemigo_support::prelude::Vec;

// A map with the same keys and numbers, with another hasher.
#[inline]
fn copied_map<K: Copy + Eq + Hash, S: BuildHasher, A: Allocator + Copy>(
    map: &HashMap<K, u32, S, A>,
    alloc: A,
    hasher: S,
) -> Result<HashMap<K, u32, S, A>, AllocError> {
    let mut copy = HashMap::with_hasher(alloc, hasher);
    copy.reserve(map.len())?;
    for (key, number) in map {
        let _new = copy.insert(*key, *number)?;
    }
    Ok(copy)
}

impl<K: Copy + Eq + Hash, S: BuildHasher + Clone, A: Allocator + Copy> Entries<K, S, A> {
    /// A copy, in new memory of the same allocator: the same entries under the same numbers and keys, in the same order. None are in
    /// reserve.
    #[inline]
    pub fn copy(&self) -> Result<Self, AllocError> {
        let alloc = *self.items.allocator();
        let hasher = self.map.hasher().clone()?;
        let map = copied_map(&self.map, alloc, hasher)?;
        let recency = self.recency.copy()?;
        let items = Vec::from_slice(alloc, &self.items)?;
        Ok(Entries {
            map,
            recency,
            items,
            mark: self.mark,
        })
    }
}
