//! Sets in the order of their items.

use super::BTreeMap;
use crate::alloc::{AllocFailed, Allocator, Global};
use core::fmt;

/// Items in order, each once: the keys of a map.
pub struct BTreeSet<K, A: Allocator = Global> {
    map: BTreeMap<K, (), A>,
}

impl<K, A: Allocator> BTreeSet<K, A> {
    /// No items. Takes no memory.
    pub fn new(alloc: A) -> BTreeSet<K, A> {
        BTreeSet {
            map: BTreeMap::new(alloc),
        }
    }

    /// How many items there are.
    pub fn len(&self) -> usize {
        self.map.len()
    }

    /// Whether there are none.
    pub fn is_empty(&self) -> bool {
        self.map.is_empty()
    }

    /// Takes all items out.
    pub fn clear(&mut self) {
        self.map.clear();
    }

    /// The items in order.
    pub fn iter(&self) -> impl DoubleEndedIterator<Item = &K> + ExactSizeIterator + '_ {
        self.map.keys()
    }
}

impl<K: Ord, A: Allocator> BTreeSet<K, A> {
    /// Whether an item is there.
    pub fn contains(&self, item: &K) -> bool {
        self.map.contains_key(item)
    }

    /// Puts an item in, and says whether it is new. One that is there asks for no memory and stays; on an Err the item
    /// comes back.
    pub fn insert(&mut self, item: K) -> Result<bool, AllocFailed<K>> {
        match self.map.insert(item, ()) {
            Ok(was) => Ok(was.is_none()),
            Err(AllocFailed { value: (item, ()) }) => Err(AllocFailed { value: item }),
        }
    }

    /// Takes an item out, and says whether it was there.
    pub fn remove(&mut self, item: &K) -> bool {
        self.map.remove(item).is_some()
    }
}

impl<K: fmt::Debug, A: Allocator> fmt::Debug for BTreeSet<K, A> {
    fn fmt(&self, f: &mut fmt::Formatter<'_>) -> fmt::Result {
        f.debug_set().entries(self.iter()).finish()
    }
}

impl<K: PartialEq, A: Allocator, B: Allocator> PartialEq<BTreeSet<K, B>> for BTreeSet<K, A> {
    fn eq(&self, other: &BTreeSet<K, B>) -> bool {
        self.map == other.map
    }
}

impl<K: Eq, A: Allocator> Eq for BTreeSet<K, A> {}
