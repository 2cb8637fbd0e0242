//! Maps in the order of their keys.

use crate::alloc::{AllocError, AllocFailed, Allocator, Global};
use crate::vec::Vec;
use core::fmt;
use core::iter::Map;
use core::mem::replace;
use core::slice;

/// Values under keys, in the order of the keys. Rust's map aborts where memory is refused, so this is a list in order:
/// a key is found by binary search, and a new one moves those after it.
pub struct BTreeMap<K, V, A: Allocator = Global> {
    entries: Vec<(K, V), A>,
}

/// The entries of a map, in the order of their keys.
pub type Iter<'a, K, V> = Map<slice::Iter<'a, (K, V)>, fn(&'a (K, V)) -> (&'a K, &'a V)>;

impl<K, V, A: Allocator> BTreeMap<K, V, A> {
    /// No entries. Takes no memory.
    pub fn new(alloc: A) -> BTreeMap<K, V, A> {
        BTreeMap {
            entries: Vec::new(alloc),
        }
    }

    /// How many entries there are.
    pub fn len(&self) -> usize {
        self.entries.len()
    }

    /// Whether there are none.
    pub fn is_empty(&self) -> bool {
        self.entries.is_empty()
    }

    /// Takes all entries out.
    pub fn clear(&mut self) {
        self.entries.clear();
    }

    /// The entries, in the order of their keys.
    pub fn iter(&self) -> Iter<'_, K, V> {
        self.entries.iter().map(|(key, value)| (key, value))
    }

    /// The keys in order.
    pub fn keys(&self) -> impl DoubleEndedIterator<Item = &K> + ExactSizeIterator + '_ {
        self.entries.iter().map(|(key, _)| key)
    }

    /// The values, in the order of their keys.
    pub fn values(&self) -> impl DoubleEndedIterator<Item = &V> + ExactSizeIterator + '_ {
        self.entries.iter().map(|(_, value)| value)
    }

    /// The allocator that it was given.
    pub fn allocator(&self) -> &A {
        self.entries.allocator()
    }
}

impl<K: Ord, V, A: Allocator> BTreeMap<K, V, A> {
    // Where the key stands, or where it would.
    fn find(&self, key: &K) -> Result<usize, usize> {
        self.entries.binary_search_by(|entry| entry.0.cmp(key))
    }

    /// Makes room for so many more entries, as a list does.
    pub fn reserve(&mut self, additional: usize) -> Result<(), AllocError> {
        self.entries.reserve(additional)
    }

    /// The value of a key; None if it has none.
    pub fn get(&self, key: &K) -> Option<&V> {
        self.find(key).ok().map(|at| &self.entries[at].1)
    }

    /// The value of a key, to change it.
    pub fn get_mut(&mut self, key: &K) -> Option<&mut V> {
        match self.find(key) {
            Ok(at) => Some(&mut self.entries[at].1),
            Err(_) => None,
        }
    }

    /// Whether a key has a value.
    pub fn contains_key(&self, key: &K) -> bool {
        self.find(key).is_ok()
    }

    /// Gives a key a value, and returns the one that it had; an equal key that is there stays, and no memory is asked
    /// for. On an Err key and value come back.
    pub fn insert(&mut self, key: K, value: V) -> Result<Option<V>, AllocFailed<(K, V)>> {
        match self.find(&key) {
            Ok(at) => Ok(Some(replace(&mut self.entries[at].1, value))),
            Err(at) => self.entries.insert(at, (key, value)).map(|()| None),
        }
    }

    /// Takes a key and its value out, and returns the value.
    pub fn remove(&mut self, key: &K) -> Option<V> {
        self.find(key).ok().map(|at| self.entries.remove(at).1)
    }
}

impl<'a, K, V, A: Allocator> IntoIterator for &'a BTreeMap<K, V, A> {
    type Item = (&'a K, &'a V);
    type IntoIter = Iter<'a, K, V>;

    fn into_iter(self) -> Iter<'a, K, V> {
        self.iter()
    }
}

impl<K: fmt::Debug, V: fmt::Debug, A: Allocator> fmt::Debug for BTreeMap<K, V, A> {
    fn fmt(&self, f: &mut fmt::Formatter<'_>) -> fmt::Result {
        f.debug_map().entries(self.iter()).finish()
    }
}

impl<K: PartialEq, V: PartialEq, A: Allocator, B: Allocator> PartialEq<BTreeMap<K, V, B>>
    for BTreeMap<K, V, A>
{
    fn eq(&self, other: &BTreeMap<K, V, B>) -> bool {
        self.entries == other.entries
    }
}

impl<K: Eq, V: Eq, A: Allocator> Eq for BTreeMap<K, V, A> {}
