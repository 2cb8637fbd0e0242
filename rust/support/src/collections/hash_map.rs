//! Maps by hashes.

use crate::alloc::{AllocError, AllocFailed, Allocator, Global};
use crate::hash::{BuildHasherDefault, FoldHasher};
use crate::room;
use core::fmt;
use core::hash::{BuildHasher, Hash, Hasher};
use core::iter::{Flatten, Map};
use core::mem::replace;
use core::slice;
use rust_alloc::vec::Vec as Items;

/// Values under keys, in no order.
///
/// It has a capacity as a list has: an insertion where there is room asks for no memory, and a removal makes room
/// again. Rust's map, which needs `std`, may ask for a larger block once places are marked as removed.
pub struct HashMap<K, V, S = BuildHasherDefault<FoldHasher>, A: Allocator = Global> {
    // None, or a power of two of places, of which a quarter stays empty. An entry stands at the place that its hash
    // names, or behind it round the end, with no empty place between.
    places: Items<Option<(K, V)>>,
    len: usize,
    hasher: S,
    alloc: A,
}

/// The entries of a map, in no order.
pub type Iter<'a, K, V> =
    Map<Flatten<slice::Iter<'a, Option<(K, V)>>>, fn(&'a (K, V)) -> (&'a K, &'a V)>;

// The least number of places, if there are any.
const LEAST: usize = 4;

impl<K, V, A: Allocator> HashMap<K, V, BuildHasherDefault<FoldHasher>, A> {
    /// No entries, with a hasher whose seed is fixed. Takes no memory.
    pub fn new(alloc: A) -> Self {
        HashMap::with_hasher(alloc, BuildHasherDefault::new())
    }
}

impl<K, V, S, A: Allocator> HashMap<K, V, S, A> {
    /// No entries, with a hasher for the keys. Takes no memory.
    pub fn with_hasher(alloc: A, hasher: S) -> Self {
        HashMap {
            places: Items::new(),
            len: 0,
            hasher,
            alloc,
        }
    }

    /// How many entries there are.
    #[inline]
    pub fn len(&self) -> usize {
        self.len
    }

    /// Whether there are none.
    #[inline]
    pub fn is_empty(&self) -> bool {
        self.len == 0
    }

    /// How many entries it has room for.
    #[inline]
    pub fn capacity(&self) -> usize {
        self.places.len() - self.places.len() / 4
    }

    /// Takes all entries out. The capacity stays.
    pub fn clear(&mut self) {
        for place in &mut self.places {
            *place = None;
        }
        self.len = 0;
    }

    /// The entries, in no order.
    pub fn iter(&self) -> Iter<'_, K, V> {
        self.places
            .iter()
            .flatten()
            .map(|(key, value)| (key, value))
    }

    /// The keys, in no order.
    pub fn keys(&self) -> impl Iterator<Item = &K> + '_ {
        self.places.iter().flatten().map(|(key, _)| key)
    }

    /// The values, in no order.
    pub fn values(&self) -> impl Iterator<Item = &V> + '_ {
        self.places.iter().flatten().map(|(_, value)| value)
    }

    /// The hasher that it was given.
    pub fn hasher(&self) -> &S {
        &self.hasher
    }

    /// The allocator that it was given.
    pub fn allocator(&self) -> &A {
        &self.alloc
    }
}

// How many places there are for so many entries.
fn places_for(entries: usize) -> Option<usize> {
    // Rounded down: above three quarters of a power of two it is more than that power.
    let least = entries.checked_mul(4)? / 3;
    least.max(LEAST).checked_next_power_of_two()
}

impl<K: Eq + Hash, V, S: BuildHasher, A: Allocator> HashMap<K, V, S, A> {
    #[inline]
    fn hash_of(&self, key: &K) -> usize {
        let mut state = self.hasher.build_hasher();
        key.hash(&mut state);
        state.finish() as usize
    }

    // The place of a key, or the empty one where it would stand; 0 where there are no places.
    #[inline]
    fn find(&self, key: &K) -> Result<usize, usize> {
        let places = self.places.as_slice();
        if places.is_empty() {
            return Err(0);
        }
        let mut at = self.hash_of(key) & (places.len() - 1);
        loop {
            match &places[at] {
                None => return Err(at),
                Some((other, _)) if other == key => return Ok(at),
                Some(_) => at = (at + 1) & (places.len() - 1),
            }
        }
    }

    /// Makes room for so many more entries. The capacity never shrinks, and nothing is asked for where there is room.
    #[inline]
    pub fn reserve(&mut self, additional: usize) -> Result<(), AllocError> {
        if additional <= self.capacity() - self.len {
            return Ok(());
        }
        self.grow(additional)
    }

    #[cold]
    #[inline(never)]
    fn grow(&mut self, additional: usize) -> Result<(), AllocError> {
        let needed = self.len.checked_add(additional).ok_or(AllocError)?;
        let count = places_for(needed).ok_or(AllocError)?;
        let mut places: Items<Option<(K, V)>> = Items::new();
        room::exchange::<Option<(K, V)>, A, _>(&self.alloc, self.places.len(), count, || {
            places.try_reserve_exact(count)
        })?;
        places.resize_with(count, || None);
        for entry in replace(&mut self.places, places).into_iter().flatten() {
            if let Err(at) = self.find(&entry.0) {
                self.places[at] = Some(entry);
            }
        }
        Ok(())
    }

    /// The value of a key; None if it has none.
    #[inline]
    pub fn get(&self, key: &K) -> Option<&V> {
        match self.find(key) {
            Ok(at) => self.places[at].as_ref().map(|entry| &entry.1),
            Err(_) => None,
        }
    }

    /// The value of a key, to change it.
    #[inline]
    pub fn get_mut(&mut self, key: &K) -> Option<&mut V> {
        match self.find(key) {
            Ok(at) => self.places[at].as_mut().map(|entry| &mut entry.1),
            Err(_) => None,
        }
    }

    /// Whether a key has a value.
    #[inline]
    pub fn contains_key(&self, key: &K) -> bool {
        self.find(key).is_ok()
    }

    /// Gives a key a value, and returns the one that it had; an equal key that is there stays. Where there is room, or
    /// for a key that is there, it succeeds; on an Err key and value come back.
    #[inline]
    pub fn insert(&mut self, key: K, value: V) -> Result<Option<V>, AllocFailed<(K, V)>> {
        match self.find(&key) {
            Ok(at) => Ok(self.places[at]
                .as_mut()
                .map(|entry| replace(&mut entry.1, value))),
            Err(at) if self.len < self.capacity() => {
                self.places[at] = Some((key, value));
                self.len += 1;
                Ok(None)
            }
            Err(_) => self.insert_grown(key, value),
        }
    }

    // Inserts a new key where there is no room.
    #[cold]
    #[inline(never)]
    fn insert_grown(&mut self, key: K, value: V) -> Result<Option<V>, AllocFailed<(K, V)>> {
        if self.grow(1).is_err() {
            return Err(AllocFailed {
                value: (key, value),
            });
        }
        let (Ok(at) | Err(at)) = self.find(&key);
        self.places[at] = Some((key, value));
        self.len += 1;
        Ok(None)
    }

    /// Takes a key and its value out, and returns the value. The capacity stays.
    #[inline]
    pub fn remove(&mut self, key: &K) -> Option<V> {
        let at = self.find(key).ok()?;
        let entry = self.places[at].take()?;
        self.len -= 1;
        self.close(at);
        Some(entry.1)
    }

    // Moves entries up to an empty place, so that none has an empty one between its own and that of its hash.
    fn close(&mut self, mut empty: usize) {
        let last = self.places.len() - 1;
        let mut at = (empty + 1) & last;
        while let Some((key, _)) = &self.places[at] {
            let from_own = at.wrapping_sub(self.hash_of(key)) & last;
            let from_empty = at.wrapping_sub(empty) & last;
            if from_empty <= from_own {
                self.places.swap(empty, at);
                empty = at;
            }
            at = (at + 1) & last;
        }
    }
}

impl<K, V, S, A: Allocator> Drop for HashMap<K, V, S, A> {
    fn drop(&mut self) {
        room::give_back::<Option<(K, V)>, A>(&self.alloc, self.places.len());
    }
}

impl<'a, K, V, S, A: Allocator> IntoIterator for &'a HashMap<K, V, S, A> {
    type Item = (&'a K, &'a V);
    type IntoIter = Iter<'a, K, V>;

    fn into_iter(self) -> Iter<'a, K, V> {
        self.iter()
    }
}

impl<K: fmt::Debug, V: fmt::Debug, S, A: Allocator> fmt::Debug for HashMap<K, V, S, A> {
    fn fmt(&self, f: &mut fmt::Formatter<'_>) -> fmt::Result {
        f.debug_map().entries(self.iter()).finish()
    }
}

impl<K: Eq + Hash, V: PartialEq, S: BuildHasher, A: Allocator> PartialEq for HashMap<K, V, S, A> {
    fn eq(&self, other: &Self) -> bool {
        self.len == other.len
            && self
                .iter()
                .all(|(key, value)| other.get(key) == Some(value))
    }
}

impl<K: Eq + Hash, V: Eq, S: BuildHasher, A: Allocator> Eq for HashMap<K, V, S, A> {}
