// Erased from crates/atlas_cache/src/cache/iter.rt by rust/erase: don't edit.
//! The keys of a cache with their places, one after another.

use crate::atlas_cache::cache::holding::place_of;
use crate::atlas_cache::cache::TextureCache;
use crate::atlas_cache::options::CacheOptions;
use crate::atlas_cache::places::Place;
use crate::atlas_entries::entries::{DefaultHasher, Entries};
use core::iter::FusedIterator;
use wollemigo_support::alloc::{Allocator, Global};
use wollemigo_support::hash::{BuildHasher, Hash};

/// The keys of a cache with their places, the most recently used first. A step takes no look-up by a hash, and doesn't
/// count as a use. Contracts see the list of what is still to come.
pub struct Iter<
    'a,
    K: Copy + Eq + Hash,
    S: BuildHasher = DefaultHasher,
    A: Allocator + Copy = Global,
> {
    entries: &'a Entries<K, S, A>,
    options: CacheOptions,
    // The number of the entry that comes next.
    next: Option<u32>,
    left: usize,
}

impl<'a, K: Copy + Eq + Hash, S: BuildHasher, A: Allocator + Copy> Iter<'a, K, S, A> {
    /// A second one, which gives the same from here on. Takes no memory.
    #[inline]
    #[must_use]
    pub fn copy(&self) -> Self {
        Iter {
            entries: self.entries,
            options: self.options,
            next: self.next,
            left: self.left,
        }
    }
}

impl<'a, K: Copy + Eq + Hash, S: BuildHasher, A: Allocator + Copy> Iterator for Iter<'a, K, S, A> {
    type Item = (K, Place);

    #[inline]
    fn next(&mut self) -> Option<(K, Place)> {
        let number = self.next?;
        let entry = self.entries.entry(number);
        let place = place_of(entry, &self.options);
        self.next = self.entries.older(number);
        self.left -= 1;
        Some((entry.key, place))
    }

    #[inline]
    fn size_hint(&self) -> (usize, Option<usize>) {
        let left = self.len();
        (left, Some(left))
    }
}

impl<'a, K: Copy + Eq + Hash, S: BuildHasher, A: Allocator + Copy> ExactSizeIterator
    for Iter<'a, K, S, A>
{
    #[inline]
    fn len(&self) -> usize {
        self.left
    }
}

impl<'a, K: Copy + Eq + Hash, S: BuildHasher, A: Allocator + Copy> FusedIterator
    for Iter<'a, K, S, A>
{
}

impl<K: Copy + Eq + Hash, S: BuildHasher, A: Allocator + Copy> TextureCache<K, S, A> {
    /// The keys with their places, the most recently used first. A step takes no look-up by a hash, and doesn't count as
    /// a use.
    #[inline]
    #[must_use]
    pub fn iter(&self) -> Iter<'_, K, S, A> {
        Iter {
            entries: &self.entries,
            options: self.rooms.options(),
            next: self.entries.newest(),
            left: self.entries.len(),
        }
    }
}

impl<'a, K: Copy + Eq + Hash, S: BuildHasher, A: Allocator + Copy> IntoIterator
    for &'a TextureCache<K, S, A>
{
    type Item = (K, Place);

    type IntoIter = Iter<'a, K, S, A>;

    #[inline]
    fn into_iter(self) -> Iter<'a, K, S, A> {
        self.iter()
    }
}
