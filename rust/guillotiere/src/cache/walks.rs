//! Walks along the keys of a cache.
use super::{keyed, library, Place, TextureCache};
use core::fmt;
use core::hash::{BuildHasher, Hash};
use core::iter::FusedIterator;
use wollemigo_support::alloc::Global;

/// The keys of a cache with their places, the most recently used first. A step takes no look-up, and doesn't count as a use.
///
/// ```
/// use guillotiere::cache::{CacheOptions, TextureCache};
/// use guillotiere::size2;
///
/// let mut glyphs = TextureCache::new(&CacheOptions::new(size2(64, 64))).unwrap();
/// let _ = glyphs.insert('g', size2(10, 20))?;
/// for (key, place) in &glyphs {
///     println!("{} lies on page {}", key, place.page);
/// }
/// # Ok::<(), guillotiere::cache::CacheError>(())
/// ```
pub struct Iter<'a, K: Copy + Eq + Hash, S: BuildHasher> {
    entries: library::Iter<'a, K, S, Global>,
}

impl<'a, K: Copy + Eq + Hash, S: BuildHasher> Iter<'a, K, S> {
    pub(super) fn of(cache: &'a library::TextureCache<K, S, Global>) -> Self {
        Iter {
            entries: cache.iter(),
        }
    }
}

impl<K: Copy + Eq + Hash, S: BuildHasher> Iterator for Iter<'_, K, S> {
    type Item = (K, Place);

    #[inline]
    fn next(&mut self) -> Option<(K, Place)> {
        self.entries.next().map(keyed)
    }

    fn size_hint(&self) -> (usize, Option<usize>) {
        self.entries.size_hint()
    }
}

impl<K: Copy + Eq + Hash, S: BuildHasher> ExactSizeIterator for Iter<'_, K, S> {}

impl<K: Copy + Eq + Hash, S: BuildHasher> FusedIterator for Iter<'_, K, S> {}

impl<K: Copy + Eq + Hash, S: BuildHasher> Clone for Iter<'_, K, S> {
    fn clone(&self) -> Self {
        Iter {
            entries: self.entries.copy(),
        }
    }
}

impl<K: Copy + Eq + Hash + fmt::Debug, S: BuildHasher> fmt::Debug for Iter<'_, K, S> {
    fn fmt(&self, f: &mut fmt::Formatter<'_>) -> fmt::Result {
        f.debug_list().entries(self.clone()).finish()
    }
}

impl<'a, K: Copy + Eq + Hash, S: BuildHasher> IntoIterator for &'a TextureCache<K, S> {
    type Item = (K, Place);
    type IntoIter = Iter<'a, K, S>;

    fn into_iter(self) -> Iter<'a, K, S> {
        self.iter()
    }
}

/// The keys of a cache, the most recently used first. A step takes no look-up, and doesn't count as a use.
///
/// ```
/// use guillotiere::cache::{CacheOptions, TextureCache};
/// use guillotiere::size2;
///
/// let mut glyphs = TextureCache::new(&CacheOptions::new(size2(64, 64))).unwrap();
/// let _ = glyphs.insert('g', size2(10, 20))?;
/// assert!(glyphs.keys().eq(['g']));
/// # Ok::<(), guillotiere::cache::CacheError>(())
/// ```
pub struct Keys<'a, K: Copy + Eq + Hash, S: BuildHasher> {
    pub(super) entries: Iter<'a, K, S>,
}

impl<K: Copy + Eq + Hash, S: BuildHasher> Iterator for Keys<'_, K, S> {
    type Item = K;

    #[inline]
    fn next(&mut self) -> Option<K> {
        self.entries.next().map(|(key, _)| key)
    }

    fn size_hint(&self) -> (usize, Option<usize>) {
        self.entries.size_hint()
    }
}

impl<K: Copy + Eq + Hash, S: BuildHasher> ExactSizeIterator for Keys<'_, K, S> {}

impl<K: Copy + Eq + Hash, S: BuildHasher> FusedIterator for Keys<'_, K, S> {}

impl<K: Copy + Eq + Hash, S: BuildHasher> Clone for Keys<'_, K, S> {
    fn clone(&self) -> Self {
        Keys {
            entries: self.entries.clone(),
        }
    }
}

impl<K: Copy + Eq + Hash + fmt::Debug, S: BuildHasher> fmt::Debug for Keys<'_, K, S> {
    fn fmt(&self, f: &mut fmt::Formatter<'_>) -> fmt::Result {
        f.debug_list().entries(self.clone()).finish()
    }
}
