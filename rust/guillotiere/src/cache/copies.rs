//! A second cache like a first one.
use super::{CacheError, TextureCache};
use core::hash::{BuildHasher, Hash};

impl<K: Copy + Eq + Hash, S: BuildHasher + Clone> TextureCache<K, S> {
    /// A copy that shares nothing with this one, and goes on by itself: it has the same pages, keys, places and counts, is in the same
    /// frame, and has the same changes to hand over. Its calls are answered as this one's, except that it has nothing in reserve
    /// (`reserve`).
    ///
    /// ```
    /// use guillotiere::cache::{CacheOptions, TextureCache};
    /// use guillotiere::size2;
    ///
    /// let mut glyphs = TextureCache::new(&CacheOptions::new(size2(64, 64))).unwrap();
    /// let _ = glyphs.insert('g', size2(10, 20))?;
    /// let mut trial = glyphs.try_clone()?;
    /// assert_eq!(trial.peek('g'), glyphs.peek('g'));
    /// let there = trial.insert('h', size2(10, 20))?; // as it would come out
    /// assert_eq!(glyphs.peek('h'), None);
    /// assert_eq!(glyphs.insert('h', size2(10, 20))?, there);
    /// # Ok::<(), guillotiere::cache::CacheError>(())
    /// ```
    ///
    /// # Errors
    ///
    /// `Memory` if memory is refused.
    pub fn try_clone(&self) -> Result<Self, CacheError> {
        Ok(TextureCache {
            cache: self.cache.clone().map_err(|_| CacheError::Memory)?,
            waiting: self.waiting.try_clone()?,
        })
    }
}

impl<K: Copy + Eq + Hash, S: BuildHasher + Clone> Clone for TextureCache<K, S> {
    #[track_caller]
    fn clone(&self) -> Self {
        match self.try_clone() {
            Ok(copy) => copy,
            Err(error) => panic!("{}", error),
        }
    }
}
