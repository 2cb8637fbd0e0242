//! Rectangles under keys in pages, which are textures or the layers of a texture array: pages are added and grow as they
//! are needed, and at their limit the least recently used keys go. Needs the feature `cache`, which is on by default.
//!
//! ```
//! use guillotiere::cache::{CacheChange, CacheOptions, Inserted, TextureCache};
//! use guillotiere::{size2, DEFAULT_OPTIONS};
//!
//! let mut glyphs = TextureCache::new(&CacheOptions {
//!     page: size2(512, 512),
//!     largest_page: size2(2048, 2048),
//!     pages: 4,
//!     padding: 1,
//!     atlas: DEFAULT_OPTIONS,
//! })
//! .unwrap();
//! glyphs.begin_frame();
//! let place = loop {
//!     let inserted = glyphs.insert('g', size2(20, 30))?;
//!     for change in glyphs.drain_changes() {
//!         match change {
//!             CacheChange::PageAdded { page, size } => println!("make texture {page} of {size:?} pixels"),
//!             CacheChange::PageGrown { page, size } => println!("make texture {page} larger: {size:?}"),
//!             CacheChange::Evicted { key, .. } => println!("{key} is gone"),
//!             CacheChange::Moved { from, to, .. } => println!("copy {:?} to {:?}", from.rectangle, to.rectangle),
//!             CacheChange::PageRemoved { page } => println!("drop texture {page}"),
//!         }
//!     }
//!     match inserted {
//!         Inserted::Placed(place) => {
//!             println!("write its pixels at {:?}, cleared ones in the rest of {:?}", place.inner, place.rectangle);
//!             break Some(place);
//!         }
//!         Inserted::Held(place) => break Some(place),
//!         Inserted::FrameFull => {
//!             println!("draw what this frame has so far");
//!             glyphs.begin_frame();
//!         }
//!         Inserted::NeverFits => break None,
//!     }
//! };
//! assert_eq!(glyphs.get('g'), place);
//! # Ok::<(), guillotiere::cache::CacheError>(())
//! ```
//!
//! # Keys and values of other kinds
//!
//! Keys are `Copy`, since a page's changes repeat them, and calls take them by value: there is no look-up by a borrowed form of a key. A
//! program whose keys are names numbers them in a map, which has that, and keeps what belongs to an entry in a list at the number of its
//! place:
//!
//! ```
//! use guillotiere::cache::{CacheOptions, Inserted, TextureCache};
//! use guillotiere::size2;
//! use std::collections::HashMap;
//!
//! let mut names: HashMap<String, u32> = HashMap::new();
//! let mut advances: Vec<f32> = Vec::new(); // a value for each entry, by its number
//! let mut icons: TextureCache<u32> = TextureCache::new(&CacheOptions::new(size2(64, 64))).unwrap();
//!
//! let next = names.len() as u32;
//! let key = *names.entry("arrow".to_string()).or_insert(next);
//! if let Inserted::Placed(place) = icons.insert(key, size2(16, 16))? {
//!     advances.resize(icons.numbers() as usize, 0.0);
//!     advances[place.number as usize] = 17.5;
//! }
//! let place = icons.get(names["arrow"]).unwrap(); // names are looked up as any `HashMap` does, by `&str`
//! assert_eq!(advances[place.number as usize], 17.5);
//! # Ok::<(), guillotiere::cache::CacheError>(())
//! ```
//!
//! # A lost device
//!
//! Changes say what differs from before, so they can't make textures again that are gone. What the cache holds can: its pages with their
//! sizes, and its keys with their places. Changes that still wait are dropped, since what is held is what they lead to.
//!
//! ```
//! # use guillotiere::cache::{CacheOptions, Place, TextureCache};
//! # use guillotiere::{size2, Size};
//! # fn texture(size: Size) -> Size { size }
//! # fn write(textures: &mut [Size], glyph: char, place: Place) { assert_eq!((textures.len(), glyph, place.page), (1, 'g', 0)); }
//! # let mut glyphs = TextureCache::new(&CacheOptions::new(size2(64, 64))).unwrap();
//! # let _ = glyphs.insert('g', size2(10, 20))?;
//! while glyphs.next_change().is_some() {}
//! let mut textures: Vec<_> = (0..glyphs.pages()).map(|page| texture(glyphs.page_size(page).unwrap())).collect();
//! glyphs.iter().for_each(|(glyph, place)| write(&mut textures, glyph, place));
//! # assert_eq!(textures, [size2(64, 64)]);
//! # Ok::<(), guillotiere::cache::CacheError>(())
//! ```
use crate::{convert, Size};
use core::fmt;
use core::hash::{BuildHasher, Hash};
use wollemigo_core::atlas_cache as library;
pub use wollemigo_core::atlas_cache::entries::DefaultHasher;
use wollemigo_support::alloc::Global;

mod changes;
mod copies;
mod figures;
mod options;
mod values;
mod walks;

pub use self::changes::Changes;
use self::changes::Waiting;
use self::options::library_options;
pub use self::options::{CacheOptions, OptionsError};
use self::values::{inserted_of, keyed, place_of};
pub use self::values::{CacheChange, CacheError, Counts, Inserted, Place};
pub use self::walks::{Iter, Keys};

/// Rectangles under keys in pages, which are textures or the layers of a texture array.
///
/// What a call did to keys and pages waits in the cache until `drain_changes` or `next_change` hands it over. The default hasher is
/// fast, and its seed is fixed: for keys that a stranger picks, give another one (`with_hasher`).
///
/// ```
/// use guillotiere::cache::{CacheOptions, TextureCache};
/// use guillotiere::size2;
///
/// let mut glyphs = TextureCache::new(&CacheOptions::new(size2(64, 64))).unwrap();
/// glyphs.begin_frame();
/// let inserted = glyphs.insert('g', size2(10, 20))?;
/// for change in glyphs.drain_changes() {
///     println!("follow {:?}", change);
/// }
/// assert_eq!(glyphs.get('g'), inserted.place());
/// # Ok::<(), guillotiere::cache::CacheError>(())
/// ```
pub struct TextureCache<K: Copy + Eq + Hash = u64, S: BuildHasher = DefaultHasher> {
    cache: library::TextureCache<K, S, Global>,
    waiting: Waiting<K>,
}

impl<K: Copy + Eq + Hash> TextureCache<K> {
    /// No pages and no entries. Takes no memory.
    ///
    /// ```
    /// use guillotiere::cache::{CacheOptions, TextureCache};
    /// use guillotiere::size2;
    ///
    /// let layers = CacheOptions { pages: 8, padding: 1, ..CacheOptions::new(size2(1024, 1024)) };
    /// let glyphs: TextureCache<(u32, char)> = TextureCache::new(&layers).unwrap();
    /// assert!(glyphs.is_empty());
    /// ```
    ///
    /// # Errors
    ///
    /// What is wrong with the options: the variants of `OptionsError`, each with its condition.
    pub fn new(options: &CacheOptions) -> Result<Self, OptionsError> {
        let cache = library::TextureCache::new(Global, library_options(options))?;
        Ok(TextureCache::over(cache))
    }
}

impl<K: Copy + Eq + Hash, S: BuildHasher> TextureCache<K, S> {
    fn over(cache: library::TextureCache<K, S, Global>) -> Self {
        TextureCache {
            cache,
            waiting: Waiting::new(),
        }
    }

    /// No pages and no entries, with a hasher for the keys.
    ///
    /// ```
    /// use guillotiere::cache::{CacheOptions, TextureCache};
    /// use guillotiere::size2;
    /// use std::collections::hash_map::RandomState;
    ///
    /// let options = CacheOptions::new(size2(1024, 1024));
    /// let mut glyphs = TextureCache::with_hasher(&options, RandomState::new()).unwrap();
    /// assert!(glyphs.insert("from a stranger", size2(10, 20)).is_ok());
    /// ```
    ///
    /// # Errors
    ///
    /// Those of `new`.
    pub fn with_hasher(options: &CacheOptions, hasher: S) -> Result<Self, OptionsError> {
        let cache = library::TextureCache::with_hasher(Global, library_options(options), hasher)?;
        Ok(TextureCache::over(cache))
    }

    /// Begins a new frame: what isn't used in it may be evicted. Until the first call no key is evicted for another: all that is held
    /// counts as used in the current frame.
    ///
    /// ```
    /// use guillotiere::cache::{CacheOptions, Inserted, TextureCache};
    /// use guillotiere::size2;
    ///
    /// let mut glyphs = TextureCache::new(&CacheOptions::new(size2(64, 64))).unwrap();
    /// let _ = glyphs.insert('a', size2(64, 64))?;
    /// assert_eq!(glyphs.insert('b', size2(64, 64))?, Inserted::FrameFull); // 'a' is used in this frame
    /// glyphs.begin_frame();
    /// assert!(glyphs.insert('b', size2(64, 64))?.place().is_some());
    /// # Ok::<(), guillotiere::cache::CacheError>(())
    /// ```
    pub fn begin_frame(&mut self) {
        self.cache.begin_frame()
    }

    /// The place of a key, which is used in this frame from now on; None if it isn't held. Counts a hit or a miss.
    ///
    /// ```
    /// use guillotiere::cache::{CacheOptions, TextureCache};
    /// use guillotiere::size2;
    ///
    /// let mut glyphs = TextureCache::new(&CacheOptions::new(size2(64, 64))).unwrap();
    /// assert_eq!(glyphs.get('g'), None);
    /// let inserted = glyphs.insert('g', size2(10, 20))?;
    /// assert_eq!(glyphs.get('g'), inserted.place());
    /// # Ok::<(), guillotiere::cache::CacheError>(())
    /// ```
    #[inline]
    pub fn get(&mut self, key: K) -> Option<Place> {
        self.cache.get(&key).map(place_of)
    }

    /// The place of a key; None if it isn't held. It doesn't count as a use.
    #[inline]
    #[must_use]
    pub fn peek(&self, key: K) -> Option<Place> {
        self.cache.peek(&key).map(place_of)
    }

    /// A place for a key, which is used in this frame. A key that is held keeps its place, and is the most recently
    /// used from now on, which counts as a hit; asked for with another size, even one that is empty or too
    /// large, it is refused with `OtherSize`, and nothing changes. A new key, which counts as no miss, goes onto the first
    /// page with room for its size, in pixels, with the padding. If none has room, a page grows: its smaller side (the width if they are
    /// equal) doubles, but no further than the largest page. If none can grow, one is added; and if no more are allowed, the
    /// least recently used entry that lies on a page and that this frame didn't use is evicted; and so on, up to 16 entries. If there still
    /// is no room then, only entries that lie in one box go: the first box that would come free and that the new key fits, if all that
    /// this frame didn't use went in that order. Where memory for looking it up is refused, a byte for each slot of the pages, they go on
    /// in that order.
    ///
    /// A new key with an empty size, of which a side is 0 or below, becomes a blank entry: `Placed` with a place that is empty.
    /// Its page is 0, but it is on no page: no `repack` reports it, and `shrink` leaves no page for it. It takes no room, so no
    /// page changes and nothing is evicted for it, nor is it ever evicted for another key: it stays until `trim`, `remove` or
    /// `clear`, and takes the memory of an entry. The first eviction that meets it passes it, and none after that until it is
    /// used. Where many of them come, as one for each space of a text under a key of its own, call `trim` now and then, or give
    /// all of them one key.
    ///
    /// What was done to other keys and to pages is reported by `drain_changes`, also after `FrameFull` and after an error: follow
    /// it after each insertion, before the place or its number is noted. A key that was evicted and came back is reported as
    /// evicted all the same.
    ///
    /// ```
    /// use guillotiere::cache::{CacheOptions, TextureCache};
    /// use guillotiere::size2;
    ///
    /// let mut glyphs = TextureCache::new(&CacheOptions::new(size2(64, 64))).unwrap();
    /// let glyph = glyphs.insert('g', size2(10, 20))?.place().unwrap();
    /// let space = glyphs.insert(' ', size2(0, 0))?.place().unwrap();
    /// assert!(!glyph.inner.is_empty() && space.inner.is_empty());
    /// # Ok::<(), guillotiere::cache::CacheError>(())
    /// ```
    ///
    /// # Errors
    ///
    /// `OtherSize` if the key is held with another size; `Slots` if those of a page don't suffice; `Numbers` if 4,294,967,295 keys are
    /// held; `Memory` if memory is refused. A key that is held asks for none, nor does one for which all was taken before (`reserve`).
    #[inline]
    pub fn insert(&mut self, key: K, size: Size) -> Result<Inserted, CacheError> {
        let size = convert::library_size(size);
        self.reporting(|cache, changes| cache.insert(key, size, changes))
            .map(inserted_of)
    }

    /// Removes a key, and gives the place that it had; None if it isn't held. No change reports it. Takes no memory.
    ///
    /// ```
    /// use guillotiere::cache::{CacheOptions, TextureCache};
    /// use guillotiere::size2;
    ///
    /// let mut glyphs = TextureCache::new(&CacheOptions::new(size2(64, 64))).unwrap();
    /// let inserted = glyphs.insert('g', size2(10, 20))?;
    /// assert_eq!(glyphs.remove('g'), inserted.place());
    /// assert!(glyphs.is_empty());
    /// # Ok::<(), guillotiere::cache::CacheError>(())
    /// ```
    pub fn remove(&mut self, key: K) -> Option<Place> {
        self.cache.remove(&key).map(place_of)
    }

    /// The changes of one call: the first of which some weren't handed over yet. None are left of it when what this returns is dropped.
    ///
    /// Calls that had nothing to report are passed over. Where several calls come before their changes are followed, each is followed by
    /// a drain of its own, until one is empty; so the pixels that a `repack` moves are copied out of the page as that call found it.
    ///
    /// ```
    /// use guillotiere::cache::{CacheChange, CacheOptions, TextureCache};
    /// use guillotiere::size2;
    ///
    /// let mut glyphs = TextureCache::new(&CacheOptions::new(size2(64, 64))).unwrap();
    /// let _ = glyphs.insert('a', size2(10, 20))?;
    /// let _ = glyphs.insert('b', size2(10, 20))?;
    /// glyphs.repack(0)?;
    /// let added = CacheChange::PageAdded { page: 0, size: size2(64, 64) };
    /// assert!(glyphs.drain_changes().eq([added])); // of the first insertion
    /// assert_eq!(glyphs.drain_changes().len(), 2); // of the repacking: the second insertion had none
    /// assert_eq!(glyphs.drain_changes().len(), 0);
    /// # Ok::<(), guillotiere::cache::CacheError>(())
    /// ```
    #[inline]
    pub fn drain_changes(&mut self) -> Changes<'_, K> {
        Changes::of_the_first_call(&mut self.waiting)
    }

    /// The first change that wasn't handed over yet, of whichever call, which is handed over now; None if there is none. It doesn't say
    /// where the changes of a call end, so follow them before the next `repack`, or take `drain_changes`.
    #[must_use = "a change is handed over once"]
    pub fn next_change(&mut self) -> Option<CacheChange<K>> {
        self.waiting.next()
    }

    // A call that reports what it does, also where it ends with an error.
    #[inline]
    fn reporting<T>(
        &mut self,
        call: impl FnOnce(
            &mut library::TextureCache<K, S, Global>,
            &mut library::Changes<K>,
        ) -> Result<T, library::CacheError>,
    ) -> Result<T, CacheError> {
        let cache = &mut self.cache;
        Ok(self.waiting.added(|changes| call(cache, changes))?)
    }

    /// Removes all keys; the pages stay. No change reports it, and the changes that weren't handed over stay. Takes no memory.
    pub fn clear(&mut self) {
        self.cache.clear()
    }

    /// Evicts the keys that weren't used for at least this many frames, each reported by a change, the least recently used first. A frame
    /// is a call of `begin_frame`: with 1 all goes that wasn't used since the last one, with 0 all.
    ///
    /// ```
    /// use guillotiere::cache::{CacheChange, CacheOptions, TextureCache};
    /// use guillotiere::size2;
    ///
    /// let mut glyphs = TextureCache::new(&CacheOptions::new(size2(64, 64))).unwrap();
    /// let _ = glyphs.insert('a', size2(10, 20))?;
    /// glyphs.begin_frame();
    /// let _ = glyphs.insert('b', size2(10, 20))?;
    /// glyphs.trim(1)?; // what this frame didn't use
    /// assert!(glyphs.keys().eq(['b']));
    /// # Ok::<(), guillotiere::cache::CacheError>(())
    /// ```
    ///
    /// # Errors
    ///
    /// `Memory` if memory for the changes is refused: then nothing changed. None is asked for where `reserve_changes` made room for as many
    /// as there are keys.
    pub fn trim(&mut self, frames: u64) -> Result<(), CacheError> {
        self.reporting(|cache, changes| cache.trim(frames, changes))
    }

    /// Ends a batch, which was drawn, where the frame has no room for what comes next in it: this many of the most recently used keys go,
    /// all if there are no more, each reported by a change, the most recently used first. The frame goes on: an insertion evicts
    /// nothing of what is left that it used, and `trim` counts it as one frame.
    ///
    /// It is for frames that are full again and again; where a single one is, `begin_frame` lets go less. A batch should take few keys,
    /// `len() / 512 + 1` say, and twice as many each time that there is no room still. If the next frame asks for all that it draws by
    /// `get` before it inserts any, it evicts none of that before it is drawn.
    ///
    /// ```
    /// use guillotiere::cache::{CacheOptions, Inserted, TextureCache};
    /// use guillotiere::size2;
    ///
    /// let mut glyphs = TextureCache::new(&CacheOptions::new(size2(64, 64))).unwrap();
    /// let _ = glyphs.insert('a', size2(64, 32))?;
    /// let _ = glyphs.insert('b', size2(64, 32))?;
    /// assert_eq!(glyphs.insert('c', size2(64, 32))?, Inserted::FrameFull);
    /// glyphs.end_batch(1)?; // once 'a' and 'b' were drawn
    /// assert!(glyphs.insert('c', size2(64, 32))?.place().is_some());
    /// assert!(glyphs.keys().eq(['c', 'a']));
    /// # Ok::<(), guillotiere::cache::CacheError>(())
    /// ```
    ///
    /// # Errors
    ///
    /// `Memory` if memory for the changes is refused: then nothing changed. None is asked for where `reserve_changes` made room for as many
    /// as there are keys.
    pub fn end_batch(&mut self, keys: usize) -> Result<(), CacheError> {
        self.reporting(|cache, changes| cache.end_batch(keys, changes))
    }

    /// Removes the pages after the last one with a key, each reported by a change, the last one first; the others stay, with
    /// their sizes, and so do all keys. After `clear` all pages go. A page that goes takes its slots in reserve along, and one that is
    /// added later has none; entries in reserve stay (`reserve`).
    ///
    /// # Errors
    ///
    /// `Memory` if memory for the changes is refused: then nothing changed. None is asked for where `reserve_changes` made room for as many
    /// as there are pages.
    pub fn shrink(&mut self) -> Result<(), CacheError> {
        self.reporting(|cache, changes| cache.shrink(changes))
    }

    /// Moves keys of the last page to the pages before it, so that `shrink` can give it back, as many as some pixels are enough for: after a
    /// burst a call in each frame empties page after page, where a `repack` would take too long for one. The most recently used key comes
    /// first; each that lies on the last page, on no more pixels, padding included, than are left, moves to the first page before it that
    /// has room for it, reported by a change. No key goes, none counts as used, and no page grows or goes. Returns how many pixels moved:
    /// 0 where there are fewer than two pages, or where no key moved.
    ///
    /// All moves lead from the last page to other ones, on which nothing comes free: so the pixels can be copied one after another.
    ///
    /// ```
    /// use guillotiere::cache::{CacheOptions, TextureCache};
    /// use guillotiere::size2;
    ///
    /// let mut glyphs = TextureCache::new(&CacheOptions { pages: 2, ..CacheOptions::new(size2(64, 64)) }).unwrap();
    /// for glyph in ['a', 'b', 'c'] {
    ///     let _ = glyphs.insert(glyph, size2(64, 32))?; // 'c' comes onto a second page
    /// }
    /// glyphs.remove('b');
    /// assert_eq!(glyphs.compact(64 * 32)?, 64 * 32);
    /// glyphs.shrink()?;
    /// assert_eq!((glyphs.pages(), glyphs.peek('c').unwrap().page), (1, 0));
    /// # Ok::<(), guillotiere::cache::CacheError>(())
    /// ```
    ///
    /// # Errors
    ///
    /// `Memory` if memory for the changes is refused: then nothing changed. None is asked for where `reserve_changes` made room for as many
    /// as there are keys. `Memory` or `Slots` if a page that has room is refused what the move takes: then what moved before stays, and is
    /// reported.
    pub fn compact(&mut self, pixels: u64) -> Result<u64, CacheError> {
        self.reporting(|cache, changes| cache.compact(pixels, changes))
    }

    /// Repacks the keys of a page, the largest first, and among equal areas the most recently used, so that what is free
    /// comes together. Returns whether there is such a page. Each of its keys is reported by a change, as moved, even if it stays,
    /// or as evicted, where it found no room when its turn came, also if this frame uses it: `repack_keeping_all` evicts none. A place that a key moves to can overlap one that a later change moves from: follow the
    /// changes that wait, copy the page, then call this, and copy all pixels from that copy. The page may have no slots in reserve then;
    /// entries in reserve stay (`reserve`).
    ///
    /// ```
    /// use guillotiere::cache::{CacheChange, CacheOptions, TextureCache};
    /// use guillotiere::size2;
    ///
    /// let mut glyphs = TextureCache::new(&CacheOptions::new(size2(64, 64))).unwrap();
    /// let _ = glyphs.insert('g', size2(10, 20))?;
    /// while glyphs.drain_changes().len() > 0 {}
    /// assert!(glyphs.repack(0)?);
    /// let before = "a copy of the page";
    /// for change in glyphs.drain_changes() {
    ///     if let CacheChange::Moved { from, to, .. } = change {
    ///         println!("copy {:?} of {} to {:?}", from.rectangle, before, to.rectangle);
    ///     }
    /// }
    /// # Ok::<(), guillotiere::cache::CacheError>(())
    /// ```
    ///
    /// # Errors
    ///
    /// `Slots` if the page has too few, which takes more than 4,194,303 keys on it; `Memory` if memory is refused. Then all is as before.
    pub fn repack(&mut self, page: u32) -> Result<bool, CacheError> {
        self.reporting(|cache, changes| cache.repack(page, changes))
    }

    /// Repacks the keys of a page as `repack` does, but only where each of them finds room, so that no key is evicted. Returns whether it
    /// did; if not, there is no such page, or `repack` would evict some of its keys, and all is as before.
    ///
    /// ```
    /// use guillotiere::cache::{CacheOptions, TextureCache};
    /// use guillotiere::size2;
    ///
    /// let mut glyphs = TextureCache::new(&CacheOptions::new(size2(64, 64))).unwrap();
    /// let _ = glyphs.insert('g', size2(10, 20))?;
    /// assert!(glyphs.repack_keeping_all(0)?);
    /// # Ok::<(), guillotiere::cache::CacheError>(())
    /// ```
    ///
    /// # Errors
    ///
    /// As `repack`.
    pub fn repack_keeping_all(&mut self, page: u32) -> Result<bool, CacheError> {
        self.reporting(|cache, changes| cache.repack_keeping_all(page, changes))
    }

    /// Makes sure that there is memory for this many more entries. A key that is added takes one of them; one that goes gives none back,
    /// but `clear` does. With the next two calls it makes insertions that ask for no memory: once the three were Ok as below, and every
    /// page is there and at its largest, none of the next `n` insertions is refused with `Memory` or `Slots`, whatever they evict. `get`,
    /// `remove`, `trim`, `clear` and `begin_frame` between them take nothing of that.
    ///
    /// ```
    /// use guillotiere::cache::{CacheOptions, TextureCache};
    /// use guillotiere::size2;
    ///
    /// let mut glyphs = TextureCache::new(&CacheOptions::new(size2(64, 64))).unwrap();
    /// let _ = glyphs.insert('a', size2(10, 20))?; // now the one page is there
    /// let n = 50;
    /// glyphs.reserve(n)?;
    /// glyphs.reserve_slots(4 * n as u32)?;
    /// glyphs.reserve_changes(glyphs.len() + n)?;
    /// # Ok::<(), guillotiere::cache::CacheError>(())
    /// ```
    ///
    /// # Errors
    ///
    /// `Memory` if memory is refused: then nothing changed.
    pub fn reserve(&mut self, additional: usize) -> Result<(), CacheError> {
        Ok(self.cache.reserve(additional)?)
    }

    /// Makes sure that this many slots are in reserve on each page: an insertion that neither adds a page nor grows one takes at most 4 of
    /// each. A page that is added later has none in reserve, one that grows takes up to 3 of its own, and one that is repacked may have
    /// none; `remove`, `trim` and `clear` take none.
    ///
    /// # Errors
    ///
    /// `Slots` if a page would use more than 16,777,216 with them, `Memory` if memory is refused. Then the pages before that one have
    /// theirs in reserve, and it and those after it are as they were.
    pub fn reserve_slots(&mut self, additional: u32) -> Result<(), CacheError> {
        Ok(self.cache.reserve_slots(additional)?)
    }

    /// Makes sure that there is memory for this many changes beside those that weren't handed over. An insertion adds one for each key that
    /// it evicts, a `trim` one for each key that goes.
    ///
    /// # Errors
    ///
    /// `Memory` if memory is refused: then nothing changed.
    pub fn reserve_changes(&mut self, additional: usize) -> Result<(), CacheError> {
        self.waiting.reserve(additional)
    }

    /// How many numbers entries have had since the cache was made or cleared: each entry's number is below this, and this is never more
    /// than there were entries at once.
    #[must_use]
    pub fn numbers(&self) -> u32 {
        self.cache.numbers()
    }

    /// How many keys are held.
    #[must_use]
    pub fn len(&self) -> usize {
        self.cache.len()
    }

    /// Whether there are none.
    #[must_use]
    pub fn is_empty(&self) -> bool {
        self.cache.is_empty()
    }

    /// Whether a key is held. It doesn't count as a use.
    #[must_use]
    pub fn contains_key(&self, key: K) -> bool {
        self.cache.peek(&key).is_some()
    }

    /// The keys with their places, the most recently used first. A step takes no look-up, and doesn't count as a use.
    ///
    /// ```
    /// use guillotiere::cache::{CacheOptions, TextureCache};
    /// use guillotiere::size2;
    ///
    /// let mut glyphs = TextureCache::new(&CacheOptions::new(size2(64, 64))).unwrap();
    /// for glyph in ['a', 'b', 'c'] {
    ///     let _ = glyphs.insert(glyph, size2(10, 20))?;
    /// }
    /// glyphs.get('a');
    /// assert!(glyphs.keys().eq(['a', 'c', 'b']));
    /// assert!(glyphs.iter().all(|(_, place)| place.page == 0));
    /// # Ok::<(), guillotiere::cache::CacheError>(())
    /// ```
    #[must_use]
    pub fn iter(&self) -> Iter<'_, K, S> {
        Iter::of(&self.cache)
    }

    /// The keys, the most recently used first. A step takes no look-up, and doesn't count as a use.
    #[must_use]
    pub fn keys(&self) -> Keys<'_, K, S> {
        Keys {
            entries: self.iter(),
        }
    }

    /// The most recently used key, and its place. It doesn't count as a use.
    #[must_use]
    pub fn newest(&self) -> Option<(K, Place)> {
        self.cache.newest().map(keyed)
    }

    /// The least recently used key, and its place. It doesn't count as a use.
    #[must_use]
    pub fn oldest(&self) -> Option<(K, Place)> {
        self.cache.oldest().map(keyed)
    }

    /// The next less recently used key, and its place. It doesn't count as a use.
    #[must_use]
    pub fn older(&self, key: K) -> Option<(K, Place)> {
        self.cache.older(&key).map(keyed)
    }
}

impl<K: Copy + Eq + Hash, S: BuildHasher> fmt::Debug for TextureCache<K, S> {
    fn fmt(&self, f: &mut fmt::Formatter<'_>) -> fmt::Result {
        f.debug_struct("TextureCache")
            .field("len", &self.len())
            .field("pages", &self.pages())
            .field("statistics", &self.statistics())
            .finish_non_exhaustive()
    }
}
