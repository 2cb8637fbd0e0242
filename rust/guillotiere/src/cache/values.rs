//! What a cache answers.
use crate::{convert, Rectangle, Size};
use core::fmt;
use wollemigo_core::atlas_cache as library;

/// Where an entry lies, in pixels. A blank entry, that of a key with an empty size, lies on no page: both of its rectangles
/// are empty.
///
/// ```
/// use guillotiere::cache::{CacheOptions, TextureCache};
/// use guillotiere::size2;
///
/// let mut glyphs = TextureCache::new(&CacheOptions::new(size2(64, 64))).unwrap();
/// let place = glyphs.insert('g', size2(10, 20))?.place().unwrap();
/// let mut bearings = vec![(0, 0); glyphs.numbers() as usize]; // what belongs to a glyph, by its number
/// bearings[place.number as usize] = (1, -7);
/// assert_eq!(place.inner.size(), size2(10, 20));
/// # Ok::<(), guillotiere::cache::CacheError>(())
/// ```
#[derive(Copy, Clone, Debug, PartialEq, Eq, Hash)]
pub struct Place {
    /// The number of the entry. It stays until the entry is gone, and no other entry has it meanwhile. Numbers of entries that are gone are
    /// given out again before new ones, which of them isn't said: so what a caller keeps of each entry fits a list of `numbers` elements.
    pub number: u32,
    /// The page, counted from 0; of a blank entry 0, also where there is no page yet.
    pub page: u32,
    /// The rectangle with its padding, which no other entry of the page overlaps. Its border shows what lay there
    /// before: clear it.
    pub rectangle: Rectangle,
    /// The rectangle that has the sides that were asked for: the padding lies to its left and above it. To its right
    /// and below it, `rectangle` has the padding as well, and more where an alignment rounds up.
    pub inner: Rectangle,
}

/// What an insertion answers. These are all its variants: a `match` needs no other arm.
///
/// ```
/// use guillotiere::cache::{CacheOptions, Inserted, TextureCache};
/// use guillotiere::size2;
///
/// let mut glyphs = TextureCache::new(&CacheOptions::new(size2(64, 64))).unwrap();
/// match glyphs.insert('g', size2(10, 20))? {
///     Inserted::Placed(place) => println!("write its pixels at {:?}", place.inner),
///     Inserted::Held(place) => println!("its pixels are at {:?}", place.inner),
///     Inserted::FrameFull => println!("draw, begin a new frame, and insert it again"),
///     Inserted::NeverFits => println!("draw it without the cache"),
/// }
/// # Ok::<(), guillotiere::cache::CacheError>(())
/// ```
#[must_use = "it says whether the key has a place, and whether its pixels are to be written"]
#[derive(Copy, Clone, Debug, PartialEq, Eq, Hash)]
pub enum Inserted {
    /// The key is new, and this is its place: its pixels are to be written there. A blank one has none: its place is empty.
    Placed(Place),
    /// The key was held, and this is its place still, with the pixels that were written there.
    Held(Place),
    /// All pages allowed exist, at their largest, and none would have room, were all entries gone that this frame didn't use: draw what
    /// this frame has, begin a new one, and insert again.
    FrameFull,
    /// The size, with the padding on all sides and rounded up to the alignment, exceeds the largest page.
    NeverFits,
}

impl Inserted {
    /// The place that was given, whether the key is new or was held; None if none was.
    #[must_use]
    pub fn place(self) -> Option<Place> {
        match self {
            Inserted::Placed(place) | Inserted::Held(place) => Some(place),
            Inserted::FrameFull | Inserted::NeverFits => None,
        }
    }
}

/// What a call did. These are all its variants, since a program has to follow each.
///
/// ```
/// use guillotiere::cache::{CacheChange, CacheOptions, TextureCache};
/// use guillotiere::size2;
///
/// let mut glyphs = TextureCache::new(&CacheOptions::new(size2(64, 64))).unwrap();
/// let _ = glyphs.insert('g', size2(10, 20))?;
/// for change in glyphs.drain_changes() {
///     match change {
///         CacheChange::PageAdded { page, size } => println!("make texture {} of {:?} pixels", page, size),
///         CacheChange::PageGrown { page, size } => println!("make texture {} larger: {:?}", page, size),
///         CacheChange::Evicted { key, .. } => println!("{} is gone", key),
///         CacheChange::Moved { from, to, .. } => println!("copy {:?} to {:?}", from.rectangle, to.rectangle),
///         CacheChange::PageRemoved { page } => println!("drop texture {}", page),
///     }
/// }
/// # Ok::<(), guillotiere::cache::CacheError>(())
/// ```
#[derive(Copy, Clone, Debug, PartialEq, Eq, Hash)]
pub enum CacheChange<K = u64> {
    /// There is a new page, the last one: make a texture of this size.
    PageAdded {
        /// Its number, counted from 0.
        page: u32,
        /// Its size, in pixels.
        size: Size,
    },
    /// A page has this size from now on, and nothing on it moved: make its texture larger.
    PageGrown {
        /// Its number, counted from 0.
        page: u32,
        /// Its size, in pixels.
        size: Size,
    },
    /// A key is gone.
    Evicted {
        /// The key.
        key: K,
        /// Where it was.
        place: Place,
    },
    /// A key moved, by a repacking: copy `from.rectangle`, out of a copy of the page as it was before, to `to.rectangle`. By a compacting
    /// it moved to another page, and its pixels can be copied at once.
    Moved {
        /// The key.
        key: K,
        /// Where it was.
        from: Place,
        /// Where it is.
        to: Place,
    },
    /// The last page, which had nothing on it, is gone: drop its texture.
    PageRemoved {
        /// The page, counted from 0.
        page: u32,
    },
}

/// How often a cache had what it was asked for. A count that reaches 2^64 - 1 stays there.
///
/// ```
/// use guillotiere::cache::{CacheOptions, TextureCache};
/// use guillotiere::size2;
///
/// let mut glyphs = TextureCache::new(&CacheOptions::new(size2(64, 64))).unwrap();
/// let _ = glyphs.insert('g', size2(10, 20))?; // it is new, and counts nothing
/// let _ = glyphs.insert('g', size2(10, 20))?; // a hit
/// assert!(glyphs.get('g').is_some() && glyphs.get('h').is_none()); // a hit and a miss
/// let counts = glyphs.statistics();
/// assert_eq!((counts.hits, counts.misses, counts.evictions, counts.forced), (2, 1, 0, 0));
/// # Ok::<(), guillotiere::cache::CacheError>(())
/// ```
#[derive(Copy, Clone, Debug, Default, PartialEq, Eq, Hash)]
pub struct Counts {
    /// The calls of `get` that found their key, and those of `insert` that answered `Held`.
    pub hits: u64,
    /// The calls of `get` that didn't find theirs. `insert` counts none.
    pub misses: u64,
    /// The entries that were evicted: by an insertion, a trim, the end of a batch or a repacking.
    pub evictions: u64,
    /// Of those that insertions evicted, the ones that fragmentation cost: before that insertion some page had as much free area as
    /// was asked for, with the padding, in parts that had no room. Where this grows, `repack` or `compact` helps; where `evictions`
    /// grows without it, the pages are too small for what is drawn.
    pub forced: u64,
}

/// Why a call was refused.
///
/// ```
/// use guillotiere::cache::{CacheError, CacheOptions, TextureCache};
/// use guillotiere::size2;
///
/// let mut glyphs = TextureCache::new(&CacheOptions::new(size2(64, 64))).unwrap();
/// let _ = glyphs.insert('g', size2(10, 20))?;
/// assert_eq!(glyphs.insert('g', size2(11, 20)), Err(CacheError::OtherSize));
/// # Ok::<(), guillotiere::cache::CacheError>(())
/// ```
#[derive(Copy, Clone, Debug, PartialEq, Eq, Hash)]
#[non_exhaustive]
pub enum CacheError {
    /// A request for memory was refused.
    Memory,
    /// All 4,294,967,295 numbers of entries are in use.
    Numbers,
    /// The slots of a page's atlas don't suffice. No entry is evicted for it, in no later frame either, and another page with
    /// room isn't tried: `remove`, `trim` and `clear` help.
    Slots,
    /// The key is held with another size.
    OtherSize,
}

impl fmt::Display for CacheError {
    fn fmt(&self, f: &mut fmt::Formatter<'_>) -> fmt::Result {
        f.write_str(match self {
            CacheError::Memory => "memory was refused",
            CacheError::Numbers => "no number is left for an entry",
            CacheError::Slots => "no slot is left on a page",
            CacheError::OtherSize => "the key is held with another size",
        })
    }
}

#[cfg(feature = "std")]
impl std::error::Error for CacheError {}

impl From<library::CacheError> for CacheError {
    fn from(error: library::CacheError) -> CacheError {
        match error {
            library::CacheError::Memory => CacheError::Memory,
            library::CacheError::Numbers => CacheError::Numbers,
            library::CacheError::Slots => CacheError::Slots,
            library::CacheError::OtherSize => CacheError::OtherSize,
        }
    }
}

#[inline]
pub(super) fn place_of(place: library::Place) -> Place {
    Place {
        number: place.number,
        page: place.page,
        rectangle: convert::rectangle(&place.rectangle),
        inner: convert::rectangle(&place.inner),
    }
}

#[inline]
pub(super) fn inserted_of(inserted: library::Inserted) -> Inserted {
    match inserted {
        library::Inserted::Placed(place) => Inserted::Placed(place_of(place)),
        library::Inserted::Held(place) => Inserted::Held(place_of(place)),
        library::Inserted::FrameFull => Inserted::FrameFull,
        library::Inserted::NeverFits => Inserted::NeverFits,
    }
}

#[inline]
pub(super) fn keyed<K>(found: (K, library::Place)) -> (K, Place) {
    (found.0, place_of(found.1))
}

#[inline]
pub(super) fn change_of<K>(change: library::CacheChange<K>) -> CacheChange<K> {
    match change {
        library::CacheChange::PageAdded { page, size } => CacheChange::PageAdded {
            page,
            size: convert::size(size),
        },
        library::CacheChange::PageGrown { page, size } => CacheChange::PageGrown {
            page,
            size: convert::size(size),
        },
        library::CacheChange::Evicted { key, place } => CacheChange::Evicted {
            key,
            place: place_of(place),
        },
        library::CacheChange::Moved { key, from, to } => CacheChange::Moved {
            key,
            from: place_of(from),
            to: place_of(to),
        },
        library::CacheChange::PageRemoved { page } => CacheChange::PageRemoved { page },
    }
}
