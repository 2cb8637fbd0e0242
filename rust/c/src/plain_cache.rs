// Erased from crates/guillotiere_c/src/plain_cache.rt by rust/erase: don't edit.
//! What crosses to C of caches: options, places, changes and counts. All lengths are in pixels.

use crate::plain::{
    plain_options, plain_rectangle, plain_size, PlainOptions, PlainRectangle, PlainSize, BAD_ATLAS,
    BAD_PADDING, DONE, EMPTY_PAGE, EVICTED, LARGEST_PAGE, MEMORY, MOVED, NOTHING_FITS, NO_PAGES,
    NUMBERS, OCCUPIED, OTHER_SIZE, PAGE_ADDED, PAGE_GROWN, PAGE_REMOVED, SLOTS,
};
use wollemigo_core::atlas_cache::{
    CacheChange, CacheError, CacheOptions, Counts, OptionsError, Place,
};
use wollemigo_core::guillotiere::{size2, AllocatorOptions};

/// How a cache is made. Lengths are in pixels. The layers of a texture array all have the same size: for those `page` must
/// equal `largest_page`. Pages that grow each need a texture of their own.
#[repr(C)]
#[derive(Clone, Copy)]
pub struct PlainCacheOptions {
    /// The size of a new page, which isn't empty.
    pub page: PlainSize,
    /// Pages grow up to this; neither side is less than that of `page`.
    pub largest_page: PlainSize,
    /// The most pages, at least 1.
    pub pages: u32,
    /// How wide the border is on all four sides of an entry, at least 0.
    pub padding: i32,
    /// Of the atlas of each page.
    pub atlas: PlainOptions,
}

/// Where a key lies: its number, which stays until the key is gone, and which no other key has meanwhile; its page, counted
/// from 0; `rectangle`, which no other entry overlaps; and `inner` in it, which has the sides that were asked for; the
/// padding lies to its left and above it. To its right and below it, `rectangle` has the padding as well, and more where an
/// alignment rounds up. Numbers of keys that are gone are given out again before new ones, which of them isn't said: so what a
/// caller keeps of each key fits an array of `guillotiere_cache_numbers` elements.
///
/// The border of a new entry shows what lay there before. A linear filter reads it, so write all of `rectangle`: the pixels
/// in `inner`, and cleared ones around it. With a padding of 1 draw at most half a pixel beyond `inner`.
#[repr(C)]
#[derive(Clone, Copy)]
pub struct PlainPlace {
    pub number: u32,
    pub page: u32,
    pub rectangle: PlainRectangle,
    pub inner: PlainRectangle,
}

/// What a cache did. Its kind says which fields have a meaning; the others have none.
#[repr(C)]
#[derive(Clone, Copy)]
pub struct PlainCacheChange {
    /// A kind of changes.
    pub kind: u32,
    pub page: u32,
    pub size: PlainSize,
    pub key: u64,
    pub from: PlainPlace,
    pub to: PlainPlace,
}

/// How often `guillotiere_cache_get` found its key or `guillotiere_cache_insert` answered `HELD` (`hits`), how often
/// `guillotiere_cache_get` didn't find its key (`misses`), and how many keys an insertion, a trim, the end of a batch or a
/// repacking evicted (`evictions`). `forced` counts, of those that insertions evicted, the ones that fragmentation cost: before
/// that insertion some page had as much free area as was asked for, with the padding, in parts that had no room. A count that
/// reaches 18446744073709551615 stays there.
#[repr(C)]
#[derive(Clone, Copy)]
pub struct PlainCounts {
    pub hits: u64,
    pub misses: u64,
    pub evictions: u64,
    pub forced: u64,
}

// No place.
const NO_CORNERS: PlainRectangle = PlainRectangle {
    min_x: 0,
    min_y: 0,
    max_x: 0,
    max_y: 0,
};

// No place.
const NOWHERE: PlainPlace = PlainPlace {
    number: 0,
    page: 0,
    rectangle: NO_CORNERS,
    inner: NO_CORNERS,
};

// No change.
const NOTHING: PlainCacheChange = PlainCacheChange {
    kind: 0,
    page: 0,
    size: PlainSize {
        width: 0,
        height: 0,
    },
    key: 0,
    from: NOWHERE,
    to: NOWHERE,
};

/// A key's place as C has it.
pub fn plain_place(place: Place) -> PlainPlace {
    PlainPlace {
        number: place.number,
        page: place.page,
        rectangle: plain_rectangle(place.rectangle),
        inner: plain_rectangle(place.inner),
    }
}

/// The counts of a cache as C has them.
pub fn plain_counts(counts: Counts) -> PlainCounts {
    PlainCounts {
        hits: counts.hits,
        misses: counts.misses,
        evictions: counts.evictions,
        forced: counts.forced,
    }
}

/// What a cache did, as C has it.
pub fn plain_cache_change(change: CacheChange<u64>) -> PlainCacheChange {
    match change {
        CacheChange::PageAdded { page, size } => PlainCacheChange {
            kind: PAGE_ADDED,
            page,
            size: plain_size(size),
            ..NOTHING
        },
        CacheChange::PageGrown { page, size } => PlainCacheChange {
            kind: PAGE_GROWN,
            page,
            size: plain_size(size),
            ..NOTHING
        },
        CacheChange::Evicted { key, place } => PlainCacheChange {
            kind: EVICTED,
            key,
            from: plain_place(place),
            ..NOTHING
        },
        CacheChange::Moved { key, from, to } => PlainCacheChange {
            kind: MOVED,
            key,
            from: plain_place(from),
            to: plain_place(to),
            ..NOTHING
        },
        CacheChange::PageRemoved { page } => PlainCacheChange {
            kind: PAGE_REMOVED,
            page,
            ..NOTHING
        },
    }
}

/// A cache's options of C's as the library has them.
pub fn cache_options_for(options: &PlainCacheOptions) -> CacheOptions {
    CacheOptions {
        page: size2(options.page.width, options.page.height),
        largest_page: size2(options.largest_page.width, options.largest_page.height),
        pages: options.pages,
        padding: options.padding,
        atlas: AllocatorOptions {
            alignment: size2(
                options.atlas.alignment_width,
                options.atlas.alignment_height,
            ),
            small_size_threshold: options.atlas.small_size_threshold,
            large_size_threshold: options.atlas.large_size_threshold,
        },
    }
}

/// A cache's options as C has them.
pub fn plain_cache_options(options: CacheOptions) -> PlainCacheOptions {
    PlainCacheOptions {
        page: plain_size(options.page),
        largest_page: plain_size(options.largest_page),
        pages: options.pages,
        padding: options.padding,
        atlas: plain_options(options.atlas),
    }
}

/// The status of an error of a cache.
pub fn status_of_cache_error(error: CacheError) -> u32 {
    match error {
        CacheError::Memory => MEMORY,
        CacheError::Numbers => NUMBERS,
        CacheError::Slots => SLOTS,
        CacheError::OtherSize => OTHER_SIZE,
    }
}

/// The status of an error of options.
pub fn status_of_options_error(error: OptionsError) -> u32 {
    match error {
        OptionsError::EmptyPage => EMPTY_PAGE,
        OptionsError::LargestPage => LARGEST_PAGE,
        OptionsError::NoPages => NO_PAGES,
        OptionsError::Padding => BAD_PADDING,
        OptionsError::Atlas => BAD_ATLAS,
        OptionsError::NothingFits => NOTHING_FITS,
    }
}
