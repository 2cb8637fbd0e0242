//! How a cache is made, and what can be wrong with that.
use crate::{convert, size2, AllocatorOptions, Size, DEFAULT_OPTIONS};
use core::fmt;
use wollemigo_core::atlas_cache as library;

/// How a cache is made. Lengths are in pixels. These are all fields: a program may write them out, or name those that it sets:
///
/// ```
/// use guillotiere::cache::CacheOptions;
/// use guillotiere::size2;
///
/// let four = CacheOptions { pages: 4, padding: 1, ..CacheOptions::new(size2(512, 512)) };
/// assert_eq!((four.page, four.largest_page), (size2(512, 512), size2(512, 512)));
/// ```
#[derive(Copy, Clone, Debug, PartialEq, Eq, Hash)]
pub struct CacheOptions {
    /// The size of a new page; it isn't empty.
    pub page: Size,
    /// The size up to which pages grow; neither side is less than that of `page`. The layers of a texture array have one
    /// size: for those it is that of `page`.
    pub largest_page: Size,
    /// The most pages; at least 1.
    pub pages: u32,
    /// The width of the border on all four sides of an entry; at least 0.
    pub padding: i32,
    /// The options of each page's atlas; they are valid.
    pub atlas: AllocatorOptions,
}

impl CacheOptions {
    /// One page of this size, which doesn't grow, no padding, and `DEFAULT_OPTIONS`.
    #[must_use]
    pub fn new(page: Size) -> Self {
        CacheOptions {
            page,
            largest_page: page,
            pages: 1,
            padding: 0,
            atlas: DEFAULT_OPTIONS,
        }
    }
}

impl Default for CacheOptions {
    /// `CacheOptions::new` with a page of 1024 by 1024 pixels.
    fn default() -> Self {
        CacheOptions::new(size2(1024, 1024))
    }
}

/// What is wrong with the options of a cache: the first of these that is so, in this order.
///
/// ```
/// use guillotiere::cache::{CacheOptions, OptionsError, TextureCache};
/// use guillotiere::size2;
///
/// let none = CacheOptions { pages: 0, ..CacheOptions::new(size2(64, 64)) };
/// assert_eq!(TextureCache::<char>::new(&none).err(), Some(OptionsError::NoPages));
/// ```
#[derive(Copy, Clone, Debug, PartialEq, Eq, Hash)]
#[non_exhaustive]
pub enum OptionsError {
    /// A side of `page` is below 1.
    EmptyPage,
    /// A side of `largest_page` is less than that of `page`.
    LargestPage,
    /// `pages` is 0.
    NoPages,
    /// `padding` is below 0.
    Padding,
    /// A side of the alignment of `atlas` is below 1, or its thresholds are out of order.
    Atlas,
    /// Not even a size of 1 by 1, with the padding and rounded up to the alignment, fits `largest_page`.
    NothingFits,
}

impl fmt::Display for OptionsError {
    fn fmt(&self, f: &mut fmt::Formatter<'_>) -> fmt::Result {
        f.write_str(match self {
            OptionsError::EmptyPage => "a side of a new page is below 1",
            OptionsError::LargestPage => "the largest page is smaller than a new one",
            OptionsError::NoPages => "no pages are allowed",
            OptionsError::Padding => "the padding is below 0",
            OptionsError::Atlas => "the options of the atlas are not valid",
            OptionsError::NothingFits => "nothing fits the largest page with its padding",
        })
    }
}

#[cfg(feature = "std")]
impl std::error::Error for OptionsError {}

impl From<library::OptionsError> for OptionsError {
    fn from(error: library::OptionsError) -> OptionsError {
        match error {
            library::OptionsError::EmptyPage => OptionsError::EmptyPage,
            library::OptionsError::LargestPage => OptionsError::LargestPage,
            library::OptionsError::NoPages => OptionsError::NoPages,
            library::OptionsError::Padding => OptionsError::Padding,
            library::OptionsError::Atlas => OptionsError::Atlas,
            library::OptionsError::NothingFits => OptionsError::NothingFits,
        }
    }
}

pub(super) fn library_options(options: &CacheOptions) -> library::CacheOptions {
    library::CacheOptions {
        page: convert::library_size(options.page),
        largest_page: convert::library_size(options.largest_page),
        pages: options.pages,
        padding: options.padding,
        atlas: convert::library_options(&options.atlas),
    }
}
