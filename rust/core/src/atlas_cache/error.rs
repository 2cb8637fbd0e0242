// Erased from crates/atlas_cache/src/error.rt by rust/erase: don't edit.
//! Why a cache can't be made with some options.

/// What is wrong with the options of a cache.
#[derive(Clone, Copy, Debug, PartialEq, Eq)]
pub enum OptionsError {
    /// A side of `page` is below 1.
    EmptyPage,
    /// A side of `largest_page` is less than that of `page`.
    LargestPage,
    /// `pages` is 0.
    NoPages,
    /// `padding` is below 0.
    Padding,
    /// An alignment of `atlas` is below 1, or its thresholds are out of order.
    Atlas,
    /// Not even a size of 1 by 1, with the padding and rounded up to the alignment, fits `largest_page`.
    NothingFits,
}

impl core::fmt::Display for OptionsError {
    fn fmt(&self, f: &mut core::fmt::Formatter<'_>) -> core::fmt::Result {
        match self {
            OptionsError::EmptyPage => f.write_str("a side of a new page is below 1"),
            OptionsError::LargestPage => f.write_str("the largest page is smaller than a new one"),
            OptionsError::NoPages => f.write_str("no pages are allowed"),
            OptionsError::Padding => f.write_str("the padding is below 0"),
            OptionsError::Atlas => f.write_str("the options of the atlas are not valid"),
            OptionsError::NothingFits => {
                f.write_str("nothing fits the largest page with its padding")
            }
        }
    }
}

impl wollemigo_support::error::Error for OptionsError {}
