// Erased from crates/atlas_pages/src/error.rt by rust/erase: don't edit.
//! Why a call of a `PagedAtlas` can't be made, or was refused.

use crate::guillotiere::AtlasError;

/// Which condition of a call fails, or why the call was refused. After an error all is as before.
#[derive(Clone, Copy, Debug, PartialEq, Eq)]
pub enum PagesError {
    /// A side of the size of pages is below 1.
    EmptySize,
    /// A side of the alignment is below 1.
    Alignment,
    /// The small threshold is above the large one.
    Thresholds,
    /// There is no page of this number.
    NoPage,
    /// A side of the new size is less than the present one.
    Shrinks,
    /// Each condition holds, and the atlas of a page refused the call.
    Refused(AtlasError),
}

impl core::fmt::Display for PagesError {
    fn fmt(&self, f: &mut core::fmt::Formatter<'_>) -> core::fmt::Result {
        match self {
            PagesError::EmptySize => f.write_str("a side of the size is below 1"),
            PagesError::Alignment => f.write_str("a side of the alignment is below 1"),
            PagesError::Thresholds => f.write_str("the small threshold is above the large one"),
            PagesError::NoPage => f.write_str("there is no such page"),
            PagesError::Shrinks => {
                f.write_str("a side of the new size is less than the present one")
            }
            PagesError::Refused(value) => write!(f, "{}", value),
        }
    }
}

impl wollemigo_support::error::Error for PagesError {}

impl From<AtlasError> for PagesError {
    /// `Refused`
    #[inline]
    fn from(error: AtlasError) -> PagesError {
        PagesError::Refused(error)
    }
}
