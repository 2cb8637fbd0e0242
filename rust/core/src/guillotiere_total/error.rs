// Erased from crates/guillotiere_total/src/error.rt by rust/erase: don't edit.
//! Why a call can't be made, or was refused.

use crate::guillotiere::AtlasError;

/// Which condition of a call fails, or why the call was refused.
#[derive(Clone, Copy, Debug, PartialEq, Eq)]
pub enum CallError {
    /// A side of the size is below 1.
    EmptySize,
    /// A side of the alignment is below 1.
    Alignment,
    /// The small threshold is above the large one.
    Thresholds,
    /// The limit on slots is 0 or above 16777216.
    SlotLimit,
    /// A side of the new size is less than the present one.
    Shrinks,
    /// There is no page of this number.
    NoPage,
    /// The width or the height of the rectangle fits no `i32`.
    Unmeasurable,
    /// Each condition holds, and the call was refused.
    Refused(AtlasError),
}

impl core::fmt::Display for CallError {
    fn fmt(&self, f: &mut core::fmt::Formatter<'_>) -> core::fmt::Result {
        match self {
            CallError::EmptySize => f.write_str("a side of the size is below 1"),
            CallError::Alignment => f.write_str("a side of the alignment is below 1"),
            CallError::Thresholds => f.write_str("the small threshold is above the large one"),
            CallError::SlotLimit => f.write_str("the limit on slots is not from 1 to 16777216"),
            CallError::Shrinks => {
                f.write_str("a side of the new size is less than the present one")
            }
            CallError::NoPage => f.write_str("there is no such page"),
            CallError::Unmeasurable => {
                f.write_str("the width or the height of the rectangle fits no i32")
            }
            CallError::Refused(value) => write!(f, "{}", value),
        }
    }
}

impl wollemigo_support::error::Error for CallError {}

impl From<AtlasError> for CallError {
    /// `Refused`
    #[inline]
    fn from(error: AtlasError) -> CallError {
        CallError::Refused(error)
    }
}
