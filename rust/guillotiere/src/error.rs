//! Why a call of an allocator can't be made, or was refused.
use core::fmt;
use wollemigo_core::atlas_pages::PagesError;
use wollemigo_core::guillotiere as library;
#[cfg(feature = "recording")]
use wollemigo_core::guillotiere_recording::RecordingError;
use wollemigo_core::guillotiere_total::CallError;

/// Which condition of a call fails, or why the call was refused. After an error everything is as before the call.
///
/// ```
/// use guillotiere::{size2, AtlasAllocator, AtlasError};
///
/// let mut atlas = AtlasAllocator::new(size2(64, 64));
/// match atlas.try_grow(size2(32, 99)) {
///     Err(AtlasError::Shrinks) => assert_eq!(atlas.size(), size2(64, 64)), // as before
///     other => panic!("{:?}", other),
/// }
/// ```
#[derive(Copy, Clone, Debug, PartialEq, Eq, Hash)]
#[non_exhaustive]
pub enum AtlasError {
    /// A side of the size is below 1.
    EmptySize,
    /// A side of the alignment is below 1.
    Alignment,
    /// The small threshold is above the large one.
    Thresholds,
    /// The limit on slots isn't from 1 to `MOST_SLOTS`.
    SlotLimit,
    /// A side of the new size is less than the present one.
    Shrinks,
    /// There is no page of this number.
    NoPage,
    /// An id isn't live, or is in a list of ids twice.
    NotLive,
    /// More slots would be used than the atlas's limit allows.
    Slots,
    /// A request for memory was refused.
    Memory,
    /// A recording allocator has given out all of its `1 << 32` names.
    Names,
}

impl fmt::Display for AtlasError {
    fn fmt(&self, f: &mut fmt::Formatter<'_>) -> fmt::Result {
        f.write_str(match self {
            AtlasError::EmptySize => "a side of the size is below 1",
            AtlasError::Alignment => "a side of the alignment is below 1",
            AtlasError::Thresholds => "the small threshold is above the large one",
            AtlasError::SlotLimit => "the limit on slots is not from 1 to 16777216",
            AtlasError::Shrinks => "a side of the new size is less than the present one",
            AtlasError::NoPage => "there is no such page",
            AtlasError::NotLive => "the id is not live",
            AtlasError::Slots => "no slot is left",
            AtlasError::Memory => "memory was refused",
            AtlasError::Names => "no name is left",
        })
    }
}

#[cfg(feature = "std")]
impl std::error::Error for AtlasError {}

impl From<library::AtlasError> for AtlasError {
    fn from(error: library::AtlasError) -> AtlasError {
        match error {
            library::AtlasError::NotLive => AtlasError::NotLive,
            library::AtlasError::Slots => AtlasError::Slots,
            library::AtlasError::Memory => AtlasError::Memory,
        }
    }
}

#[cfg(feature = "recording")]
impl From<RecordingError> for AtlasError {
    fn from(error: RecordingError) -> AtlasError {
        match error {
            RecordingError::NotLive => AtlasError::NotLive,
            RecordingError::Slots => AtlasError::Slots,
            RecordingError::Memory => AtlasError::Memory,
            RecordingError::Names => AtlasError::Names,
        }
    }
}

impl From<CallError> for AtlasError {
    fn from(error: CallError) -> AtlasError {
        match error {
            CallError::EmptySize => AtlasError::EmptySize,
            CallError::Alignment => AtlasError::Alignment,
            CallError::Thresholds => AtlasError::Thresholds,
            CallError::SlotLimit => AtlasError::SlotLimit,
            CallError::Shrinks => AtlasError::Shrinks,
            CallError::Refused(error) => AtlasError::from(error),
            CallError::NoPage => AtlasError::NoPage,
            // No call here asks a rectangle of the library for its sides.
            CallError::Unmeasurable => unreachable!("{}", error),
        }
    }
}

impl From<PagesError> for AtlasError {
    fn from(error: PagesError) -> AtlasError {
        match error {
            PagesError::EmptySize => AtlasError::EmptySize,
            PagesError::Alignment => AtlasError::Alignment,
            PagesError::Thresholds => AtlasError::Thresholds,
            PagesError::NoPage => AtlasError::NoPage,
            PagesError::Shrinks => AtlasError::Shrinks,
            PagesError::Refused(error) => AtlasError::from(error),
        }
    }
}

/// Panics with the text of the error.
#[track_caller]
#[inline]
pub(crate) fn expected<T>(answer: Result<T, AtlasError>) -> T {
    match answer {
        Ok(value) => value,
        Err(error) => failed(error),
    }
}

#[track_caller]
#[cold]
fn failed(error: AtlasError) -> ! {
    panic!("{}", error)
}
