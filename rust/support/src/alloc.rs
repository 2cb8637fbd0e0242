//! Allocators, and what a refusal of memory is.

use core::fmt;

/// Memory was refused, or more was asked than a block can have.
#[derive(Clone, Copy, Debug, PartialEq, Eq)]
pub struct AllocError;

impl fmt::Display for AllocError {
    fn fmt(&self, f: &mut fmt::Formatter<'_>) -> fmt::Result {
        f.write_str("memory allocation failed")
    }
}

#[cfg(feature = "std")]
impl rust_std::error::Error for AllocError {}

/// Memory was refused for a value, which comes back.
#[derive(Clone, Copy, PartialEq, Eq)]
pub struct AllocFailed<T> {
    /// What found no room.
    pub value: T,
}

impl<T> From<AllocFailed<T>> for AllocError {
    fn from(_returned: AllocFailed<T>) -> AllocError {
        AllocError
    }
}

// Any value may come back, also one without `Debug`.
impl<T> fmt::Debug for AllocFailed<T> {
    fn fmt(&self, f: &mut fmt::Formatter<'_>) -> fmt::Result {
        f.write_str("AllocFailed { .. }")
    }
}

impl<T> fmt::Display for AllocFailed<T> {
    fn fmt(&self, f: &mut fmt::Formatter<'_>) -> fmt::Result {
        fmt::Display::fmt(&AllocError, f)
    }
}

#[cfg(feature = "std")]
impl<T> rust_std::error::Error for AllocFailed<T> {}

/// Grants or refuses requests for memory. The blocks themselves are the global allocator's.
///
/// Each request that is granted ends in one `give_back` of the same size and alignment.
pub trait Allocator: fmt::Debug + PartialEq {
    /// Whether a block of so many bytes may be taken. On an Err none is taken.
    fn ask(&self, bytes: usize, alignment: usize) -> Result<(), AllocError>;

    /// A block that was granted is no longer in use.
    fn give_back(&self, bytes: usize, alignment: usize);
}

/// Grants whatever the global allocator has.
#[derive(Clone, Copy, Debug, Default, PartialEq, Eq)]
pub struct Global;

impl Allocator for Global {
    #[inline(always)]
    fn ask(&self, _bytes: usize, _alignment: usize) -> Result<(), AllocError> {
        Ok(())
    }

    #[inline(always)]
    fn give_back(&self, _bytes: usize, _alignment: usize) {}
}

impl<A: Allocator> Allocator for &A {
    #[inline]
    fn ask(&self, bytes: usize, alignment: usize) -> Result<(), AllocError> {
        A::ask(self, bytes, alignment)
    }

    #[inline]
    fn give_back(&self, bytes: usize, alignment: usize) {
        A::give_back(self, bytes, alignment);
    }
}
