//! `Clone` as the proved sources have it: a second value takes memory, which may be refused.

use crate::alloc::AllocError;

/// A second value, made from a reference to a first.
pub trait Clone: Sized {
    /// A value like this one; an Err if memory is refused, which Rust's own `clone` never says.
    fn clone(&self) -> Result<Self, AllocError>;
}

impl<T: core::clone::Clone> Clone for T {
    #[inline]
    fn clone(&self) -> Result<T, AllocError> {
        Ok(core::clone::Clone::clone(self))
    }
}
