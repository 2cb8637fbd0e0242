//! How much room is asked for, and how one block is taken in place of another.

use crate::alloc::{AllocError, Allocator};
use core::mem::{align_of, size_of};
use rust_alloc::collections::TryReserveError;

/// The next capacity: twice the present one if that is enough, else what is needed, but not less than the least.
pub(crate) fn grown<T>(capacity: usize, needed: usize) -> usize {
    needed.max(capacity.saturating_mul(2)).max(least::<T>())
}

// The least capacity after a growth: small items come by the handful.
fn least<T>() -> usize {
    match size_of::<T>() {
        0 | 1 => 8,
        2..=1024 => 4,
        _ => 1,
    }
}

/// Takes a block for so many of T by `take`, in place of one for `before`. On an Err nothing was taken.
pub(crate) fn exchange<T, A: Allocator, F: FnOnce() -> Result<(), TryReserveError>>(
    alloc: &A,
    before: usize,
    after: usize,
    take: F,
) -> Result<(), AllocError> {
    let size = size_of::<T>().checked_mul(after).ok_or(AllocError)?;
    if size != 0 {
        alloc.ask(size, align_of::<T>())?;
    }
    if take().is_err() {
        give_back::<T, A>(alloc, after);
        return Err(AllocError);
    }
    give_back::<T, A>(alloc, before);
    Ok(())
}

/// Tells that a block for so many of T isn't in use any more, if there was one.
#[inline]
pub(crate) fn give_back<T, A: Allocator>(alloc: &A, capacity: usize) {
    if capacity != 0 && size_of::<T>() != 0 {
        alloc.give_back(size_of::<T>().wrapping_mul(capacity), align_of::<T>());
    }
}
