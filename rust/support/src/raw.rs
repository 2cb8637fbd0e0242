//! What a caller in another language passes by pointers: arrays, with their lengths, and places for values.

/// The values of an array that is read; None if it is null and its length isn't 0.
///
/// # Safety
///
/// If `length` isn't 0 and `at` isn't null, it points to so many values, which nobody writes while the result is in use.
#[inline]
pub unsafe fn slice<'a, T>(at: *const T, length: usize) -> Option<&'a [T]> {
    if length == 0 {
        Some(&[])
    } else if at.is_null() {
        None
    } else {
        Some(core::slice::from_raw_parts(at, length))
    }
}

/// The values of an array that may be written; None if it is null and its length isn't 0.
///
/// # Safety
///
/// If `length` isn't 0 and `at` isn't null, it points to so many values, which nobody else reads or writes while the result is in
/// use.
#[inline]
pub unsafe fn slice_mut<'a, T>(at: *mut T, length: usize) -> Option<&'a mut [T]> {
    if length == 0 {
        Some(&mut [])
    } else if at.is_null() {
        None
    } else {
        Some(core::slice::from_raw_parts_mut(at, length))
    }
}

/// A value to be written that nobody reads: all bits are 0.
///
/// # Safety
///
/// That is a value of the type.
#[inline]
#[must_use]
pub unsafe fn spare<T: Copy>() -> T {
    core::mem::zeroed()
}
