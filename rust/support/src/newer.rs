//! Methods under names that the oldest compiler lacks, or that take a handle here.
//!
//! Where a newer compiler has the method itself, that one is called.

use core::fmt;

/// `ilog2` of a number, which Rust has since 1.67.
pub trait Ilog2 {
    /// The greatest power of two that isn't above it, as its exponent. Panics at 0 and below.
    fn ilog2(self) -> u32;
}

/// `is_some_and` of an option, which Rust has since 1.70.
#[allow(clippy::wrong_self_convention)]
pub trait IsSomeAnd<T> {
    /// Whether there is a value and `holds` is true of it.
    fn is_some_and<F: FnOnce(T) -> bool>(self, holds: F) -> bool;
}

impl<T> IsSomeAnd<T> for Option<T> {
    #[inline]
    fn is_some_and<F: FnOnce(T) -> bool>(self, holds: F) -> bool {
        self.map_or(false, holds)
    }
}

/// `cast_unsigned` of a number, which Rust has since 1.87.
pub trait CastUnsigned {
    /// The type of the same width without a sign.
    type Unsigned;

    /// The number with the same bits.
    fn cast_unsigned(self) -> Self::Unsigned;
}

macro_rules! numbers {
    ($($signed:ty, $unsigned:ty;)*) => {$(
        impl Ilog2 for $unsigned {
            #[inline]
            fn ilog2(self) -> u32 {
                ::core::assert!(self > 0, "the logarithm of 0");
                <$unsigned>::BITS - 1 - self.leading_zeros()
            }
        }

        impl Ilog2 for $signed {
            #[inline]
            fn ilog2(self) -> u32 {
                ::core::assert!(self > 0, "the logarithm of a number that isn't positive");
                <$signed>::BITS - 1 - self.leading_zeros()
            }
        }

        impl CastUnsigned for $signed {
            type Unsigned = $unsigned;

            #[inline]
            fn cast_unsigned(self) -> $unsigned {
                self as $unsigned
            }
        }
    )*};
}

numbers! {
    i8, u8;
    i16, u16;
    i32, u32;
    i64, u64;
    i128, u128;
    isize, usize;
}

/// `expect` with the handle that allows a panic.
pub trait ExpectIn {
    /// What there should be.
    type Value;

    /// The value. Panics with the message if there is none.
    fn expect_in<R>(self, handle: R, message: &str) -> Self::Value;
}

impl<T> ExpectIn for Option<T> {
    type Value = T;

    #[inline]
    #[track_caller]
    fn expect_in<R>(self, _handle: R, message: &str) -> T {
        self.expect(message)
    }
}

impl<T, E: fmt::Debug> ExpectIn for Result<T, E> {
    type Value = T;

    #[inline]
    #[track_caller]
    fn expect_in<R>(self, _handle: R, message: &str) -> T {
        self.expect(message)
    }
}

/// `expect_err` with the handle that allows a panic.
pub trait ExpectErrIn {
    /// The error that there should be.
    type Error;

    /// The error. Panics with the message if there is none.
    fn expect_err_in<R>(self, handle: R, message: &str) -> Self::Error;
}

impl<T: fmt::Debug, E> ExpectErrIn for Result<T, E> {
    type Error = E;

    #[inline]
    #[track_caller]
    fn expect_err_in<R>(self, _handle: R, message: &str) -> E {
        self.expect_err(message)
    }
}
