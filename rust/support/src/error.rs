//! What an error is.

/// Rust's own, with the feature `std`.
#[cfg(feature = "std")]
pub use rust_std::error::Error;

/// What can be shown: `core` has had the trait only since Rust 1.81.
#[cfg(not(feature = "std"))]
pub trait Error: core::fmt::Debug + core::fmt::Display {}
