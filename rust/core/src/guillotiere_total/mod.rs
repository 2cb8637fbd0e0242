// Erased from crates/guillotiere_total/src/lib.rt by rust/erase: don't edit.
//! The calls of `guillotiere` that ask something of their caller, for callers who prove nothing: each tests what is
//! asked, and an error says which condition fails. Conditions are tested in the order in which the call's
//! documentation names them, and after an error all is as before.

pub mod atlas;
mod conditions;
mod error;
pub mod pages;
#[cfg(feature = "recording")]
pub mod recording;
pub mod rectangles;
pub mod simple;

pub use error::CallError;
