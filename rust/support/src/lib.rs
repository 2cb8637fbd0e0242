//! What the proved sources use and Rust's standard library does otherwise: collections that are given an allocator,
//! and that answer a refusal of memory with an Err in place of an abort.
//!
//! The memory is the global allocator's. The allocator of a collection is asked before each block is taken and told
//! when it was given back, so it can count, bound or refuse.
//!
//! Features, none on by default: `std` for devices, the process and `HostRuntime`; `raw` for boxes as raw pointers,
//! for arrays by pointer and length, and for the memory of a library for C, which is all the unsafe code there is.
#![no_std]
#![cfg_attr(not(feature = "raw"), forbid(unsafe_code))]
#![warn(missing_docs)]

extern crate alloc as rust_alloc;
#[cfg(feature = "std")]
extern crate std as rust_std;

#[macro_use]
mod macros;
mod newer;
mod room;

pub mod alloc;
pub mod boxed;
#[cfg(feature = "raw")]
pub mod c_memory;
pub mod clone;
pub mod collections;
pub mod error;
pub mod hash;
#[cfg(feature = "std")]
pub mod io;
pub mod prelude;
#[cfg(feature = "std")]
pub mod process;
#[cfg(feature = "raw")]
pub mod raw;
#[cfg(feature = "std")]
pub mod rt;
pub mod string;
pub mod test;
pub mod vec;
