// Written by rust/erase from crates.txt: don't edit.
//! The library crates of `crates/` with their contracts erased, a module each. `wollemigo` is the crate to use: here a
//! call's conditions stand in its documentation, and nothing tests them. No module is an API: each may change with every
//! version, so `wollemigo` asks for exactly one.
#![no_std]
#![forbid(unsafe_code)]
#![allow(dead_code, unused_imports, unused_labels, unused_variables)]
// How the proved sources say it.
#![allow(
    clippy::incompatible_msrv,
    clippy::manual_find,
    clippy::manual_flatten,
    clippy::manual_range_contains,
    clippy::match_like_matches_macro,
    clippy::needless_range_loop,
    clippy::new_without_default,
    clippy::only_used_in_recursion,
    clippy::should_implement_trait,
    clippy::too_many_arguments
)]

#[doc(hidden)]
pub mod atlas_allocator;
#[cfg(feature = "cache")]
#[doc(hidden)]
pub mod atlas_cache;
#[cfg(feature = "cache")]
#[doc(hidden)]
pub mod atlas_entries;
#[doc(hidden)]
pub mod atlas_image;
#[cfg(feature = "sheet")]
#[doc(hidden)]
pub mod atlas_maxrects;
#[doc(hidden)]
pub mod atlas_model;
#[doc(hidden)]
pub mod atlas_pages;
#[doc(hidden)]
pub mod atlas_search;
#[cfg(feature = "sheet")]
#[doc(hidden)]
pub mod atlas_sheet;
#[doc(hidden)]
pub mod atlas_store;
#[doc(hidden)]
pub mod atlas_tree;
#[doc(hidden)]
pub mod guillotiere;
#[cfg(feature = "recording")]
#[doc(hidden)]
pub mod guillotiere_recording;
#[doc(hidden)]
pub mod guillotiere_total;
