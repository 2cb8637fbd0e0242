//! The module for JavaScript (web/): the exports for C, whose modules `build.rs` lists, and what only JavaScript has beside them.
#![allow(dead_code, unused_imports, unused_labels, unused_variables)]

#[cfg(not(feature = "only-cache"))]
mod cuts;
#[cfg(not(feature = "only-atlas"))]
mod halves;

include!(concat!(env!("OUT_DIR"), "/library.rs"));
