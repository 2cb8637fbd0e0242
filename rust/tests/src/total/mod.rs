//! Tests of the total layer. Expected values are worked by hand from the conditions of the calls beneath.

mod atlas;
mod errors;
mod pages;
mod recording;
mod rectangles;
mod simple;
mod tables;
