//! Tests of the simple allocator. Expected values are worked by hand from the rules, or recorded from the Rust crate
//! `guillotiere` 0.7.0; none is an answer of the code under test.

mod beside;
mod entries;
mod images;
mod lists;
mod queries;
mod steps;
mod whole;
