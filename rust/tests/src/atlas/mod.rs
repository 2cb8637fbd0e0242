//! Tests of an atlas, in addition to the rows of `guillotiere_tests` and `recorded_tests`: walks, many boxes, a long
//! session. Expected values are worked by hand from the rules, or recorded from the Rust crate `guillotiere` 0.7.0; none is
//! an answer of the code under test.

mod bands;
mod churn;
mod equal_sides;
mod errors;
mod few_slots;
mod geometry;
mod images;
mod pages;
mod queries;
mod rearranging;
mod reserving;
mod session_long;
mod thresholds;
mod walks;
