//! Tests of the lines of `atlas_tool`, `atlas_lines` and `atlas_words`, and of those that spell the benchmark's jobs.
//! Expected replies are worked by hand from the rules, or are those of the Rust crate `guillotiere` 0.7.0; none is an
//! answer of the code under test.

mod asked_once;
mod atlas;
mod conversation;
mod devices;
mod faults;
mod jobs;
mod playing;
mod recording;
mod replay;
mod rows;
mod whole;
mod words;
