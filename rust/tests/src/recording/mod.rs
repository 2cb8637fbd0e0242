//! Tests of recordings. Expected values are worked by hand from the rules; none is an answer of the code under test.

mod replay;
mod resuming;
mod sessions;
mod texts;
mod without_memory;
