//! Tests of the cache: stored lines; random calls beside a plain model, copies, and memory that is refused.

mod clones;
mod compacting;
mod lines;
mod memory;
mod plain;
mod traces;
mod vacating;
