//! Tests of the cache's parts. Expected values are worked by hand, or come from a plain list that the test keeps.

mod entries;
mod options;
mod recency;
mod reserving;
mod rooms;
