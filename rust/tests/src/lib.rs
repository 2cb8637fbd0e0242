//! Tests of the plain Rust, kept by hand. Expected values are worked out by hand from the rules, or recorded from the
//! Rust crate `guillotiere` 0.7.0; none is an answer of the code under test.
#![forbid(unsafe_code)]

#[cfg(test)]
mod atlas;
#[cfg(test)]
mod cache;
#[cfg(test)]
mod cache_parts;
#[cfg(test)]
mod maxrects;
#[cfg(test)]
mod pack;
#[cfg(test)]
mod random;
#[cfg(test)]
mod recording;
#[cfg(test)]
mod sheet;
#[cfg(test)]
mod simple;
#[cfg(test)]
mod tool;
#[cfg(test)]
mod total;
