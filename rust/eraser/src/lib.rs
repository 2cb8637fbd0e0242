//! Takes from Rattle sources what only the prover reads, so that rustc compiles what is left.
//!
//! It works token by token, with Rust's lexical rules. It cuts text, and by numbered rules puts other text in its place; it
//! moves none. What it doesn't know stops it, and nothing is written then.
pub mod crates;
pub mod fault;
pub mod interface;
pub mod layout;
pub mod lexer;
pub mod rules;
pub mod source;
pub mod tree;

use crate::fault::Fault;
use crate::rules::Place;
use crate::source::Source;
use std::collections::BTreeMap;

/// A source without what only the prover reads, not laid out yet; and how often each rule was applied.
pub fn erased(
    name: &str,
    text: &str,
    place: &Place,
) -> Result<(String, BTreeMap<u32, usize>), Fault> {
    let mut source = Source::new(name, text)?;
    rules::apply(&mut source, place)?;
    let text = source.edited()?;
    Ok((text, source.counts))
}
