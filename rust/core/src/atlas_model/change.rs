// Erased from crates/atlas_model/src/change.rt by rust/erase: don't edit.
//! What a rearrangement moved, and what found no room.

use crate::atlas_model::allocation::Allocation;
use crate::atlas_model::error::AtlasError;
use wollemigo_support::alloc::{Allocator, Global};
use wollemigo_support::prelude::Vec;

/// A rectangle that was placed anew, in pixels: under its former id and under the id that it has now. Its sides stay.
#[derive(Clone, Copy, Debug, PartialEq)]
pub struct Change {
    pub old: Allocation,
    pub new: Allocation,
}

/// What a rearrangement did with what was allocated, in the order in which it was tried: `changes` are the rectangles
/// that were placed anew, `failures` those that found no room, whose ids are no longer live.
#[derive(Debug, PartialEq)]
pub struct ChangeList<A: Allocator + Copy = Global> {
    pub changes: Vec<Change, A>,
    pub failures: Vec<Allocation, A>,
}

impl<A: Allocator + Copy> ChangeList<A> {
    /// Two empty lists. Takes no memory.
    #[inline]
    #[must_use]
    pub fn empty(alloc: A) -> Self {
        ChangeList {
            changes: Vec::new(alloc),
            failures: Vec::new(alloc),
        }
    }

    /// Lists with the same changes and failures. `Memory` is the only error.
    #[inline]
    pub fn clone(&self) -> Result<Self, AtlasError> {
        let alloc = *self.changes.allocator();
        Ok(ChangeList {
            changes: Vec::from_slice(alloc, &self.changes)?,
            failures: Vec::from_slice(alloc, &self.failures)?,
        })
    }
}
