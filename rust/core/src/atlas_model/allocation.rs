// Erased from crates/atlas_model/src/allocation.rt by rust/erase: don't edit.
//! Ids and allocated rectangles.

use crate::atlas_model::geometry::Rectangle;

/// The id of an allocated rectangle: in its low 24 bits the number of a slot, above them the slot's generation. An id
/// that was freed may be issued again, for another rectangle.
#[derive(Clone, Copy, Debug, PartialEq, Eq, Hash)]
pub struct AllocId(u32);

impl AllocId {
    /// The number of the id.
    #[inline]
    #[must_use]
    pub fn serialize(&self) -> u32 {
        self.0
    }

    /// The id of a number. Every number is accepted; whether the id is live is for the atlas to say.
    #[inline]
    #[must_use]
    pub fn deserialize(bytes: u32) -> Self {
        AllocId(bytes)
    }
}

/// An allocated rectangle, in pixels, and its id.
#[derive(Clone, Copy, Debug, PartialEq)]
pub struct Allocation {
    pub id: AllocId,
    pub rectangle: Rectangle,
}

/// The most slots that an atlas may use at once, 16777216: an id has 24 bits for the number of its slot. It is the
/// limit of an atlas that is made without one.
pub const MOST_SLOTS: u32 = 16777216;

/// How many slots an atlas uses, the most that it used at once since its last start, and how many it may use.
#[derive(Clone, Copy, Debug, PartialEq, Eq)]
pub struct SlotCount {
    pub used: u32,
    pub kept: u32,
    pub limit: u32,
}
