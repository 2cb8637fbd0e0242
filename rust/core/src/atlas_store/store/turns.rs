// Erased from crates/atlas_store/src/store/turns.rt by rust/erase: don't edit.
//! A count of turns that only contracts see. It takes no memory, and its methods do nothing when they run.

/// How many turns there were.
pub struct Turns {}

impl Turns {
    /// No turn yet.
    #[inline]
    #[must_use]
    pub fn new() -> Turns {
        Turns {}
    }

    // One turn more than before. This and `new` are proved by hand, since no code sets a ghost field.
    #[inline]
    fn after(_before: &Turns) -> Turns {
        Turns {}
    }

    /// Counts one turn.
    #[inline]
    pub fn tick(&mut self) {
        *self = Turns::after(self);
    }
}
