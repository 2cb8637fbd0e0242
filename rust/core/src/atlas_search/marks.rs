// Erased from crates/atlas_search/src/marks.rt by rust/erase: don't edit.
//! Marks of lists, in rows and columns.

use crate::atlas_search::bands::{Place, BANDS};
use crate::atlas_search::masks::Mask;

/// A set of places. Contracts see the marked columns of each row.
pub struct Marks {
    rows: [Mask; BANDS],
    columns: [Mask; BANDS],
    used: Mask,
}

impl Marks {
    /// No place is marked.
    #[inline]
    #[must_use]
    pub fn none() -> Marks {
        let none = Mask::none();
        Marks {
            rows: [none; BANDS],
            columns: [none; BANDS],
            used: none,
        }
    }

    /// A copy of the marks.
    #[inline]
    #[must_use]
    pub fn copy(&self) -> Marks {
        Marks {
            rows: self.rows,
            columns: self.columns,
            used: self.used,
        }
    }

    /// Marks a place.
    #[inline]
    pub fn mark(&mut self, at: Place) {
        self.rows[at.row] = self.rows[at.row].with(at.column);
        self.columns[at.column] = self.columns[at.column].with(at.row);
        self.used = self.used.with(at.row);
    }

    /// Takes the mark of a place away.
    #[inline]
    pub fn unmark(&mut self, at: Place) {
        let row = self.rows[at.row].without(at.column);
        self.rows[at.row] = row;
        self.columns[at.column] = self.columns[at.column].without(at.row);
        if row.is_empty() {
            self.used = self.used.without(at.row);
        }
    }

    /// The marked columns of a row.
    #[inline]
    #[must_use]
    pub fn row(&self, i: usize) -> Mask {
        self.rows[i]
    }

    /// The marked rows of a column.
    #[inline]
    #[must_use]
    pub fn column(&self, j: usize) -> Mask {
        self.columns[j]
    }

    /// The rows with a mark.
    #[inline]
    #[must_use]
    pub fn used(&self) -> Mask {
        self.used
    }
}
