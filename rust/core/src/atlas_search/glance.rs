// Erased from crates/atlas_search/src/glance.rt by rust/erase: don't edit.
//! Whether a request has room, as far as that is seen without a search.

use crate::atlas_model::Size;
use crate::atlas_search::bands::{Place, Scale, BANDS};
use crate::atlas_search::choice::margin_in;
use crate::atlas_search::link::NO_SLOT;
use crate::atlas_search::search::Entry;
use crate::atlas_search::table::Table;
use wollemigo_support::alloc::Allocator;

// Whether a list to the right and below a place has a slot; of each row the first list that may have one is looked at.
#[inline]
fn has_beyond<A: Allocator>(table: &Table<A>, own: Place) -> bool {
    let mut left = table.used().from(own.row + 1);
    while let Some(row) = left.take_first() {
        let column = table.row(row).from(own.column + 1).first();
        if column < BANDS && table.stored_head(Place { row, column }).number != NO_SLOT {
            return true;
        }
    }
    false
}

/// Whether a request of this rounded size fits the first box of its own list, or one of a list to the right and below. Where it
/// doesn't, it may fit another free box.
#[inline]
#[must_use]
pub fn fits_at_once<A: Allocator, E: Entry>(
    entries: &[E],
    table: &Table<A>,
    options: &Scale,
    size: Size,
) -> bool {
    if !table.is_grown() {
        return false;
    }
    let own = options.place_for(size);
    if has_beyond(table, own) {
        return true;
    }
    let top = table.stored_head(own).number as usize;
    top < entries.len() && margin_in(entries[top].rectangle(), size) >= 0
}
