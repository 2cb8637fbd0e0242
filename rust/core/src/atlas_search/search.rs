// Erased from crates/atlas_search/src/search.rt by rust/erase: don't edit.
//! The search for the free box that a request takes, through the lists of a table.

use crate::atlas_model::{Rectangle, Size};
use crate::atlas_search::bands::{Place, Scale, BANDS};
use crate::atlas_search::best::{Best, Found};
use crate::atlas_search::link::Link;
use crate::atlas_search::masks::Mask;
use crate::atlas_search::table::{Table, FEW};
use showing::{show_entry, show_larger, show_list};
use wollemigo_support::alloc::Allocator;

mod showing;

/// What a search reads of an entry of a list of free boxes.
pub trait Entry {
    /// The entry's rectangle.
    fn rectangle(&self) -> Rectangle;

    /// The entry that it hangs below, or the tag of its list.
    fn up(&self) -> Link;

    /// The entry that hangs below it to the left, or none.
    fn left(&self) -> Link;

    /// The entry that hangs below it to the right, or none.
    fn right(&self) -> Link;

    /// Whether what hangs below it is divided by size.
    fn is_fork(&self) -> bool;
}

// Shows the list at a place to a search.
#[inline(always)]
fn search_list<A: Allocator, E: Entry>(
    entries: &[E],
    table: &Table<A>,
    place: Place,
    best: &mut Best,
) {
    show_list(entries, table.stored_head(place), best);
}

// Shows lists of a row to a search.
#[inline(always)]
fn search_row<A: Allocator, E: Entry>(
    entries: &[E],
    table: &Table<A>,
    row: usize,
    columns: Mask,
    best: &mut Best,
) {
    let mut left = columns;
    while let Some(column) = left.take_first() {
        search_list(entries, table, Place { row, column }, best);
    }
}

// Shows lists of a row that lie to the right of a request's own and below it to a search.
#[inline(always)]
fn search_larger<A: Allocator, E: Entry>(
    entries: &[E],
    table: &Table<A>,
    row: usize,
    columns: Mask,
    best: &mut Best,
) {
    let mut left = columns;
    while let Some(column) = left.take_first() {
        show_larger(entries, table.stored_head(Place { row, column }), best);
    }
}

// Shows lists of a column to a search.
#[inline(always)]
fn search_column<A: Allocator, E: Entry>(
    entries: &[E],
    table: &Table<A>,
    column: usize,
    rows: Mask,
    best: &mut Best,
) {
    let mut left = rows;
    while let Some(row) = left.take_first() {
        search_list(entries, table, Place { row, column }, best);
    }
}

// The rows with a list that isn't empty in these columns.
#[inline(never)]
fn rows_with<A: Allocator>(table: &Table<A>, first: usize, end: usize) -> Mask {
    let mut rows = Mask::none();
    for column in first..end {
        rows = rows.or(table.column(column));
    }
    rows
}

// Of the columns of a row those with a list that may hold a better box than the best.
#[inline(always)]
fn columns_near(options: &Scale, row: usize, columns: Mask, best: &Best) -> Mask {
    let size = match best.farthest() {
        Some(size) => size,
        _ => {
            return columns;
        }
    };
    let place = options.place_for(size);
    if row <= place.row {
        return columns;
    }
    columns.below(place.column + 1)
}

// Shows lists of these rows to a search, from a column on and before another.
#[inline(always)]
fn search_rows<A: Allocator, E: Entry>(
    entries: &[E],
    table: &Table<A>,
    options: &Scale,
    rows: Mask,
    first: usize,
    end: usize,
    best: &mut Best,
) {
    let mut left = rows;
    while let Some(row) = left.take_first() {
        let columns = table.row(row).from(first).below(end);
        let near = columns_near(options, row, columns, best);
        search_larger(entries, table, row, near, best);
    }
}

// A row or column that each list with a slot reaches, of those from a place on, where these are the columns of its row;
// not less than the place's own, the greater of which is given.
#[inline(always)]
fn least_from<A: Allocator>(table: &Table<A>, own: Place, greater: usize, columns: Mask) -> usize {
    let rows = table.used().from(own.row + 1);
    columns.or(rows).first().max(greater)
}

// Shows the free entries before a row and a column to a search that knows of none: those with an equal side first, which
// stand in these columns of the request's own row and these rows of its column, and the others only if none of those is
// free. Answers whether it saw that no list to the right and below has a slot.
#[inline(always)]
fn search_before<A: Allocator, E: Entry>(
    entries: &[E],
    table: &Table<A>,
    options: &Scale,
    own: Place,
    in_row: Mask,
    in_column: Mask,
    end: usize,
    best: &mut Best,
) -> bool {
    search_row(entries, table, own.row, in_row, best);
    search_column(entries, table, own.column, in_column, best);
    if best.has_equal_side() {
        return false;
    }
    let first = own.column + 1;
    let others = rows_with(table, first, BANDS).from(own.row + 1);
    search_rows(entries, table, options, others.below(end), first, end, best);
    others.is_empty()
}

// The entry that a request takes at once: of the lists before a row and a column that are left in its own row and column one
// alone may have a slot, that is in its row, and what is first there has an equal side.
#[inline(always)]
fn pick_alone<A: Allocator, E: Entry>(
    entries: &[E],
    table: &Table<A>,
    own: Place,
    in_row: Mask,
    in_column: Mask,
    begun: Best,
) -> Option<Link> {
    let mut left = in_row;
    let column = left.take_first()?;
    if !left.or(in_column).is_empty() {
        return None;
    }
    let top = table.stored_head(Place {
        row: own.row,
        column,
    });
    if top.number as usize >= entries.len() {
        return None;
    }
    let mut best = begun;
    if show_entry(&entries[top.number as usize], top, &mut best) {
        return None;
    }
    if best.has_equal_side() {
        return best.found();
    }
    None
}

// Shows the lists before a row and a column to a search, where only the first few slots come first in lists.
#[inline]
fn search_few<A: Allocator, E: Entry>(
    entries: &[E],
    table: &Table<A>,
    end: usize,
    best: &mut Best,
) {
    for i in 0..FEW.min(entries.len()) {
        let list = table.list_of_few(i);
        let row = list / BANDS;
        let column = list % BANDS;
        if row.max(column) < end {
            show_list(entries, table.head(Place { row, column }), best);
        }
    }
}

// The free entry that a request of this rounded size takes, where only the first few slots come first in lists.
#[cold]
#[inline(never)]
fn pick_few<A: Allocator, E: Entry>(
    entries: &[E],
    table: &Table<A>,
    options: &Scale,
    size: Size,
) -> Option<Found> {
    let own = options.place_for(size);
    let greater = own.row.max(own.column);
    let is_large = greater >= options.large();
    let mut least = greater;
    while least < BANDS {
        let end = options.end_after(least);
        let mut best = Best::new(size, is_large);
        search_few(entries, table, end, &mut best);
        if let Some(at) = best.found() {
            let rectangle = entries[at.number as usize].rectangle();
            return Some(Found { rectangle, at });
        }
        least = end;
    }
    None
}

// The free entry that a request takes, where each list with a slot reaches a row or column, and these columns of its own row and
// these rows of its own column may have one.
#[inline(always)]
fn pick_from<A: Allocator, E: Entry>(
    entries: &[E],
    table: &Table<A>,
    options: &Scale,
    own: Place,
    least: usize,
    mut columns: Mask,
    mut rows: Mask,
    begun: Best,
) -> Option<Found> {
    let mut end = options.end_after(least);
    let mut in_row = columns.below(end);
    let mut in_column = rows.below(end);
    if let Some(at) = pick_alone(entries, table, own, in_row, in_column, begun) {
        let rectangle = entries[at.number as usize].rectangle();
        return Some(Found { rectangle, at });
    }
    let mut best = begun;
    loop {
        let is_last = search_before(
            entries, table, options, own, in_row, in_column, end, &mut best,
        );
        if let Some(at) = best.found() {
            let rectangle = entries[at.number as usize].rectangle();
            return Some(Found { rectangle, at });
        }
        if end >= BANDS {
            return None;
        }
        columns = columns.from(end);
        rows = rows.from(end);
        if is_last && columns.or(rows).is_empty() {
            return None;
        }
        end = options.end_after(end);
        in_row = columns.below(end);
        in_column = rows.below(end);
    }
}

/// The free entry that a request of this rounded size takes.
#[inline]
#[must_use]
pub fn pick<A: Allocator, E: Entry>(
    entries: &[E],
    table: &Table<A>,
    options: &Scale,
    size: Size,
) -> Option<Found> {
    let own = options.place_for(size);
    let greater = own.row.max(own.column);
    let is_large = greater >= options.large();
    let columns = table.row(own.row).from(own.column);
    let rows = table.column(own.column).from(own.row + 1);
    let least = least_from(table, own, greater, columns);
    if least < BANDS {
        let begun = Best::new(size, is_large);
        return pick_from(entries, table, options, own, least, columns, rows, begun);
    }
    if table.is_grown() {
        return None;
    }
    pick_few(entries, table, options, size)
}
