// Erased from crates/atlas_search/src/search/showing.rt by rust/erase: don't edit.
//! A list of entries shown to a search: its heap from the top on, but for what can't be the best.

use crate::atlas_search::best::{corner, Best};
use crate::atlas_search::cells::{Cell, Halves};
use crate::atlas_search::cut::exact_size;
use crate::atlas_search::link::Link;
use crate::atlas_search::search::Entry;

// Shows an entry to a search. Answers whether one that hangs below it may be better: where it is a fork, since else those have
// its size and come no earlier, and where neither it nor a best that comes no later has an equal side.
#[inline(always)]
pub(crate) fn show_entry<E: Entry>(entry: &E, at: Link, best: &mut Best) -> bool {
    let area = entry.rectangle();
    let corner = corner(area);
    if best.passes(corner) {
        return false;
    }
    if best.look(area, corner, at) {
        return false;
    }
    entry.is_fork()
}

// Shows what hangs below a fork, by the halves of its cell, to a search, but for what can't be the best: of the halves only those are
// entered that may have a better one; of the low one it is given whether the request may fit a box.
#[inline(always)]
fn show_halves<E: Entry>(entries: &[E], fork: &E, halves: Halves, may_fit: bool, best: &mut Best) {
    if may_fit {
        show_within(entries, fork.left(), halves.low, best);
    }
    if best.may_gain_in(halves.high) {
        show_within(entries, fork.right(), halves.high, best);
    }
}

// A call of its own for each fork that is entered. The cell comes by its four sides, since a whole one would go through memory.
#[inline(never)]
fn show_below<E: Entry>(
    entries: &[E],
    fork: &E,
    best: &mut Best,
    left: u32,
    right: u32,
    top: u32,
    bottom: u32,
) {
    let cell = Cell {
        left,
        right,
        top,
        bottom,
    };
    if cell.is_cut_wide() {
        let halves = cell.halves(true);
        let may_fit = best.may_fit_by(halves.low, true);
        show_halves(entries, fork, halves, may_fit, best);
    } else {
        let halves = cell.halves(false);
        let may_fit = best.may_fit_by(halves.low, false);
        show_halves(entries, fork, halves, may_fit, best);
    }
}

// Shows the entries of a heap with this top and of sizes of a cell to a search, but for those that can't be the best.
#[inline(always)]
fn show_within<E: Entry>(entries: &[E], at: Link, cell: Cell, best: &mut Best) {
    if at.number as usize >= entries.len() {
        return;
    }
    let entry = &entries[at.number as usize];
    if show_entry(entry, at, best) {
        show_below(
            entries,
            entry,
            best,
            cell.left,
            cell.right,
            cell.top,
            cell.bottom,
        );
    }
}

// Shows a list that begins with this to a search.
#[inline(always)]
pub(crate) fn show_list<E: Entry>(entries: &[E], top: Link, best: &mut Best) {
    if top.number as usize >= entries.len() {
        return;
    }
    let entry = &entries[top.number as usize];
    if show_entry(entry, top, best) {
        let cell = Cell::around(exact_size(entry.rectangle()));
        let halves = cell.halves(cell.is_cut_wide());
        let may_fit = best.may_fit_in(halves.low);
        show_halves(entries, entry, halves, may_fit, best);
    }
}

// Shows a list of sizes that are larger than the request's, both sides, to a search. It may be enough to look at its first entry.
#[inline(always)]
pub(crate) fn show_larger<E: Entry>(entries: &[E], top: Link, best: &mut Best) {
    if top.number as usize >= entries.len() {
        return;
    }
    let entry = &entries[top.number as usize];
    let area = entry.rectangle();
    let corner = corner(area);
    if best.passes_larger(corner) {
        return;
    }
    best.look_larger(area, corner, top);
    if entry.is_fork() {
        let cell = Cell::around(exact_size(area));
        if best.ends_in(cell, corner) {
            return;
        }
        let halves = cell.halves(cell.is_cut_wide());
        let may_fit = best.may_fit_in(halves.low);
        show_halves(entries, entry, halves, may_fit, best);
    }
}
