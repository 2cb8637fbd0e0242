// Erased from crates/atlas_search/src/heap/sorting.rt by rust/erase: don't edit.
//! An entry joins a heap of several sizes: it is sorted in by its own.

use crate::atlas_search::cells::Cell;
use crate::atlas_search::heap::{
    close, corner_at, hang, is_alike, is_fork, links_at, meld, move_below, put, relink, size_at,
    Linked,
};
use crate::atlas_search::link::{Link, NO_SLOT};
use crate::atlas_search::search::Entry;

// The top of a heap becomes a fork, if it is none: what hangs below it, melded, hangs in the half of its own size.
#[inline(always)]
fn make_fork<E: Linked>(entries: &mut [E], cell: Cell, top: Link) {
    if is_fork(entries, top) {
        return;
    }
    let none = Link::NONE;
    let up = links_at(entries, top).up;
    let size = size_at(entries, top);
    let rest = close(entries, top, top);
    if cell.half_of(size).is_low {
        put(entries, top, up, rest, none, true);
    } else {
        put(entries, top, up, none, rest, true);
    }
}

// An entry takes the place of a heap's top, which doesn't come before it, and hangs below `up`. That top goes on below it in the same way,
// in the half of its own size. The cell comes by its four sides, since a whole one would go through memory.
#[inline(never)]
fn sink<E: Linked>(
    entries: &mut [E],
    up: Link,
    below: Link,
    at: Link,
    left: u32,
    right: u32,
    top: u32,
    bottom: u32,
) {
    let none = Link::NONE;
    if below.number == NO_SLOT {
        put(entries, at, up, none, none, false);
        return;
    }
    if is_alike(entries, below, at) {
        put(entries, at, up, none, none, false);
        hang(entries, at, below);
        return;
    }
    let cell = Cell {
        left,
        right,
        top,
        bottom,
    };
    make_fork(entries, cell, below);
    let links = links_at(entries, below);
    let half = cell.half_of(size_at(entries, below));
    if half.is_low {
        put(entries, at, up, below, links.right, true);
        move_below(entries, links.right, at);
        sink(
            entries,
            at,
            links.left,
            below,
            half.cell.left,
            half.cell.right,
            half.cell.top,
            half.cell.bottom,
        );
    } else {
        put(entries, at, up, links.left, below, true);
        move_below(entries, links.left, at);
        sink(
            entries,
            at,
            links.right,
            below,
            half.cell.left,
            half.cell.right,
            half.cell.top,
            half.cell.bottom,
        );
    }
}

// Whether an entry, if there is one, is a fork and doesn't come after another one.
#[inline(always)]
pub(crate) fn is_fork_before<E: Entry>(entries: &[E], top: Link, at: Link) -> bool {
    if top.number == NO_SLOT {
        return false;
    }
    if !is_fork(entries, top) {
        return false;
    }
    corner_at(entries, top) <= corner_at(entries, at)
}

// An entry joins a heap by its size, whose top hangs below `up`. Answers the top.
#[inline]
pub(crate) fn sort_in<E: Linked>(
    entries: &mut [E],
    cell: Cell,
    up: Link,
    top: Link,
    at: Link,
) -> Link {
    let none = Link::NONE;
    if top.number == NO_SLOT {
        put(entries, at, up, none, none, false);
        return at;
    }
    if is_alike(entries, top, at) {
        put(entries, at, up, none, none, false);
        return meld(entries, top, at, up);
    }
    if corner_at(entries, at) < corner_at(entries, top) {
        sink(
            entries,
            up,
            top,
            at,
            cell.left,
            cell.right,
            cell.top,
            cell.bottom,
        );
        return at;
    }
    make_fork(entries, cell, top);
    sort_below(
        entries,
        top,
        at,
        cell.left,
        cell.right,
        cell.top,
        cell.bottom,
    );
    top
}

// An entry joins what hangs below a fork that doesn't come after it, by its size: it goes on as long as it meets such forks, which stay
// where they are. The cell comes by its four sides, since a whole one would go through memory.
#[inline(never)]
pub(crate) fn sort_below<E: Linked>(
    entries: &mut [E],
    above: Link,
    at: Link,
    left: u32,
    right: u32,
    top: u32,
    bottom: u32,
) {
    let cell = Cell {
        left,
        right,
        top,
        bottom,
    };
    let links = links_at(entries, above);
    let half = cell.half_of(size_at(entries, at));
    let next = if half.is_low { links.left } else { links.right };
    if is_fork_before(entries, next, at) {
        sort_below(
            entries,
            next,
            at,
            half.cell.left,
            half.cell.right,
            half.cell.top,
            half.cell.bottom,
        );
        return;
    }
    let side = sort_in(entries, half.cell, above, next, at);
    if half.is_low {
        relink(entries, above, links.up, side, links.right);
    } else {
        relink(entries, above, links.up, links.left, side);
    }
}
