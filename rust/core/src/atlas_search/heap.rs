// Erased from crates/atlas_search/src/heap.rt by rust/erase: don't edit.
//! Lists of free boxes: each is a tree by links inside the entries, and no entry comes before the one that it hangs below.

use crate::atlas_model::Size;
use crate::atlas_search::best::corner;
use crate::atlas_search::cells::Cell;
use crate::atlas_search::cut::exact_size;
use crate::atlas_search::link::{Link, NO_SLOT};
use crate::atlas_search::search::Entry;
use leaving::leave;
use sorting::{is_fork_before, sort_below, sort_in};

mod leaving;
mod sorting;

/// An entry whose links can be written.
pub trait Linked: Entry {
    /// Hangs the entry below `up`, with these below it. All else of it stays.
    fn set_links(&mut self, up: Link, left: Link, right: Link);

    /// Whether what hangs below it is divided by size, from now on. All else of it stays.
    fn set_fork(&mut self, is_fork: bool);
}

// What an entry hangs below, and what hangs below it.
#[derive(Clone, Copy)]
struct Links {
    up: Link,
    left: Link,
    right: Link,
}

#[inline(always)]
fn links_at<E: Entry>(entries: &[E], at: Link) -> Links {
    let entry = &entries[at.number as usize];
    Links {
        up: entry.up(),
        left: entry.left(),
        right: entry.right(),
    }
}

// The `min` of an entry's rectangle as one number.
#[inline(always)]
fn corner_at<E: Entry>(entries: &[E], at: Link) -> u64 {
    corner(entries[at.number as usize].rectangle())
}

// Writes the three links of an entry.
#[inline(always)]
fn relink<E: Linked>(entries: &mut [E], at: Link, up: Link, left: Link, right: Link) {
    entries[at.number as usize].set_links(up, left, right);
}

// An entry hangs below another one, or a tag.
#[inline(always)]
fn set_up<E: Linked>(entries: &mut [E], at: Link, up: Link) {
    let links = links_at(entries, at);
    relink(entries, at, up, links.left, links.right);
}

// Hangs an entry, with all below it, to the left below another one. What was there hangs to the right then.
#[inline(always)]
fn hang_left<E: Linked>(entries: &mut [E], above: Link, less: Link) {
    let links = links_at(entries, above);
    relink(entries, above, links.up, less, links.left);
    set_up(entries, less, above);
}

// What hangs on the right below an entry hangs on the left then, and the other way round.
#[inline(always)]
fn swap_below<E: Linked>(entries: &mut [E], above: Link) {
    let links = links_at(entries, above);
    relink(entries, above, links.up, links.right, links.left);
}

// Hangs a heap below the top of another one that comes before it. On the way down the right each passed entry's left goes
// right, and the next one left.
#[inline]
fn hang<E: Linked>(entries: &mut [E], top: Link, part: Link) {
    let mut above = top;
    let mut rest = part;
    let mut rest_corner = corner_at(entries, rest);
    loop {
        let next = links_at(entries, above).right;
        if next.number == NO_SLOT {
            hang_left(entries, above, rest);
            return;
        }
        let next_corner = corner_at(entries, next);
        if rest_corner < next_corner {
            hang_left(entries, above, rest);
            above = rest;
            rest = next;
            rest_corner = next_corner;
        } else {
            swap_below(entries, above);
            above = next;
        }
    }
}

// Two heaps as one, whose top hangs below `up`. Answers the top.
#[inline(never)]
fn meld<E: Linked>(entries: &mut [E], one: Link, other: Link, up: Link) -> Link {
    if corner_at(entries, other) < corner_at(entries, one) {
        set_up(entries, other, up);
        hang(entries, other, one);
        return other;
    }
    set_up(entries, one, up);
    hang(entries, one, other);
    one
}

// Writes the three links of an entry, and whether it is a fork.
#[inline(always)]
fn put<E: Linked>(entries: &mut [E], at: Link, up: Link, left: Link, right: Link, is_fork: bool) {
    let entry = &mut entries[at.number as usize];
    entry.set_links(up, left, right);
    entry.set_fork(is_fork);
}

// An entry, if it is one, hangs below another one, or a tag.
#[inline(always)]
fn move_below<E: Linked>(entries: &mut [E], at: Link, up: Link) {
    if at.number != NO_SLOT {
        set_up(entries, at, up);
    }
}

// The size of an entry's rectangle.
#[inline(always)]
fn size_at<E: Entry>(entries: &[E], at: Link) -> Size {
    exact_size(entries[at.number as usize].rectangle())
}

#[inline(always)]
fn is_fork<E: Entry>(entries: &[E], at: Link) -> bool {
    entries[at.number as usize].is_fork()
}

// Whether an entry is no fork and has the size of another one.
#[inline(always)]
fn is_alike<E: Entry>(entries: &[E], top: Link, at: Link) -> bool {
    if is_fork(entries, top) {
        return false;
    }
    let one = size_at(entries, top);
    let other = size_at(entries, at);
    one.width == other.width && one.height == other.height
}

// What hangs below an entry that is no fork becomes one heap, which hangs below `up`. Answers its top, or none.
#[inline(always)]
fn close<E: Linked>(entries: &mut [E], at: Link, up: Link) -> Link {
    let links = links_at(entries, at);
    if links.left.number == NO_SLOT {
        if links.right.number != NO_SLOT {
            set_up(entries, links.right, up);
        }
        return links.right;
    }
    if links.right.number == NO_SLOT {
        set_up(entries, links.left, up);
        return links.left;
    }
    meld(entries, links.left, links.right, up)
}

// Whether an entry, if there is one, has nothing on its left, comes before another one, and is alike.
#[inline(always)]
fn is_place<E: Entry>(entries: &[E], near: Link, at: Link) -> bool {
    if near.number == NO_SLOT || links_at(entries, near).left.number != NO_SLOT {
        return false;
    }
    if !is_alike(entries, near, at) {
        return false;
    }
    corner_at(entries, near) < corner_at(entries, at)
}

/// An entry joins the heap with this top, which hangs below `tag`. `near` is none, or an entry of the heap, below which it
/// goes if it can. Answers the top.
#[inline(always)]
pub fn push<E: Linked>(entries: &mut [E], tag: Link, top: Link, near: Link, at: Link) -> Link {
    let none = Link::NONE;
    let size = size_at(entries, at);
    if top.number == NO_SLOT {
        put(entries, at, tag, none, none, false);
        return at;
    }
    if is_place(entries, near, at) {
        put(entries, at, near, none, none, false);
        let links = links_at(entries, near);
        relink(entries, near, links.up, at, links.right);
        return top;
    }
    if is_alike(entries, top, at) {
        put(entries, at, tag, none, none, false);
        return meld(entries, top, at, tag);
    }
    let cell = Cell::around(size);
    if is_fork_before(entries, top, at) {
        sort_below(
            entries,
            top,
            at,
            cell.left,
            cell.right,
            cell.top,
            cell.bottom,
        );
        return top;
    }
    sort_in(entries, cell, tag, top, at)
}

/// An entry leaves its heap. Answers the top of what was below it, which took its place. A tag above the heap's top isn't
/// the number of an entry.
#[inline(always)]
pub fn remove<E: Linked>(entries: &mut [E], at: Link) -> Link {
    let up = links_at(entries, at).up;
    let rest = leave(entries, at, up);
    if up.number as usize >= entries.len() {
        return rest;
    }
    let links = links_at(entries, up);
    if links.left.number == at.number {
        relink(entries, up, links.up, rest, links.right);
    } else {
        relink(entries, up, links.up, links.left, rest);
    }
    rest
}
