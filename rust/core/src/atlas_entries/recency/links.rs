// Erased from crates/atlas_entries/src/recency/links.rt by rust/erase: don't edit.
//! A ring of links through entries, and the calls that change it.

/// The entries before and after an entry, by their numbers.
#[derive(Clone, Copy, Debug, PartialEq, Eq)]
pub struct Link {
    pub previous: u32,
    pub next: u32,
}

/// The number that stands for no entry.
pub const NO_ENTRY: u32 = 4294967295;

/// The link of an entry, or the ends of the order at `NO_ENTRY`.
#[inline]
#[must_use]
pub fn read_link(links: &[Link], ends: Link, at: u32) -> Link {
    if at == NO_ENTRY {
        ends
    } else {
        links[at as usize]
    }
}

// The link of an entry.
#[inline]
fn own_link(links: &[Link], at: u32) -> Link {
    links[at as usize]
}

// An entry has this link.
#[inline]
fn set_link(links: &mut [Link], at: u32, link: Link) {
    links[at as usize] = link;
}

/// `next` comes after `at`.
#[inline]
pub fn set_next(links: &mut [Link], ends: &mut Link, at: u32, next: u32) {
    if at == NO_ENTRY {
        ends.next = next;
    } else {
        let link = &mut links[at as usize];
        link.next = next;
    }
}

/// `previous` comes before `at`.
#[inline]
fn set_previous(links: &mut [Link], ends: &mut Link, at: u32, previous: u32) {
    if at == NO_ENTRY {
        ends.previous = previous;
    } else {
        let link = &mut links[at as usize];
        link.previous = previous;
    }
}

/// The neighbours of an entry are linked to each other instead of to it.
#[inline]
pub fn unlink(links: &mut [Link], ends: &mut Link, at: u32) {
    let own = own_link(links, at);
    set_next(links, ends, own.previous, own.next);
    set_previous(links, ends, own.next, own.previous);
}

/// An entry comes in front of all.
#[inline]
pub fn push_front(links: &mut [Link], ends: &mut Link, at: u32) {
    let first = ends.next;
    let own = Link {
        previous: NO_ENTRY,
        next: first,
    };
    set_link(links, at, own);
    set_next(links, ends, NO_ENTRY, at);
    set_previous(links, ends, first, at);
}
