// Erased from crates/atlas_entries/src/recency.rt by rust/erase: don't edit.
//! Entries in the order of their use, by links between them: each call takes a few steps, however many entries there
//! are.

pub mod links;

use crate::atlas_entries::error::CacheError;
use crate::atlas_entries::recency::links::{
    push_front, read_link, set_next, unlink, Link, NO_ENTRY,
};
use wollemigo_support::alloc::{AllocError, Allocator, Global};
use wollemigo_support::prelude::Vec;

/// The numbers of entries in the order of their use. The number of an entry that is gone is given to a later one.
/// Contracts see an `Order`: the numbers, the most recently used first, how many were ever given out, and for how many more
/// entries there is memory in reserve.
pub struct Recency<A: Allocator = Global> {
    links: Vec<Link, A>,
    ends: Link,
    unused: u32,
    count: usize,
    reserved: usize,
}

// The ends of an order with no entry.
const NO_ENDS: Link = Link {
    previous: NO_ENTRY,
    next: NO_ENTRY,
};

// An entry comes from where it stands to the front.
#[inline]
fn move_to_front(links: &mut [Link], ends: &mut Link, at: u32) {
    unlink(links, ends, at);
    push_front(links, ends, at);
}

// An entry leaves the ring, and then stands before the numbers that belong to none.
#[inline]
fn give_back(links: &mut [Link], ends: &mut Link, at: u32, unused: u32) {
    unlink(links, ends, at);
    set_next(links, ends, at, unused);
}

// Takes a number that belongs to no entry, or else makes one.
#[inline]
fn take_number<A: Allocator>(
    links: &mut Vec<Link, A>,
    unused: &mut u32,
) -> Result<u32, CacheError> {
    let number = *unused;
    if number != NO_ENTRY {
        *unused = links[number as usize].next;
        return Ok(number);
    }
    if links.len() == NO_ENTRY as usize {
        return Err(CacheError::Numbers);
    }
    let number = links.len() as u32;
    links.push(NO_ENDS)?;
    Ok(number)
}

impl<A: Allocator> Recency<A> {
    /// No entries. Takes no memory.
    #[inline]
    #[must_use]
    pub fn new(alloc: A) -> Self {
        Recency {
            links: Vec::new(alloc),
            ends: NO_ENDS,
            unused: NO_ENTRY,
            count: 0,
            reserved: 0,
        }
    }

    /// A copy, in new memory of the same allocator: the same numbers in the same order. None are in reserve.
    #[inline]
    pub fn copy(&self) -> Result<Self, AllocError>
    where
        A: Copy,
    {
        let links = Vec::from_slice(*self.links.allocator(), &self.links)?;
        Ok(Recency {
            links,
            ends: self.ends,
            unused: self.unused,
            count: self.count,
            reserved: 0,
        })
    }

    /// How many entries there are, at most 4,294,967,295.
    #[inline]
    #[must_use]
    pub fn len(&self) -> usize {
        self.count
    }

    /// Whether there are none.
    #[inline]
    #[must_use]
    pub fn is_empty(&self) -> bool {
        self.count == 0
    }

    /// The most recently used entry; None if there is none.
    #[inline]
    #[must_use]
    pub fn newest(&self) -> Option<u32> {
        let ends = self.ends;
        if ends.next == NO_ENTRY {
            return None;
        }
        Some(ends.next)
    }

    /// The least recently used entry; None if there is none.
    #[inline]
    #[must_use]
    pub fn oldest(&self) -> Option<u32> {
        let ends = self.ends;
        if ends.previous == NO_ENTRY {
            return None;
        }
        Some(ends.previous)
    }

    /// The entry that was used next before this one; None if this is the least recently used.
    #[inline]
    #[must_use]
    pub fn older(&self, number: u32) -> Option<u32> {
        let own = read_link(&self.links, self.ends, number);
        if own.next == NO_ENTRY {
            return None;
        }
        Some(own.next)
    }

    /// The entry that was used next after this one; None if this is the most recently used.
    #[inline]
    #[must_use]
    pub fn newer(&self, number: u32) -> Option<u32> {
        let own = read_link(&self.links, self.ends, number);
        if own.previous == NO_ENTRY {
            return None;
        }
        Some(own.previous)
    }

    /// Adds an entry, as the most recently used, and gives its number: one that was given out before and belongs to no
    /// entry, or, if all of those are in use, the next one. `Numbers` only if all are in use, and `Memory` if memory is
    /// refused, which is never asked for where entries are in reserve; then nothing changes.
    #[inline]
    pub fn push(&mut self) -> Result<u32, CacheError> {
        let number = take_number(&mut self.links, &mut self.unused)?;
        push_front(&mut self.links, &mut self.ends, number);
        self.count += 1;
        self.reserved = self.reserved.saturating_sub(1);
        Ok(number)
    }

    /// An entry is the most recently used from now on.
    #[inline]
    pub fn touch(&mut self, number: u32) {
        move_to_front(&mut self.links, &mut self.ends, number);
    }

    /// An entry goes. Its number belongs to none from now on.
    #[inline]
    pub fn remove(&mut self, number: u32) {
        give_back(&mut self.links, &mut self.ends, number, self.unused);
        self.unused = number;
        self.count -= 1;
    }

    /// How many numbers were ever given out, since the order was made or cleared: each number is below.
    #[inline]
    #[must_use]
    pub fn made(&self) -> u32 {
        self.links.len() as u32
    }

    /// At least so many entries are in reserve from now on: none of the next ones that come is refused for memory. Nothing
    /// else changes, and nothing at all with `Memory`, if memory is refused.
    #[inline]
    pub fn reserve(&mut self, additional: usize) -> Result<(), CacheError> {
        self.links.reserve(additional)?;
        self.reserved = self.reserved.max(additional);
        Ok(())
    }

    /// All entries go, and the numbers begin again at 0. Keeps its memory: what the entries had is in reserve.
    #[inline]
    pub fn clear(&mut self) {
        self.links.clear();
        self.ends = NO_ENDS;
        self.unused = NO_ENTRY;
        self.reserved += self.count;
        self.count = 0;
    }
}
