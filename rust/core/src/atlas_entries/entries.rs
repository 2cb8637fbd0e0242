// Erased from crates/atlas_entries/src/entries.rt by rust/erase: don't edit.
//! Entries under their keys, in the order of their use: each call takes a few steps and at most one look-up by a hash,
//! however many entries there are.

mod copying;

use crate::atlas_entries::error::CacheError;
use crate::atlas_entries::recency::links::NO_ENTRY;
use crate::atlas_entries::recency::Recency;
use crate::atlas_model::{AllocId, Rectangle, Size};
use wollemigo_support::alloc::{Allocator, Global};
use wollemigo_support::collections::HashMap;
use wollemigo_support::hash::{BuildHasher, BuildHasherDefault, FoldHasher, Hash};
use wollemigo_support::prelude::Vec;

/// The hasher of `new`. Its seed is fixed: for keys that an attacker picks, give `with_hasher` a `RandomState`.
pub type DefaultHasher = BuildHasherDefault<FoldHasher>;

/// What a blank entry has for its page: the number that no page has.
pub const NO_PAGE: u32 = 4294967295;

/// What a cache holds under a key. A blank entry, that of a key with an empty size, lies on no page: its page is `NO_PAGE`,
/// and its id and its rectangle mean nothing.
#[derive(Clone, Copy, Debug, PartialEq, Eq)]
pub struct Entry<K> {
    pub key: K,
    /// What was asked for, without the padding, in pixels.
    pub size: Size,
    /// The page, counted from 0.
    pub page: u32,
    /// The id of its rectangle on that page.
    pub id: AllocId,
    /// Its rectangle on that page, with the padding, in pixels.
    pub rectangle: Rectangle,
    /// Its number.
    pub number: u32,
    /// The frame that used it last.
    pub frame: u64,
}

impl<K: Copy> Entry<K> {
    /// Whether it lies on no page.
    #[inline]
    #[must_use]
    pub fn is_blank(&self) -> bool {
        self.page == NO_PAGE
    }
}

/// Entries under their keys, in the order of their use. Each has a number; those of entries which are gone are given to
/// later ones before new numbers are. Contracts see a `Table`: the numbers with their entries, the most recently used
/// first, how many numbers were ever given out, and for how many more entries there is memory in reserve.
pub struct Entries<K: Copy + Eq + Hash, S: BuildHasher = DefaultHasher, A: Allocator = Global> {
    map: HashMap<K, u32, S, A>,
    recency: Recency<A>,
    items: Vec<Entry<K>, A>,
    // This entry and all that were used before it are blank; `NO_ENTRY`: it isn't known of any.
    mark: u32,
}

// An entry leaves its place in the order: where it is marked, the one that was used next before it is.
#[inline]
fn unmark<A: Allocator>(recency: &Recency<A>, mark: &mut u32, number: u32) {
    if number != *mark {
        return;
    }
    *mark = recency.older(number).unwrap_or(NO_ENTRY);
}

// Memory for one more behind all, if there are no more than so many.
#[inline]
fn make_room<K: Copy, A: Allocator>(
    items: &mut Vec<Entry<K>, A>,
    count: usize,
) -> Result<(), CacheError> {
    if count < items.len() {
        return Ok(());
    }
    items.reserve(1)?;
    Ok(())
}

// Puts an entry at a number: in the place of what stood there, or behind all.
#[inline]
fn store<K: Copy, A: Allocator>(items: &mut Vec<Entry<K>, A>, number: u32, entry: Entry<K>) {
    if (number as usize) < items.len() {
        items[number as usize] = entry;
        return;
    }
    let _pushed = items.push(entry);
}

// Gives a key a number.
#[inline]
fn bind<K: Copy + Eq + Hash, S: BuildHasher, A: Allocator + Copy>(
    map: &mut HashMap<K, u32, S, A>,
    key: K,
    number: u32,
) {
    let _inserted = map.insert(key, number);
}

impl<K: Copy + Eq + Hash, A: Allocator + Copy> Entries<K, DefaultHasher, A> {
    /// No entries. Takes no memory.
    #[inline]
    #[must_use]
    pub fn new(alloc: A) -> Self {
        Entries::with_hasher(alloc, BuildHasherDefault::new())
    }
}

impl<K: Copy + Eq + Hash, S: BuildHasher, A: Allocator + Copy> Entries<K, S, A> {
    /// No entries, with a hasher for the keys. Takes no memory.
    #[inline]
    #[must_use]
    pub fn with_hasher(alloc: A, hasher: S) -> Self {
        Entries {
            map: HashMap::with_hasher(alloc, hasher),
            recency: Recency::new(alloc),
            items: Vec::new(alloc),
            mark: NO_ENTRY,
        }
    }

    /// How many entries there are, at most 4,294,967,295.
    #[inline]
    #[must_use]
    pub fn len(&self) -> usize {
        self.recency.len()
    }

    /// Whether there are none.
    #[inline]
    #[must_use]
    pub fn is_empty(&self) -> bool {
        self.recency.is_empty()
    }

    /// The number of the entry with this key; None if there is none.
    #[inline]
    #[must_use]
    pub fn find(&self, key: &K) -> Option<u32> {
        self.map.get(key).copied()
    }

    /// The entry of a number.
    #[inline]
    #[must_use]
    pub fn entry(&self, number: u32) -> Entry<K> {
        self.items[number as usize]
    }

    /// The most recently used entry; None if there is none.
    #[inline]
    #[must_use]
    pub fn newest(&self) -> Option<u32> {
        self.recency.newest()
    }

    /// The least recently used entry; None if there is none.
    #[inline]
    #[must_use]
    pub fn oldest(&self) -> Option<u32> {
        self.recency.oldest()
    }

    /// The entry that was used next before this one; None if this is the least recently used.
    #[inline]
    #[must_use]
    pub fn older(&self, number: u32) -> Option<u32> {
        self.recency.older(number)
    }

    /// The entry that was used next after this one; None if this is the most recently used.
    #[inline]
    #[must_use]
    pub fn newer(&self, number: u32) -> Option<u32> {
        self.recency.newer(number)
    }

    /// The least recently used entry that wasn't passed; None if all were. All that were used before it are blank.
    #[inline]
    #[must_use]
    pub fn unpassed(&self) -> Option<u32> {
        if self.mark == NO_ENTRY {
            return self.recency.oldest();
        }
        self.recency.newer(self.mark)
    }

    /// An entry is passed, until it is used, and all that were used before it, until they are. Requires that they are blank.
    #[inline]
    pub fn pass(&mut self, number: u32) {
        self.mark = number;
    }

    /// An entry is used in this frame, and is the most recently used from now on.
    #[inline]
    pub fn touch(&mut self, number: u32, frame: u64) {
        unmark(&self.recency, &mut self.mark, number);
        self.recency.touch(number);
        let entry = &mut self.items[number as usize];
        entry.frame = frame;
    }

    /// Adds an entry with a new key, as the most recently used, and gives it a number, whatever number it had: one that no entry
    /// has, and the next new one only if all that were given out are in use. `Numbers` only if all are, and `Memory` if
    /// memory is refused, which is never asked for where entries are in reserve; then nothing changes.
    #[inline]
    pub fn push(&mut self, entry: Entry<K>) -> Result<u32, CacheError> {
        self.map.reserve(1)?;
        make_room(&mut self.items, self.recency.len())?;
        let number = self.recency.push()?;
        let entry = Entry { number, ..entry };
        store(&mut self.items, number, entry);
        bind(&mut self.map, entry.key, number);
        Ok(number)
    }

    /// An entry goes. Its number belongs to none from now on.
    #[inline]
    pub fn remove(&mut self, number: u32) {
        let key = self.items[number as usize].key;
        unmark(&self.recency, &mut self.mark, number);
        self.recency.remove(number);
        let _number = self.map.remove(&key);
    }

    /// Moves an entry to another rectangle, of its page or of another one. The order stays. Requires that it lies on a page before and
    /// after it, or neither.
    #[inline]
    pub fn move_to(&mut self, number: u32, page: u32, id: AllocId, rectangle: Rectangle) {
        let entry = &mut self.items[number as usize];
        entry.page = page;
        entry.id = id;
        entry.rectangle = rectangle;
    }

    /// How many numbers were ever given out, since the entries were made or cleared: each number is below.
    #[inline]
    #[must_use]
    pub fn made(&self) -> u32 {
        self.recency.made()
    }

    /// At least so many entries are in reserve from now on: none of the next ones that come is refused for memory. Nothing
    /// else changes, and nothing at all with `Memory`, if memory is refused.
    #[inline]
    pub fn reserve(&mut self, additional: usize) -> Result<(), CacheError> {
        self.map.reserve(additional)?;
        self.items.reserve(additional)?;
        self.recency.reserve(additional)?;
        Ok(())
    }

    /// All entries go. Keeps its memory: what the entries had is in reserve.
    #[inline]
    pub fn clear(&mut self) {
        self.map.clear();
        self.recency.clear();
        self.items.clear();
        self.mark = NO_ENTRY;
    }
}
