// Erased from crates/atlas_cache/src/cache/holding.rt by rust/erase: don't edit.
//! Steps over the pages and the entries of a cache: what is live on the pages stays what the entries hold, each once.

use crate::atlas_cache::options::CacheOptions;
use crate::atlas_cache::places::{Place, NO_PIXELS};
use crate::atlas_cache::rooms::Rooms;
use crate::atlas_entries::entries::{Entries, Entry, NO_PAGE};
use crate::atlas_entries::error::CacheError;
use crate::guillotiere::{AllocId, Size};
use wollemigo_support::alloc::Allocator;
use wollemigo_support::hash::{BuildHasher, Hash};

/// The entry of a key with its number; None if there is none.
#[inline]
#[must_use]
pub fn look_up<K: Copy + Eq + Hash, S: BuildHasher, A: Allocator + Copy>(
    entries: &Entries<K, S, A>,
    key: &K,
) -> Option<(u32, Entry<K>)> {
    let number = entries.find(key)?;
    Some((number, entries.entry(number)))
}

/// The least recently used entry with its number; None if there is none.
#[inline]
#[must_use]
pub fn oldest<K: Copy + Eq + Hash, S: BuildHasher, A: Allocator + Copy>(
    entries: &Entries<K, S, A>,
) -> Option<(u32, Entry<K>)> {
    let number = entries.oldest()?;
    Some((number, entries.entry(number)))
}

/// The least recently used entry that lies on a page, with its number; None if none does. Each blank entry that was used
/// before it is passed once, and not again until it is used.
#[inline]
pub fn oldest_lying<K: Copy + Eq + Hash, S: BuildHasher, A: Allocator + Copy>(
    entries: &mut Entries<K, S, A>,
) -> Option<(u32, Entry<K>)> {
    let mut next = entries.unpassed();
    for _ in 0..entries.len() {
        let number = next?;
        let entry = entries.entry(number);
        if !entry.is_blank() {
            return Some((number, entry));
        }
        entries.pass(number);
        next = entries.newer(number);
    }
    None
}

/// The place of an entry.
#[inline]
#[must_use]
pub fn place_of<K: Copy>(entry: Entry<K>, options: &CacheOptions) -> Place {
    if entry.is_blank() {
        return Place::blank(entry.number);
    }
    Place::new(
        entry.number,
        entry.page,
        entry.rectangle,
        entry.size,
        options.padding,
    )
}

/// A new entry on the first page that has room for it, which is one of these, if any has; None if none has. After an error
/// no rectangle has moved.
#[inline]
pub fn grant<K: Copy + Eq + Hash, S: BuildHasher, A: Allocator + Copy>(
    rooms: &mut Rooms<A>,
    entries: &mut Entries<K, S, A>,
    key: K,
    size: Size,
    asked: Size,
    frame: u64,
    from: usize,
    to: usize,
) -> Result<Option<Entry<K>>, CacheError> {
    let (page, granted) = match rooms.place_among(from, to, asked)? {
        Some((page, granted)) => (page, granted),
        _ => {
            return Ok(None);
        }
    };
    let entry = Entry {
        key,
        size,
        page,
        id: granted.id,
        rectangle: granted.rectangle,
        number: 0,
        frame,
    };
    match entries.push(entry) {
        Ok(number) => Ok(Some(Entry { number, ..entry })),
        Err(error) => {
            rooms.free(page, granted.id);
            Err(error)
        }
    }
}

/// A new blank entry, the most recently used from now on. After an error nothing has changed.
#[inline]
pub fn join_blank<K: Copy + Eq + Hash, S: BuildHasher, A: Allocator + Copy>(
    entries: &mut Entries<K, S, A>,
    key: K,
    size: Size,
    frame: u64,
) -> Result<Entry<K>, CacheError> {
    let entry = Entry {
        key,
        size,
        page: NO_PAGE,
        id: AllocId::deserialize(0),
        rectangle: NO_PIXELS,
        number: 0,
        frame,
    };
    let number = entries.push(entry)?;
    Ok(Entry { number, ..entry })
}

/// An entry goes, and its rectangle is freed, if it lies on a page.
#[inline]
pub fn take_out<K: Copy + Eq + Hash, S: BuildHasher, A: Allocator + Copy>(
    rooms: &mut Rooms<A>,
    entries: &mut Entries<K, S, A>,
    number: u32,
    entry: Entry<K>,
) {
    entries.remove(number);
    if entry.page < rooms.len() {
        rooms.free(entry.page, entry.id);
    }
}
