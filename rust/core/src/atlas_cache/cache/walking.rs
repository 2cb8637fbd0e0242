// Erased from crates/atlas_cache/src/cache/walking.rt by rust/erase: don't edit.
//! The keys of a cache in the order of their use.

use crate::atlas_cache::cache::holding::{look_up, oldest, place_of};
use crate::atlas_cache::cache::TextureCache;
use crate::atlas_cache::places::Place;
use crate::atlas_entries::entries::{Entries, Entry};
use wollemigo_support::alloc::Allocator;
use wollemigo_support::hash::{BuildHasher, Hash};

/// The most recently used entry with its number; None if there is none.
#[inline]
#[must_use]
pub fn newest<K: Copy + Eq + Hash, S: BuildHasher, A: Allocator + Copy>(
    entries: &Entries<K, S, A>,
) -> Option<(u32, Entry<K>)> {
    let number = entries.newest()?;
    Some((number, entries.entry(number)))
}

// The entry that was used next before another one, with its number; None if that is the least recently used.
#[inline]
fn older<K: Copy + Eq + Hash, S: BuildHasher, A: Allocator + Copy>(
    entries: &Entries<K, S, A>,
    number: u32,
) -> Option<(u32, Entry<K>)> {
    let next = entries.older(number)?;
    Some((next, entries.entry(next)))
}

impl<K: Copy + Eq + Hash, S: BuildHasher, A: Allocator + Copy> TextureCache<K, S, A> {
    /// The most recently used key, and its place; None if there is none. It doesn't count as a use.
    #[inline]
    #[must_use]
    pub fn newest(&self) -> Option<(K, Place)> {
        let entry = match newest(&self.entries) {
            Some((_, entry)) => entry,
            _ => {
                return None;
            }
        };
        Some((entry.key, place_of(entry, &self.rooms.options())))
    }

    /// The least recently used key, and its place; None if there is none. It doesn't count as a use.
    #[inline]
    #[must_use]
    pub fn oldest(&self) -> Option<(K, Place)> {
        let entry = match oldest(&self.entries) {
            Some((_, entry)) => entry,
            _ => {
                return None;
            }
        };
        Some((entry.key, place_of(entry, &self.rooms.options())))
    }

    /// The next less recently used key, and its place; None if this one is the least recently used, or isn't
    /// held. It doesn't count as a use. From `newest` on, this gives each key once, in the order of use, with one
    /// look-up each, where `iter` takes none.
    #[inline]
    #[must_use]
    pub fn older(&self, key: &K) -> Option<(K, Place)> {
        let number = match look_up(&self.entries, key) {
            Some((number, _)) => number,
            _ => {
                return None;
            }
        };
        let entry = match older(&self.entries, number) {
            Some((_, entry)) => entry,
            _ => {
                return None;
            }
        };
        Some((entry.key, place_of(entry, &self.rooms.options())))
    }
}
