// Erased from crates/atlas_cache/src/cache/vacating.rt by rust/erase: don't edit.
//! Room for a request by the eviction of what lies in one box of a page.

use crate::atlas_cache::cache::holding::{oldest_lying, place_of, take_out};
use crate::atlas_cache::cache::TextureCache;
use crate::atlas_cache::changes::{CacheChange, Changes};
use crate::atlas_cache::counts::{count, Counts};
use crate::atlas_cache::rooms::Rooms;
use crate::atlas_entries::entries::{Entries, Entry};
use crate::atlas_entries::error::CacheError;
use crate::guillotiere::{Rectangle, Size};
use wollemigo_support::alloc::{AllocError, Allocator};
use wollemigo_support::hash::{BuildHasher, Hash};
use wollemigo_support::prelude::Vec;

// Shows an entry as gone, if it lies on a page, with those that are shown already: the box that would come free, if the request fits it.
#[inline]
fn show<K: Copy, A: Allocator + Copy>(
    rooms: &Rooms<A>,
    marks: &mut Vec<Vec<bool, A>, A>,
    asked: Size,
    entry: Entry<K>,
) -> Option<Rectangle> {
    if entry.is_blank() {
        return None;
    }
    rooms.rehearse(entry.page, &mut marks[entry.page as usize], entry.id, asked)
}

// A box of a page that would be free, were so many of the least recently used entries gone.
#[derive(Clone, Copy)]
struct Vacancy {
    page: u32,
    area: Rectangle,
    count: usize,
}

// As if the entries went in the order of use that a frame didn't use: the first box that comes free and that a request fits; None if even
// then no page has room.
#[inline]
fn first_vacancy<K: Copy + Eq + Hash, S: BuildHasher, A: Allocator + Copy>(
    rooms: &Rooms<A>,
    entries: &Entries<K, S, A>,
    marks: &mut Vec<Vec<bool, A>, A>,
    frame: u64,
    asked: Size,
) -> Option<Vacancy> {
    let mut next = entries.oldest();
    for looked in 0..entries.len() {
        let number = next?;
        let entry = entries.entry(number);
        if entry.frame == frame {
            return None;
        }
        if let Some(area) = show(rooms, marks, asked, entry) {
            return Some(Vacancy {
                page: entry.page,
                area,
                count: looked + 1,
            });
        }
        next = entries.newer(number);
    }
    None
}

// What `first_vacancy` finds, where nothing was shown before. An error is a refusal of memory for marks of slots.
#[inline]
fn find_vacancy<K: Copy + Eq + Hash, S: BuildHasher, A: Allocator + Copy>(
    rooms: &Rooms<A>,
    entries: &Entries<K, S, A>,
    marks: &mut Vec<Vec<bool, A>, A>,
    frame: u64,
    asked: Size,
) -> Result<Option<Vacancy>, AllocError> {
    rooms.show_none_on_all(marks)?;
    Ok(first_vacancy(rooms, entries, marks, frame, asked))
}

// Whether one coordinate is no greater than another, where those below 0 count as 0.
#[inline]
fn is_no_greater(a: i32, b: i32) -> bool {
    a <= 0 || a <= b
}

// Whether an entry lies on a page inside a box.
#[inline]
fn lies_in<K: Copy>(entry: &Entry<K>, page: u32, area: &Rectangle) -> bool {
    let outer = *area;
    let inner = entry.rectangle;
    if entry.page != page {
        return false;
    }
    if !is_no_greater(outer.min.x, inner.min.x) || !is_no_greater(outer.min.y, inner.min.y) {
        return false;
    }
    is_no_greater(inner.max.x, outer.max.x) && is_no_greater(inner.max.y, outer.max.y)
}

// How many of so many of the least recently used entries lie on a page inside a box.
#[inline]
fn inside<K: Copy + Eq + Hash, S: BuildHasher, A: Allocator + Copy>(
    entries: &Entries<K, S, A>,
    count: usize,
    page: u32,
    area: &Rectangle,
) -> usize {
    let mut next = entries.oldest();
    let mut found = 0;
    for looked in 0..count {
        let number = match next {
            Some(number) => number,
            _ => {
                return found;
            }
        };
        let entry = entries.entry(number);
        if lies_in(&entry, page, area) {
            found += 1;
        }
        next = entries.newer(number);
    }
    found
}

// An entry goes, and the change that says so is listed, if it lies on a page inside a box; whether it did.
#[inline]
fn clear_one<K: Copy + Eq + Hash, S: BuildHasher, A: Allocator + Copy>(
    rooms: &mut Rooms<A>,
    entries: &mut Entries<K, S, A>,
    counts: &mut Counts,
    number: u32,
    vacancy: &Vacancy,
    changes: &mut Changes<K, A>,
) {
    let entry = entries.entry(number);
    if !lies_in(&entry, vacancy.page, &vacancy.area) {
        return;
    }
    let place = place_of(entry, &rooms.options());
    take_out(rooms, entries, number, entry);
    counts.evictions = count(counts.evictions);
    let key = entry.key;
    changes.push_reserved(CacheChange::Evicted { key, place });
}

// Of so many of the least recently used entries those go that lie on a page inside a box.
#[inline]
fn clear<K: Copy + Eq + Hash, S: BuildHasher, A: Allocator + Copy>(
    rooms: &mut Rooms<A>,
    entries: &mut Entries<K, S, A>,
    counts: &mut Counts,
    frame: u64,
    vacancy: &Vacancy,
    changes: &mut Changes<K, A>,
) {
    let mut next = entries.oldest();
    for looked in 0..vacancy.count {
        let number = match next {
            Some(number) => number,
            _ => {
                return;
            }
        };
        next = entries.newer(number);
        clear_one(rooms, entries, counts, number, vacancy, changes);
    }
}

/// What a rehearsal comes to.
#[derive(Clone, Copy)]
pub enum Vacated {
    /// There is room on this page now.
    Room(u32),
    /// There would be room on no page.
    Crowded,
    /// Memory for marks was refused.
    Unmarked,
}

impl<K: Copy + Eq + Hash, S: BuildHasher, A: Allocator + Copy> TextureCache<K, S, A> {
    /// As if entries that this frame didn't use went in the order of use until a request had room on a page: of these those go that lie
    /// in the box that it fits. `Memory`, before anything changes, if room for their changes is refused.
    #[inline]
    pub(crate) fn vacate(
        &mut self,
        asked: Size,
        changes: &mut Changes<K, A>,
    ) -> Result<Vacated, CacheError> {
        let oldest = match oldest_lying(&mut self.entries) {
            Some((_, oldest)) => oldest,
            _ => {
                return Ok(Vacated::Crowded);
            }
        };
        if oldest.frame == self.frame {
            return Ok(Vacated::Crowded);
        }
        let found = find_vacancy(
            &self.rooms,
            &self.entries,
            &mut self.marks,
            self.frame,
            asked,
        );
        let found = match found {
            Ok(found) => found,
            _ => {
                return Ok(Vacated::Unmarked);
            }
        };
        let vacancy = match found {
            Some(vacancy) => vacancy,
            _ => {
                return Ok(Vacated::Crowded);
            }
        };
        changes.reserve(inside(
            &self.entries,
            vacancy.count,
            vacancy.page,
            &vacancy.area,
        ))?;
        clear(
            &mut self.rooms,
            &mut self.entries,
            &mut self.counts,
            self.frame,
            &vacancy,
            changes,
        );
        Ok(Vacated::Room(vacancy.page))
    }
}
