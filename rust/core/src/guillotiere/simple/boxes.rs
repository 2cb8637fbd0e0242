// Erased from crates/guillotiere/src/simple/boxes.rt by rust/erase: don't edit.
//! The free boxes of the simple allocator, in the lists of a table.

use crate::atlas_model::{point2, AtlasError, Rectangle};
use crate::atlas_search::bands::Scale;
use crate::atlas_search::best::Found;
use crate::atlas_search::cut::exact_size;
use crate::atlas_search::heap::{self, Linked};
use crate::atlas_search::link::{Link, NO_SLOT, TAG};
use crate::atlas_search::search::Entry;
use crate::atlas_search::table::{Table, FEW};
use wollemigo_support::alloc::Allocator;
use wollemigo_support::prelude::Vec;

/// A free box, with its links in the heap of its list; or an unused entry, whose rectangle is empty, and the next one.
#[derive(Clone, Copy, Debug, PartialEq, Eq)]
pub struct FreeBox {
    pub area: Rectangle,
    /// What it hangs below; of an unused entry, the next one.
    pub up: Link,
    pub left: Link,
    pub right: Link,
    pub is_fork: bool,
}

impl Entry for FreeBox {
    #[inline]
    fn rectangle(&self) -> Rectangle {
        self.area
    }

    #[inline]
    fn up(&self) -> Link {
        self.up
    }

    #[inline]
    fn left(&self) -> Link {
        self.left
    }

    #[inline]
    fn right(&self) -> Link {
        self.right
    }

    #[inline]
    fn is_fork(&self) -> bool {
        self.is_fork
    }
}

impl Linked for FreeBox {
    #[inline]
    fn set_links(&mut self, up: Link, left: Link, right: Link) {
        self.up = up;
        self.left = left;
        self.right = right;
    }

    #[inline]
    fn set_fork(&mut self, is_fork: bool) {
        self.is_fork = is_fork;
    }
}

/// Free boxes, each in the list of its size, and entries that are unused; `used` counts the others. The table has room for the
/// entries that there is memory for (`room`).
pub struct FreeBoxes<A: Allocator> {
    pub entries: Vec<FreeBox, A>,
    pub unused: Link,
    pub used: u32,
    pub table: Table<A>,
}

/// The most entries: greater numbers are tags of lists, or none.
pub const MOST_BOXES: u32 = TAG;

impl FreeBox {
    // An unused entry before this one.
    #[inline]
    fn unused_box(next: Link) -> FreeBox {
        let corner = point2(0, 0);
        let none = Link { number: 0 };
        FreeBox {
            area: Rectangle {
                min: corner,
                max: corner,
            },
            up: next,
            left: none,
            right: none,
            is_fork: false,
        }
    }
}

impl<A: Allocator> FreeBoxes<A> {
    /// No box, and room for one. The only error is `Memory`.
    #[inline]
    pub fn new(alloc: A) -> Result<FreeBoxes<A>, AtlasError>
    where
        A: Copy,
    {
        let entries = Vec::with_capacity(alloc, 1)?;
        let table = Table::new(alloc);
        Ok(FreeBoxes {
            entries,
            unused: Link::NONE,
            used: 0,
            table,
        })
    }

    /// A copy, in new memory of the same allocator, with room for as many entries. The only error is `Memory`.
    #[inline]
    pub fn copy(&self) -> Result<FreeBoxes<A>, AtlasError>
    where
        A: Copy,
    {
        let room = self.entries.capacity();
        let mut entries = Vec::with_capacity(*self.entries.allocator(), room)?;
        for entry in &self.entries {
            entries.push_reserved(*entry);
        }
        let table = self.table.copy()?;
        Ok(FreeBoxes {
            entries,
            unused: self.unused,
            used: self.used,
            table,
        })
    }

    // Takes the first of the unused entries, or else a new one, for which there is room.
    #[inline]
    fn take(&mut self) -> Link {
        let at = self.unused;
        self.used += 1;
        if at.number == NO_SLOT {
            let number = self.entries.len() as u32;
            self.entries
                .push_reserved(FreeBox::unused_box(Link { number: 0 }));
            Link { number }
        } else {
            self.unused = self.entries[at.number as usize].up;
            at
        }
    }

    // Puts a box into the entry that is claimed, and that into the box's list.
    #[inline]
    fn put(&mut self, at: Link, area: Rectangle, options: &Scale) {
        let place = options.place_for(exact_size(area));
        let none = Link::NONE;
        self.entries[at.number as usize] = FreeBox {
            area,
            up: none,
            left: none,
            right: none,
            is_fork: false,
        };
        let top = heap::push(
            &mut self.entries,
            place.tag(),
            self.table.head(place),
            none,
            at,
        );
        self.table.raise(place, top);
    }

    /// Makes sure that n more entries can be used; nothing but the room changes. The only error is `Memory`, which comes only
    /// where that takes more entries than there is room for.
    #[inline]
    pub fn make_room(&mut self, n: u32) -> Result<(), AtlasError> {
        let all = self.used as usize + n as usize;
        let present = self.entries.len();
        if all > present {
            if all > MOST_BOXES as usize {
                return Err(AtlasError::Memory);
            }
            if all > self.entries.capacity() {
                if all > FEW {
                    self.table.grow()?;
                    self.entries.reserve(all - present)?;
                } else {
                    self.entries.reserve_exact(FEW - present)?;
                }
            }
        }
        Ok(())
    }

    /// Adds a box, for which there is room.
    #[inline]
    pub fn add(&mut self, area: Rectangle, options: &Scale) {
        let at = self.take();
        self.put(at, area, options);
    }

    /// Leaves only this box, in the room that there is. Takes no memory.
    #[inline]
    pub fn restart(&mut self, area: Rectangle, options: &Scale) {
        self.entries.clear();
        self.unused = Link::NONE;
        self.used = 0;
        self.table.clear();
        self.add(area, options);
    }

    // Takes a box out of its list.
    #[inline]
    fn unlist(&mut self, at: Link) {
        let up = self.entries[at.number as usize].up;
        let rest = heap::remove(&mut self.entries, at);
        if up.number >= TAG {
            self.table.set_first((up.number - TAG) as usize, rest);
        }
    }

    /// Takes a box out of its list; its entry is unused from then on.
    #[inline]
    pub fn remove(&mut self, found: Found) {
        self.unlist(found.at);
        self.entries[found.at.number as usize] = FreeBox::unused_box(self.unused);
        self.unused = found.at;
        self.used -= 1;
    }
}
