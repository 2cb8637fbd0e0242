// Erased from crates/atlas_cache/src/rooms/repacking.rt by rust/erase: don't edit.
//! A page's rectangles placed anew, and the areas of a page.

use crate::atlas_cache::rooms::asking::changed;
use crate::atlas_cache::rooms::usable::{extent, pixels_of};
use crate::atlas_cache::rooms::{refusal, Rooms};
use crate::atlas_entries::error::CacheError;
use crate::guillotiere::{
    AllocId, Allocation, AtlasAllocator, Change, ChangeList, Rectangle, Size,
};
use core::cmp::Reverse;
use wollemigo_support::alloc::Allocator;
use wollemigo_support::prelude::Vec;

// How many pixels a rectangle has. A coordinate below 0 counts as 0.
#[inline]
pub(crate) fn area_of(rectangle: Rectangle) -> u64 {
    extent(rectangle.min.x, rectangle.max.x) * extent(rectangle.min.y, rectangle.max.y)
}

// How many pixels the rectangle of a live id has.
#[inline]
pub(crate) fn area_on<A: Allocator + Copy>(page: &AtlasAllocator<A>, id: AllocId) -> u64 {
    match page.get(id) {
        Some(rectangle) => area_of(rectangle),
        None => 0,
    }
}

// Puts rectangles into the order in which they are placed: the largest first. Those of one area keep their order.
#[inline]
fn sort_by_area<A: Allocator>(held: &mut Vec<Allocation, A>) -> Result<(), CacheError> {
    held.sort_by_key(|held| Reverse(area_of(held.rectangle)))?;
    Ok(())
}

// The size of a rectangle.
#[inline]
pub(crate) fn size_of_box(rectangle: Rectangle) -> Size {
    rectangle.size()
}

// Asks an atlas for a rectangle of the same sides.
#[inline]
fn request<A: Allocator + Copy>(
    atlas: &mut AtlasAllocator<A>,
    rectangle: Rectangle,
) -> Result<Option<Allocation>, CacheError> {
    match atlas.allocate(size_of_box(rectangle)) {
        Ok(granted) => Ok(granted),
        Err(error) => Err(refusal(error)),
    }
}

// Places rectangles in an atlas, in this order: what was granted, and what found no room, in the room of the order.
#[inline]
fn place_all<A: Allocator + Copy>(
    atlas: &mut AtlasAllocator<A>,
    order: Vec<Allocation, A>,
) -> Result<ChangeList<A>, CacheError> {
    let mut failures = order;
    let mut changes = Vec::new(*failures.allocator());
    let mut failed = 0;
    for at in 0..failures.len() {
        let old = failures[at];
        match request(atlas, old.rectangle)? {
            Some(new) => changes.push(Change { old, new })?,
            None => {
                failures[failed] = old;
                failed += 1;
            }
        }
    }
    failures.truncate(failed);
    Ok(ChangeList { changes, failures })
}

impl<A: Allocator + Copy> Rooms<A> {
    /// Places rectangles in an empty page of the size of this one, which becomes this page: the largest first, and
    /// those of one area in the order of the list. Requires that there is such a page, and rectangles with the coordinates
    /// of boxes. If the list names what is live on the page, each once, then the answer lists each rectangle of the
    /// page once: those that were placed anew, with their former and their new ids, and those that found no room when
    /// their turn came, whose ids are no longer live. All former ids of the page are void. Other pages stay as they
    /// are. None, and then nothing changes, exactly if `whole` is asked for and one would find no room. `Slots` if the page has too few
    /// of them, which takes more than 4,194,303 rectangles, `Memory` if memory is refused; then nothing changes.
    #[inline]
    pub fn repack(
        &mut self,
        page: u32,
        held: Vec<Allocation, A>,
        whole: bool,
    ) -> Result<Option<ChangeList<A>>, CacheError> {
        let mut order = held;
        sort_by_area(&mut order)?;
        let page = page as usize;
        let alloc = *self.pages.allocator();
        let size = self.pages[page].size();
        let mut placed = match AtlasAllocator::with_options(alloc, size, &self.options.atlas) {
            Ok(placed) => placed,
            _ => {
                return Err(CacheError::Memory);
            }
        };
        let list = place_all(&mut placed, order)?;
        if whole && !list.failures.is_empty() {
            return Ok(None);
        }
        self.known[page] = changed(placed.allocated_area());
        self.pages[page] = placed;
        Ok(Some(list))
    }

    /// The area of all live rectangles of a page together, in unit squares. Requires that there is such a page. Takes no
    /// memory, and no walk.
    #[inline]
    #[must_use]
    pub fn live_area(&self, page: u32) -> u64 {
        self.known[page as usize].live
    }

    /// The area of all free rectangles of a page together, in unit squares. Requires that there is such a page. Takes no
    /// memory, and no walk.
    #[inline]
    #[must_use]
    pub fn free_area(&self, page: u32) -> u64 {
        let atlas = &self.pages[page as usize];
        pixels_of(atlas.size()) - self.known[page as usize].live
    }

    /// Whether some page has as much free area as a request of this size has, in however many parts. A step for each page until then.
    #[inline]
    pub(crate) fn have_area(&self, asked: Size) -> bool {
        let pixels = pixels_of(asked);
        for page in 0..self.len() {
            if pixels <= self.free_area(page) {
                return true;
            }
        }
        false
    }
}
