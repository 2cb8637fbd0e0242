// Erased from crates/atlas_cache/src/rooms.rt by rust/erase: don't edit.
//! The pages of a cache, each an atlas: small steps, of which none evicts.

mod asking;
mod copying;
mod rehearsing;
pub mod repacking;
mod reserving;
mod usable;

use crate::atlas_cache::options::CacheOptions;
use crate::atlas_cache::rooms::asking::{ask, changed, Known};
use crate::atlas_cache::rooms::repacking::area_on;
use crate::atlas_entries::error::CacheError;
use wollemigo_support::prelude::Vec;

use crate::guillotiere::{AllocId, Allocation, AtlasAllocator, AtlasError, Size};
use wollemigo_support::alloc::{Allocator, Global};

/// The atlases of the pages of a cache. Contracts see a `RoomsState`: the options, and what each atlas stores.
pub struct Rooms<A: Allocator + Copy = Global> {
    pages: Vec<AtlasAllocator<A>, A>,
    // For each page two sizes that it has no room for, those that it refused last, as long as it doesn't change; and the area of what is
    // live on it.
    known: Vec<Known, A>,
    options: CacheOptions,
}

// Why a cache refuses what an atlas refused.
#[inline]
fn refusal(error: AtlasError) -> CacheError {
    match error {
        AtlasError::Slots => CacheError::Slots,
        _ => CacheError::Memory,
    }
}

// A page's number, or how many pages there are, as a `u32`.
#[inline]
fn number(page: usize, most: u32) -> u32 {
    page as u32
}

// Whether a page is at its largest.
#[inline]
fn is_largest(size: Size, largest: Size) -> bool {
    size == largest
}

// The first page that isn't at its largest, and its size.
#[inline]
fn first_to_grow<A: Allocator + Copy>(
    pages: &[AtlasAllocator<A>],
    largest: Size,
) -> Option<(usize, Size)> {
    for page in 0..pages.len() {
        let size = pages[page].size();
        if !is_largest(size, largest) {
            return Some((page, size));
        }
    }
    None
}

// Twice a side, up to the largest.
#[inline]
fn doubled(side: i32, most: i32) -> i32 {
    if side >= most - side {
        most
    } else {
        side + side
    }
}

// The size that a page grows to.
#[inline]
fn grown(size: Size, largest: Size) -> Size {
    if size.width < largest.width && (size.width <= size.height || size.height >= largest.height) {
        Size {
            width: doubled(size.width, largest.width),
            height: size.height,
        }
    } else {
        Size {
            width: size.width,
            height: doubled(size.height, largest.height),
        }
    }
}

impl<A: Allocator + Copy> Rooms<A> {
    /// No pages. Requires options of which `check` is Ok. Takes no memory.
    #[inline]
    #[must_use]
    pub fn new(alloc: A, options: CacheOptions) -> Self {
        Rooms {
            pages: Vec::new(alloc),
            known: Vec::new(alloc),
            options,
        }
    }

    /// How the cache was made.
    #[inline]
    #[must_use]
    pub fn options(&self) -> CacheOptions {
        self.options
    }

    /// How many pages there are: at most 4,294,967,295, so that none has the number `NO_PAGE`.
    #[inline]
    #[must_use]
    pub fn len(&self) -> u32 {
        number(self.pages.len(), self.options.pages)
    }

    /// Whether there are none.
    #[inline]
    #[must_use]
    pub fn is_empty(&self) -> bool {
        self.pages.is_empty()
    }

    /// The size of a page, in pixels. Requires that there is such a page.
    #[inline]
    #[must_use]
    pub fn page_size(&self, page: u32) -> Size {
        self.pages[page as usize].size()
    }

    /// Whether there are as many pages as the options allow, each at its largest.
    #[inline]
    pub(crate) fn are_full(&self) -> bool {
        self.len() == self.options.pages
            && first_to_grow(&self.pages, self.options.largest_page).is_none()
    }

    /// Grants a request on the first page that has room for it: the page, and what it granted, which has the sides that
    /// were asked for, rounded up to the alignment. None if no page has room. No page grows and no other rectangle
    /// moves. `Slots` if that page has too few of them, `Memory` if memory is refused. Unless something is granted,
    /// nothing changes.
    #[inline]
    pub fn place(&mut self, asked: Size) -> Result<Option<(u32, Allocation)>, CacheError> {
        let to = self.pages.len();
        self.place_among(0, to, asked)
    }

    // Grants a request as `place` does, where none but the pages from `from` on and before `to` can have room: only these are looked at.
    #[inline]
    pub(crate) fn place_among(
        &mut self,
        from: usize,
        to: usize,
        asked: Size,
    ) -> Result<Option<(u32, Allocation)>, CacheError> {
        self.place_before(from, to, asked)
    }

    // Grants a request on the first page before `to` that has room for it, where those before `from` have none: only the others are
    // looked at, and of these only those are searched that changed since they refused a size that was no larger.
    #[inline]
    pub(crate) fn place_before(
        &mut self,
        from: usize,
        to: usize,
        asked: Size,
    ) -> Result<Option<(u32, Allocation)>, CacheError> {
        for page in from..to {
            match ask(&mut self.pages[page], &mut self.known[page], asked) {
                Ok(None) => {}
                Ok(Some(granted)) => return Ok(Some((number(page, self.options.pages), granted))),
                Err(error) => return Err(refusal(error)),
            }
        }
        Ok(None)
    }

    /// Frees the rectangle of an id of a page. Requires that the id is live there. No other rectangle moves. Takes no
    /// memory.
    #[inline]
    pub fn free(&mut self, page: u32, id: AllocId) {
        let page = page as usize;
        let area = area_on(&self.pages[page], id);
        let _freed = self.pages[page].deallocate(id);
        self.known[page] = changed(self.known[page].live - area);
    }

    /// The first page that isn't at its largest grows: the page, and its size from now on, in pixels. Its smaller side,
    /// the width if they are equal, is doubled, but no further than the largest page's, or the other side if that one
    /// is at its largest. None exactly if each page is at its largest. No rectangle moves, and at most 3 more slots of the page are
    /// used. `Slots` if that page has too few of them, `Memory` if memory is refused. Unless a page grows, nothing changes.
    #[inline]
    pub fn grow_page(&mut self) -> Result<Option<(u32, Size)>, CacheError> {
        let (page, old) = match first_to_grow(&self.pages, self.options.largest_page) {
            Some((page, old)) => (page, old),
            _ => {
                return Ok(None);
            }
        };
        let size = grown(old, self.options.largest_page);
        if let Err(error) = self.pages[page].grow(size) {
            return Err(refusal(error));
        }
        self.known[page] = changed(self.known[page].live);
        Ok(Some((number(page, self.options.pages), size)))
    }

    /// A new page with nothing on it comes last: its number and its size, in pixels. None exactly if there are as many
    /// as the options allow. No rectangle moves. `Memory` is the only error. Unless a page is added, nothing changes.
    #[inline]
    pub fn add_page(&mut self) -> Result<Option<(u32, Size)>, CacheError> {
        let number = self.len();
        if number == self.options.pages {
            return Ok(None);
        }
        let alloc = *self.pages.allocator();
        self.known.reserve(1)?;
        match AtlasAllocator::with_options(alloc, self.options.page, &self.options.atlas) {
            Ok(page) => {
                self.pages.push(page)?;
                self.known.push_reserved(changed(0));
                Ok(Some((number, self.options.page)))
            }
            Err(_) => Err(CacheError::Memory),
        }
    }

    /// The last page goes, if nothing is live on it: its number. None exactly if there is no page, or if something is live
    /// on the last one; then nothing changes. Takes no memory.
    #[inline]
    pub fn remove_page(&mut self) -> Option<u32> {
        if self.pages.is_empty() {
            return None;
        }
        let last = self.pages.len() - 1;
        if !self.pages[last].is_empty() {
            return None;
        }
        self.pages.truncate(last);
        self.known.truncate(last);
        Some(number(last, self.options.pages))
    }

    /// All rectangles go. The pages stay, with their sizes and what they have in reserve. Takes no memory.
    #[inline]
    pub fn clear(&mut self) {
        for page in 0..self.pages.len() {
            let _cleared = self.pages[page].clear();
            self.known[page] = changed(0);
        }
    }
}
