// Erased from crates/atlas_pages/src/paged.rt by rust/erase: don't edit.
//! Pages of a texture array without keys.

mod steps;

use crate::atlas_pages::error::PagesError;
use crate::atlas_pages::paged::steps::{
    add_page, busy_pages, check_start, clear_list, free_at, grant_first, grow_at,
};
use wollemigo_support::prelude::Vec;

use crate::guillotiere::{
    AllocId, Allocation, AllocatorOptions, AtlasAllocator, AtlasError, Rectangle, Size,
    DEFAULT_OPTIONS,
};
use wollemigo_support::alloc::{Allocator, Global};

/// A box on a page of a `PagedAtlas`: the page, counted from 0, and there its id and its rectangle, in pixels.
#[derive(Clone, Copy, Debug, PartialEq, Eq)]
pub struct PageAllocation {
    pub page: u32,
    pub id: AllocId,
    pub rectangle: Rectangle,
}

/// Hands out boxes on the pages of a texture array, such as the layers of a texture, and takes them back: each page is an
/// `AtlasAllocator`. A page comes where no other has room, and the last ones go by `shrink` where nothing is on them. An id is one
/// of its page: another page may have the same. Contracts see a `PagedState`: what the atlas of each page stores, and with what
/// pages are made.
pub struct PagedAtlas<A: Allocator + Copy = Global> {
    pages: Vec<AtlasAllocator<A>, A>,
    page_size: Size,
    options: AllocatorOptions,
    most: u32,
}

// A page's number, or how many pages there are, as a `u32`.
#[inline]
fn number(page: usize, most: u32) -> u32 {
    page as u32
}

// The answer to a request to a page, with the page's number.
#[inline]
fn at_page(
    page: usize,
    most: u32,
    answer: Result<Option<Allocation>, AtlasError>,
) -> Result<Option<PageAllocation>, AtlasError> {
    match answer {
        Ok(Some(granted)) => Ok(Some(PageAllocation {
            page: number(page, most),
            id: granted.id,
            rectangle: granted.rectangle,
        })),
        Ok(None) => Ok(None),
        Err(error) => Err(error),
    }
}

impl<A: Allocator + Copy> PagedAtlas<A> {
    /// `with_options` with the default options.
    #[inline]
    pub fn new(alloc: A, page_size: Size, most: u32) -> Result<Self, PagesError> {
        PagedAtlas::with_options(alloc, page_size, &DEFAULT_OPTIONS, most)
    }

    /// No page yet. Pages are made of this size, in pixels, and with these options, and there are at most so many. `EmptySize`,
    /// `Alignment` or `Thresholds` if the size is empty or the options aren't valid. Takes no memory.
    #[inline]
    pub fn with_options(
        alloc: A,
        page_size: Size,
        options: &AllocatorOptions,
        most: u32,
    ) -> Result<Self, PagesError> {
        check_start(page_size, options)?;
        Ok(PagedAtlas {
            pages: Vec::new(alloc),
            page_size,
            options: *options,
            most,
        })
    }

    /// How many pages there are.
    #[inline]
    #[must_use]
    pub fn page_count(&self) -> u32 {
        number(self.pages.len(), self.most)
    }

    /// The atlases of the pages, by their numbers: what is on a page is told by its `iter`, `free_iter`, `areas` and the like.
    #[inline]
    #[must_use]
    pub fn pages(&self) -> &[AtlasAllocator<A>] {
        &self.pages
    }

    /// The size of a page, in pixels; None if there is no such page.
    #[inline]
    #[must_use]
    pub fn page_size(&self, page: u32) -> Option<Size> {
        let atlas = self.pages.get(page as usize)?;
        Some(atlas.size())
    }

    /// The rectangle of an id that is live on this page, in pixels; None for every other id and page.
    #[inline]
    #[must_use]
    pub fn get(&self, page: u32, id: AllocId) -> Option<Rectangle> {
        match self.pages.get(page as usize) {
            Some(atlas) => atlas.get(id),
            None => None,
        }
    }

    /// Grants a request on the first page that has room for it. Where none has, a page is added. None if then there are as many
    /// pages as there may be, or if the request has no room on an empty page. `Slots` if the page has too few of them, `Memory` if
    /// memory is refused. Unless something is granted, nothing changes. One request of each page up to that one; where none has room, the
    /// making of a page.
    #[inline]
    pub fn allocate(&mut self, size: Size) -> Result<Option<PageAllocation>, AtlasError> {
        match grant_first(&mut self.pages, size) {
            Some((page, answer)) => at_page(page, self.most, answer),
            None => self.allocate_anew(size),
        }
    }

    // Grants a request that no page has room for, on a page that is added; None if there are as many as there may be.
    #[inline]
    fn allocate_anew(&mut self, size: Size) -> Result<Option<PageAllocation>, AtlasError> {
        let page = self.pages.len();
        if page >= self.most as usize {
            return Ok(None);
        }
        let answer = add_page(&mut self.pages, self.page_size, &self.options, size);
        at_page(page, self.most, answer)
    }

    /// Frees the box of an id of a page. `NotLive` if there is no such page, or the id isn't live there; then nothing changes. The page
    /// stays, also where nothing is left on it. Takes no memory, and the time of a freeing on one page.
    #[inline]
    pub fn deallocate(&mut self, page: u32, id: AllocId) -> Result<(), AtlasError> {
        if self.pages.len() <= page as usize {
            return Err(AtlasError::NotLive);
        }
        free_at(&mut self.pages, page as usize, id)
    }

    /// Makes a page larger: it has this size then, in pixels, and no rectangle moves. `NoPage` if there is no such page, `Shrinks` if a
    /// side is less than its present one, `Slots` or `Memory`, as `AtlasAllocator::grow` says. After an error nothing has changed. Later
    /// pages are made of the size that `new` was told. Takes the time of a growth of one atlas.
    #[inline]
    pub fn grow(&mut self, page: u32, size: Size) -> Result<(), PagesError> {
        grow_at(&mut self.pages, page as usize, size)
    }

    /// The pages behind the last one with a live id go, with their memory: how many are left. A page that such a one follows stays,
    /// though nothing is on it. No rectangle moves. Takes no memory; one step for each page.
    #[inline]
    pub fn shrink(&mut self) -> u32 {
        let busy = busy_pages(&self.pages);
        self.pages.truncate(busy);
        number(busy, self.most)
    }

    /// All boxes go. The pages stay, with their sizes; `shrink` lets them go. Takes no memory, and a start for each page.
    #[inline]
    pub fn clear(&mut self) {
        clear_list(&mut self.pages);
    }
}
