//! Boxes on several pages.
use crate::error::expected;
use crate::walks::{live_rectangles, LiveIter};
use crate::{convert, AllocId, AllocatorOptions, AtlasError, Rectangle, Size, DEFAULT_OPTIONS};
use core::fmt;
use core::iter::FusedIterator;
use core::slice;
use wollemigo_core::atlas_pages as library;
use wollemigo_core::guillotiere::AtlasAllocator as LibraryAtlas;
use wollemigo_support::alloc::Global;

/// A rectangle on a page of a [`PagedAtlas`], and its id there.
///
/// ```
/// use guillotiere::{size2, PageAllocation, PagedAtlas};
///
/// let mut layers = PagedAtlas::new(size2(64, 64), 2);
/// let PageAllocation { page, id, rectangle } = layers.allocate(size2(20, 60)).unwrap();
/// assert_eq!((page, rectangle.size()), (0, size2(20, 60)));
/// layers.deallocate(page, id);
/// ```
#[derive(Copy, Clone, Debug, PartialEq, Eq, Hash)]
pub struct PageAllocation {
    /// The page, counted from 0.
    pub page: u32,
    /// The id by which it is freed, which is one of its page: another page may have the same.
    pub id: AllocId,
    /// Its place on the page, in pixels.
    pub rectangle: Rectangle,
}

/// Hands out rectangles on several pages, such as the layers of a texture array, and takes them back. A page comes where no other has
/// room, up to as many as there may be; the last ones go by [`shrink`](PagedAtlas::shrink), where nothing is on them.
///
/// ```
/// use guillotiere::{size2, PagedAtlas};
///
/// let mut layers = PagedAtlas::new(size2(64, 64), 8);
/// let one = layers.allocate(size2(64, 40)).unwrap();
/// let other = layers.allocate(size2(64, 40)).unwrap(); // no room beside the first one
/// assert_eq!((one.page, other.page, layers.page_count()), (0, 1, 2));
/// layers.deallocate(other.page, other.id);
/// assert_eq!(layers.shrink(), 1); // the layers that are left
/// ```
///
/// A program makes a layer of its texture when an answer's page is new to it: `page_count` tells before the call how many there are.
/// Things under keys, of which the oldest go where there is no room, are for `cache::TextureCache`.
pub struct PagedAtlas {
    pages: library::PagedAtlas<Global>,
}

impl PagedAtlas {
    /// No page yet, and at most so many, of this size and with `DEFAULT_OPTIONS`. Takes no memory.
    ///
    /// ```
    /// use guillotiere::{size2, PagedAtlas};
    ///
    /// let layers = PagedAtlas::new(size2(2048, 2048), 16);
    /// assert_eq!(layers.page_count(), 0);
    /// ```
    ///
    /// # Panics
    ///
    /// If a side is below 1.
    #[track_caller]
    #[must_use]
    pub fn new(page_size: Size, pages: u32) -> Self {
        expected(PagedAtlas::try_new(page_size, pages))
    }

    /// `new` with the error as a value.
    ///
    /// # Errors
    ///
    /// `EmptySize` if a side is below 1.
    pub fn try_new(page_size: Size, pages: u32) -> Result<Self, AtlasError> {
        PagedAtlas::try_with_options(page_size, &DEFAULT_OPTIONS, pages)
    }

    /// No page yet, and at most so many, of this size and with these options. Takes no memory.
    ///
    /// # Panics
    ///
    /// Where `new` does, and if a side of the alignment is below 1 or the small threshold is above the large one.
    #[track_caller]
    #[must_use]
    pub fn with_options(page_size: Size, options: &AllocatorOptions, pages: u32) -> Self {
        expected(PagedAtlas::try_with_options(page_size, options, pages))
    }

    /// `with_options` with the error as a value.
    ///
    /// # Errors
    ///
    /// `EmptySize` if a side is below 1, `Alignment` if a side of the alignment is below 1, `Thresholds` if the small threshold is above
    /// the large one.
    pub fn try_with_options(
        page_size: Size,
        options: &AllocatorOptions,
        pages: u32,
    ) -> Result<Self, AtlasError> {
        let size = convert::library_size(page_size);
        let options = convert::library_options(options);
        Ok(PagedAtlas {
            pages: library::PagedAtlas::with_options(Global, size, &options, pages)?,
        })
    }

    /// How many pages there are.
    #[must_use]
    pub fn page_count(&self) -> u32 {
        self.pages.page_count()
    }

    /// The size of a page, in pixels; None if there is no such page.
    #[must_use]
    pub fn page_size(&self, page: u32) -> Option<Size> {
        self.pages.page_size(page).map(convert::size)
    }

    /// The rectangle of an id that is live on this page; None for every other id and page.
    ///
    /// ```
    /// use guillotiere::{size2, PagedAtlas};
    ///
    /// let mut layers = PagedAtlas::new(size2(64, 64), 2);
    /// let glyph = layers.allocate(size2(20, 60)).unwrap();
    /// assert_eq!(layers.get(glyph.page, glyph.id), Some(glyph.rectangle));
    /// assert_eq!(layers.get(1, glyph.id), None);
    /// ```
    #[must_use]
    pub fn get(&self, page: u32, id: AllocId) -> Option<Rectangle> {
        let found = self.pages.get(page, convert::library_id(id))?;
        Some(convert::rectangle(&found))
    }

    /// Asks for a rectangle of this size, on the first page that has room for it; where none has, on a new page. None if then there are as
    /// many pages as there may be, or if the size has no room on an empty page. One search on each page up to that one.
    ///
    /// ```
    /// use guillotiere::{size2, PagedAtlas};
    ///
    /// let mut layers = PagedAtlas::new(size2(64, 64), 1);
    /// assert!(layers.allocate(size2(64, 40)).is_some());
    /// assert!(layers.allocate(size2(64, 40)).is_none()); // no room, and no second page
    /// assert_eq!(layers.allocate(size2(64, 24)).unwrap().page, 0);
    /// ```
    ///
    /// # Panics
    ///
    /// If memory or slots run out.
    #[must_use = "the rectangle is taken until its id is freed"]
    #[track_caller]
    pub fn allocate(&mut self, requested_size: Size) -> Option<PageAllocation> {
        expected(self.try_allocate(requested_size))
    }

    /// `allocate` with the error as a value.
    ///
    /// # Errors
    ///
    /// `Slots` if a page would use more than `MOST_SLOTS`, `Memory` if memory is refused.
    pub fn try_allocate(
        &mut self,
        requested_size: Size,
    ) -> Result<Option<PageAllocation>, AtlasError> {
        let granted = self.pages.allocate(convert::library_size(requested_size))?;
        Ok(granted.map(|granted| PageAllocation {
            page: granted.page,
            id: convert::id(granted.id),
            rectangle: convert::rectangle(&granted.rectangle),
        }))
    }

    /// Frees the rectangle of a live id of a page. The page stays, also where nothing is left on it. Takes no memory.
    ///
    /// # Panics
    ///
    /// If there is no such page, or the id isn't live there.
    #[track_caller]
    pub fn deallocate(&mut self, page: u32, id: AllocId) {
        expected(self.try_deallocate(page, id));
    }

    /// `deallocate` with the error as a value.
    ///
    /// # Errors
    ///
    /// `NotLive` if there is no such page, or the id isn't live there.
    pub fn try_deallocate(&mut self, page: u32, id: AllocId) -> Result<(), AtlasError> {
        Ok(self.pages.deallocate(page, convert::library_id(id))?)
    }

    /// Makes a page larger; no rectangle moves. Later pages have the size that `new` was told.
    ///
    /// ```
    /// use guillotiere::{size2, PagedAtlas};
    ///
    /// let mut layers = PagedAtlas::new(size2(64, 64), 1);
    /// let _ = layers.allocate(size2(64, 64));
    /// assert!(layers.allocate(size2(30, 30)).is_none());
    /// layers.grow(0, size2(128, 64));
    /// assert!(layers.allocate(size2(30, 30)).is_some());
    /// ```
    ///
    /// # Panics
    ///
    /// If there is no such page, a side shrinks, or memory or slots run out.
    #[track_caller]
    pub fn grow(&mut self, page: u32, new_size: Size) {
        expected(self.try_grow(page, new_size));
    }

    /// `grow` with the error as a value.
    ///
    /// # Errors
    ///
    /// `NoPage` if there is no such page, `Shrinks` if a side would be less than it is, `Slots` if more slots would be used than there
    /// may be, `Memory` if memory is refused.
    pub fn try_grow(&mut self, page: u32, new_size: Size) -> Result<(), AtlasError> {
        Ok(self.pages.grow(page, convert::library_size(new_size))?)
    }

    /// The pages behind the last one with a live id go: how many are left. A page that such a one follows stays, though nothing is on
    /// it. No rectangle moves. Takes no memory, and a step for each page.
    pub fn shrink(&mut self) -> u32 {
        self.pages.shrink()
    }

    /// All rectangles go. The pages stay, with their sizes: `shrink` lets them go. Takes no memory.
    pub fn clear(&mut self) {
        self.pages.clear();
    }

    /// The live rectangles with their pages and ids, page by page, and on a page by rising slot: no list is made, and no memory taken. A
    /// walk to the end is one pass over the slots of each page.
    ///
    /// ```
    /// use guillotiere::{size2, PagedAtlas};
    ///
    /// let mut layers = PagedAtlas::new(size2(64, 64), 2);
    /// let glyph = layers.allocate(size2(20, 60)).unwrap();
    /// assert!(layers.iter().eq([glyph]));
    /// for live in &layers {
    ///     println!("{:?} on page {}", live.rectangle, live.page);
    /// }
    /// ```
    #[must_use]
    pub fn iter(&self) -> PagesIter<'_> {
        PagesIter {
            pages: self.pages.pages().iter(),
            passed: 0,
            left: None,
        }
    }
}

impl<'a> IntoIterator for &'a PagedAtlas {
    type Item = PageAllocation;
    type IntoIter = PagesIter<'a>;

    fn into_iter(self) -> PagesIter<'a> {
        self.iter()
    }
}

impl fmt::Debug for PagedAtlas {
    fn fmt(&self, f: &mut fmt::Formatter<'_>) -> fmt::Result {
        f.debug_struct("PagedAtlas")
            .field("page_count", &self.page_count())
            .finish_non_exhaustive()
    }
}

/// The live rectangles of a [`PagedAtlas`] with their pages and ids, page by page, without a list.
///
/// ```
/// use guillotiere::{size2, PagedAtlas};
///
/// let mut layers = PagedAtlas::new(size2(64, 64), 2);
/// let glyph = layers.allocate(size2(20, 60)).unwrap();
/// let mut walk = layers.iter();
/// assert_eq!((walk.next(), walk.next()), (Some(glyph), None));
/// ```
#[derive(Clone)]
pub struct PagesIter<'a> {
    pages: slice::Iter<'a, LibraryAtlas<Global>>,
    // How many pages were begun, of which `left` goes along the last one.
    passed: u32,
    left: Option<LiveIter<'a>>,
}

impl Iterator for PagesIter<'_> {
    type Item = PageAllocation;

    fn next(&mut self) -> Option<PageAllocation> {
        loop {
            if let Some(live) = self.left.as_mut().and_then(Iterator::next) {
                return Some(PageAllocation {
                    page: self.passed - 1,
                    id: live.id,
                    rectangle: live.rectangle,
                });
            }
            self.left = Some(live_rectangles(self.pages.next()?));
            self.passed += 1;
        }
    }
}

impl FusedIterator for PagesIter<'_> {}

impl fmt::Debug for PagesIter<'_> {
    fn fmt(&self, f: &mut fmt::Formatter<'_>) -> fmt::Result {
        f.debug_list().entries(self.clone()).finish()
    }
}
