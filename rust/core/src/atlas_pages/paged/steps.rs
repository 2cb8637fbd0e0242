// Erased from crates/atlas_pages/src/paged/steps.rt by rust/erase: don't edit.
//! Steps along pages.

use crate::atlas_pages::error::PagesError;
use crate::guillotiere::{AllocId, Allocation, AllocatorOptions, AtlasAllocator, AtlasError, Size};
use wollemigo_support::alloc::Allocator;
use wollemigo_support::prelude::Vec;

// That a size isn't empty, and that options are valid.
#[inline]
pub(crate) fn check_start(size: Size, options: &AllocatorOptions) -> Result<(), PagesError> {
    if !size.is_positive() {
        return Err(PagesError::EmptySize);
    }
    if !options.alignment.is_positive() {
        return Err(PagesError::Alignment);
    }
    if options.small_size_threshold > options.large_size_threshold {
        return Err(PagesError::Thresholds);
    }
    Ok(())
}

// Asks a page for a box.
#[inline]
pub(crate) fn grant_on<A: Allocator + Copy>(
    pages: &mut [AtlasAllocator<A>],
    page: usize,
    size: Size,
) -> Result<Option<Allocation>, AtlasError> {
    pages[page].allocate(size)
}

// Frees the box of an id of a page.
#[inline]
pub(crate) fn free_on<A: Allocator + Copy>(
    pages: &mut [AtlasAllocator<A>],
    page: usize,
    id: AllocId,
) -> Result<(), AtlasError> {
    pages[page].deallocate(id)
}

// `grant_on` in a list.
#[inline]
pub(crate) fn grant_at<A: Allocator + Copy>(
    pages: &mut Vec<AtlasAllocator<A>, A>,
    page: usize,
    size: Size,
) -> Result<Option<Allocation>, AtlasError> {
    grant_on(pages, page, size)
}

// Whether a page has no room for a request.
#[inline]
fn is_nothing(answer: &Result<Option<Allocation>, AtlasError>) -> bool {
    match answer {
        Ok(None) => true,
        _ => false,
    }
}

// Asks one page after another for a box. The first that grants it, or refuses it by an error, and its answer; None if no page has room, and
// then nothing changes.
#[inline]
pub(crate) fn grant_first<A: Allocator + Copy>(
    pages: &mut Vec<AtlasAllocator<A>, A>,
    size: Size,
) -> Option<(usize, Result<Option<Allocation>, AtlasError>)> {
    for page in 0..pages.len() {
        let answer = grant_at(pages, page, size);
        if !is_nothing(&answer) {
            return Some((page, answer));
        }
    }
    None
}

// `free_on` in a list.
#[inline]
pub(crate) fn free_at<A: Allocator + Copy>(
    pages: &mut Vec<AtlasAllocator<A>, A>,
    page: usize,
    id: AllocId,
) -> Result<(), AtlasError> {
    free_on(pages, page, id)
}

// `grow_on` in a list.
#[inline]
pub(crate) fn grow_at<A: Allocator + Copy>(
    pages: &mut Vec<AtlasAllocator<A>, A>,
    page: usize,
    size: Size,
) -> Result<(), PagesError> {
    grow_on(pages, page, size)
}

// `clear_all` of a list.
#[inline]
pub(crate) fn clear_list<A: Allocator + Copy>(pages: &mut Vec<AtlasAllocator<A>, A>) {
    clear_all(pages);
}

// What is granted on an empty page of this atlas.
#[inline]
fn first_on<A: Allocator + Copy>(
    page: &mut AtlasAllocator<A>,
    size: Size,
) -> Result<Option<Allocation>, AtlasError> {
    page.allocate(size)
}

// A new page with a first box on it; None if the request has no room there.
#[inline]
pub(crate) fn page_for<A: Allocator + Copy>(
    alloc: A,
    page_size: Size,
    options: &AllocatorOptions,
    size: Size,
) -> Result<Option<(AtlasAllocator<A>, Allocation)>, AtlasError> {
    let mut page = AtlasAllocator::with_options(alloc, page_size, options)?;
    match first_on(&mut page, size)? {
        Some(granted) => Ok(Some((page, granted))),
        None => Ok(None),
    }
}

// A page with a first box on it comes last; None if the request has no room there.
#[inline]
pub(crate) fn add_page<A: Allocator + Copy>(
    pages: &mut Vec<AtlasAllocator<A>, A>,
    page_size: Size,
    options: &AllocatorOptions,
    size: Size,
) -> Result<Option<Allocation>, AtlasError> {
    let alloc = *pages.allocator();
    let (page, granted) = match page_for(alloc, page_size, options, size)? {
        Some((page, granted)) => (page, granted),
        _ => {
            return Ok(None);
        }
    };
    pages.push(page)?;
    Ok(Some(granted))
}

// How many pages there are up to the last on which an id is live.
#[inline]
pub(crate) fn busy_pages<A: Allocator + Copy>(pages: &[AtlasAllocator<A>]) -> usize {
    let mut busy = 0;
    for page in 0..pages.len() {
        if !pages[page].is_empty() {
            busy = page + 1;
        }
    }
    busy
}

// An atlas grows, if no side shrinks.
#[inline]
fn grow_page<A: Allocator + Copy>(
    page: &mut AtlasAllocator<A>,
    size: Size,
) -> Result<(), PagesError> {
    if !page.can_grow_to(size) {
        return Err(PagesError::Shrinks);
    }
    page.grow(size)?;
    Ok(())
}

// A page grows, if there is such a page and no side shrinks.
#[inline]
pub(crate) fn grow_on<A: Allocator + Copy>(
    pages: &mut [AtlasAllocator<A>],
    page: usize,
    size: Size,
) -> Result<(), PagesError> {
    if page >= pages.len() {
        return Err(PagesError::NoPage);
    }
    grow_page(&mut pages[page], size)
}

// All boxes of an atlas go.
#[inline]
fn clear_page<A: Allocator + Copy>(page: &mut AtlasAllocator<A>) {
    let _cleared = page.clear();
}

// All boxes of all pages go.
#[inline]
pub(crate) fn clear_all<A: Allocator + Copy>(pages: &mut [AtlasAllocator<A>]) {
    for page in 0..pages.len() {
        clear_page(&mut pages[page]);
    }
}
