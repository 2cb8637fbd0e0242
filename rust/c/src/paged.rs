// Erased from crates/guillotiere_c/src/paged.rt by rust/erase: don't edit.
//! The exports of boxes on several pages.

use crate::paged_handle::{PagedHandle, PagedReader};
use crate::plain::{
    options_for, plain_rectangle, plain_size, status_of, status_of_done, PlainAllocation,
    PlainAreas, PlainOptions, PlainRectangle, PlainSize, BAD_CALL, DONE, EMPTY, MEMORY, NOT_LIVE,
    NO_PAGE, NO_ROOM, OCCUPIED,
};
use crate::plain_paged::{plain_page_allocation, status_of_pages_error, PlainPageAllocation};
use crate::writing::write_allocations;
use wollemigo_core::atlas_pages::{PageAllocation, PagedAtlas};
use wollemigo_core::guillotiere::{
    size2, AllocId, AllocatorOptions, AtlasError, Size, DEFAULT_OPTIONS,
};
use wollemigo_support::alloc::Global;
use wollemigo_support::prelude::Box;
use wollemigo_support::raw::slice_mut;

// Makes a paged atlas where the handle holds nothing.
fn start(
    alloc: Global,
    width: i32,
    height: i32,
    options: &AllocatorOptions,
    most: u32,
    paged: &mut PagedHandle,
) -> u32 {
    if paged.holds() {
        return OCCUPIED;
    }
    let made = PagedAtlas::with_options(alloc, size2(width, height), options, most);
    let made = match made {
        Ok(made) => made,
        _ => {
            return BAD_CALL;
        }
    };
    match Box::new(alloc, made) {
        Ok(held) => {
            paged.put(held);
            DONE
        }
        Err(_) => MEMORY,
    }
}

/// Makes a paged atlas, which has no page yet, with the default options, where the handle holds nothing. Pages are made of this
/// size, as many as are needed, but at most `most`. `DONE`; `BAD_CALL` if a side isn't above 0; `MEMORY`; `OCCUPIED`, before
/// all others, if the handle holds one already.
#[no_mangle]
pub extern "C" fn guillotiere_paged_new(
    width: i32,
    height: i32,
    most: u32,
    paged: Option<&mut PagedHandle>,
) -> u32 {
    let alloc = Global;
    let paged = match paged {
        Some(paged) => paged,
        None => return crate::plain::NULL_POINTER,
    };
    start(alloc, width, height, &DEFAULT_OPTIONS, most, paged)
}

/// Makes a paged atlas as `guillotiere_paged_new` does, the atlas of each page with these options. `DONE`; `BAD_CALL` if a side
/// isn't above 0 or the options aren't valid; `MEMORY`; `OCCUPIED`, before all others, if the handle holds one already.
#[no_mangle]
pub extern "C" fn guillotiere_paged_with_options(
    width: i32,
    height: i32,
    options: Option<&PlainOptions>,
    most: u32,
    paged: Option<&mut PagedHandle>,
) -> u32 {
    let alloc = Global;
    let options = match options {
        Some(options) => options,
        None => return crate::plain::NULL_POINTER,
    };
    let paged = match paged {
        Some(paged) => paged,
        None => return crate::plain::NULL_POINTER,
    };
    let options = options_for(options);
    start(alloc, width, height, &options, most, paged)
}

/// Frees a paged atlas, with all its memory; the handle holds nothing then.
#[no_mangle]
pub extern "C" fn guillotiere_paged_free(paged: Option<&mut PagedHandle>) {
    let alloc = Global;
    let paged = match paged {
        Some(paged) => paged,
        None => return,
    };
    if !paged.holds() {
        return;
    }
    let _held = paged.take(alloc);
}

// Requests a box; what the export's contract needs of the answer.
fn request(paged: &mut PagedAtlas, size: Size) -> Result<Option<PageAllocation>, AtlasError> {
    paged.allocate(size)
}

// Writes what a request was granted.
fn write_granted(
    answer: Result<Option<PageAllocation>, AtlasError>,
    granted: &mut PlainPageAllocation,
) -> u32 {
    match answer {
        Ok(Some(found)) => {
            *granted = plain_page_allocation(found);
            DONE
        }
        Ok(None) => NO_ROOM,
        Err(error) => status_of(error),
    }
}

/// Asks for a box of this size, rounded up by the options, on the first page that has room for it. Where none has, a page is
/// added, as the last one. `DONE`: `granted` has its page, its id and its rectangle, which overlaps no other live box of that
/// page. `NO_ROOM` if there are as many pages as there may be, or the size has no room on an empty page; `SLOTS` if that page
/// has too few of them, of 16777216; `MEMORY`; `EMPTY`. Takes one search on each page up to that one.
#[no_mangle]
pub extern "C" fn guillotiere_paged_allocate(
    paged: Option<&mut PagedHandle>,
    width: i32,
    height: i32,
    granted: Option<&mut PlainPageAllocation>,
) -> u32 {
    let alloc = Global;
    let paged = match paged {
        Some(paged) => paged,
        None => return crate::plain::NULL_POINTER,
    };
    let granted = match granted {
        Some(granted) => granted,
        None => return crate::plain::NULL_POINTER,
    };
    if !paged.holds() {
        return EMPTY;
    }
    let mut held = paged.take(alloc);
    let answer = request(&mut held, size2(width, height));
    paged.put(held);
    write_granted(answer, granted)
}

// Frees a box; what the export's contract needs of the answer.
fn free(paged: &mut PagedAtlas, page: u32, id: AllocId) -> Result<(), AtlasError> {
    paged.deallocate(page, id)
}

/// Frees the box of an id that is live on a page: it joins the free space next to it. The page stays, also where nothing is
/// left on it. Takes no memory. `DONE`; `NOT_LIVE`, also if there is no such page; `EMPTY`.
#[no_mangle]
pub extern "C" fn guillotiere_paged_deallocate(
    paged: Option<&mut PagedHandle>,
    page: u32,
    id: u32,
) -> u32 {
    let alloc = Global;
    let paged = match paged {
        Some(paged) => paged,
        None => return crate::plain::NULL_POINTER,
    };
    if !paged.holds() {
        return EMPTY;
    }
    let mut held = paged.take(alloc);
    let answer = free(&mut held, page, AllocId::deserialize(id));
    paged.put(held);
    status_of_done(answer)
}

/// The rectangle of an id that is live on a page. `DONE`: it is in `found`. `NOT_LIVE`, also if there is no such page; `EMPTY`.
#[no_mangle]
pub extern "C" fn guillotiere_paged_get(
    paged: Option<&PagedReader>,
    page: u32,
    id: u32,
    found: Option<&mut PlainRectangle>,
) -> u32 {
    let paged = match paged {
        Some(paged) => paged,
        None => return crate::plain::NULL_POINTER,
    };
    let found = match found {
        Some(found) => found,
        None => return crate::plain::NULL_POINTER,
    };
    if !paged.holds() {
        return EMPTY;
    }
    let held = paged.lent();
    let rectangle = held.get(page, AllocId::deserialize(id));
    match rectangle {
        Some(rectangle) => {
            *found = plain_rectangle(rectangle);
            DONE
        }
        None => NOT_LIVE,
    }
}

// Makes a page larger; what the export's contract needs of the answer.
fn enlarge(paged: &mut PagedAtlas, page: u32, size: Size) -> u32 {
    match paged.grow(page, size) {
        Ok(()) => DONE,
        Err(error) => status_of_pages_error(error),
    }
}

/// Makes a page larger; every live id keeps its rectangle, and pages that are added later are as before. `DONE`; `NO_PAGE`;
/// `BAD_CALL` if a side shrinks; `SLOTS`; `MEMORY`; `EMPTY`.
#[no_mangle]
pub extern "C" fn guillotiere_paged_grow(
    paged: Option<&mut PagedHandle>,
    page: u32,
    width: i32,
    height: i32,
) -> u32 {
    let alloc = Global;
    let paged = match paged {
        Some(paged) => paged,
        None => return crate::plain::NULL_POINTER,
    };
    if !paged.holds() {
        return EMPTY;
    }
    let mut held = paged.take(alloc);
    let status = enlarge(&mut held, page, size2(width, height));
    paged.put(held);
    status
}

// Lets the last pages go; what the export's contract needs of the answer.
fn shorten(paged: &mut PagedAtlas) -> u32 {
    paged.shrink()
}

/// Drops the pages behind the last one with a live id, with their memory, and writes how many are left. A page that such a one
/// follows stays, though nothing is on it. No rectangle moves. Takes no memory. `DONE`; `EMPTY`.
#[no_mangle]
pub extern "C" fn guillotiere_paged_shrink(
    paged: Option<&mut PagedHandle>,
    left: Option<&mut u32>,
) -> u32 {
    let alloc = Global;
    let paged = match paged {
        Some(paged) => paged,
        None => return crate::plain::NULL_POINTER,
    };
    let left = match left {
        Some(left) => left,
        None => return crate::plain::NULL_POINTER,
    };
    if !paged.holds() {
        return EMPTY;
    }
    let mut held = paged.take(alloc);
    *left = shorten(&mut held);
    paged.put(held);
    DONE
}

// Frees all boxes; what the export's contract needs of it.
fn free_all(paged: &mut PagedAtlas) {
    paged.clear();
}

/// Frees all boxes. The pages stay, with their sizes; `guillotiere_paged_shrink` drops them. Takes no memory. `DONE`; `EMPTY`.
#[no_mangle]
pub extern "C" fn guillotiere_paged_clear(paged: Option<&mut PagedHandle>) -> u32 {
    let alloc = Global;
    let paged = match paged {
        Some(paged) => paged,
        None => return crate::plain::NULL_POINTER,
    };
    if !paged.holds() {
        return EMPTY;
    }
    let mut held = paged.take(alloc);
    free_all(&mut held);
    paged.put(held);
    DONE
}

/// How many pages there are. `DONE`; `EMPTY`.
#[no_mangle]
pub extern "C" fn guillotiere_paged_page_count(
    paged: Option<&PagedReader>,
    pages: Option<&mut u32>,
) -> u32 {
    let paged = match paged {
        Some(paged) => paged,
        None => return crate::plain::NULL_POINTER,
    };
    let pages = match pages {
        Some(pages) => pages,
        None => return crate::plain::NULL_POINTER,
    };
    if !paged.holds() {
        return EMPTY;
    }
    let held = paged.lent();
    *pages = held.page_count();
    DONE
}

/// The size of a page, counted from 0. `DONE`; `NO_PAGE`; `EMPTY`.
#[no_mangle]
pub extern "C" fn guillotiere_paged_page_size(
    paged: Option<&PagedReader>,
    page: u32,
    size: Option<&mut PlainSize>,
) -> u32 {
    let paged = match paged {
        Some(paged) => paged,
        None => return crate::plain::NULL_POINTER,
    };
    let size = match size {
        Some(size) => size,
        None => return crate::plain::NULL_POINTER,
    };
    if !paged.holds() {
        return EMPTY;
    }
    let held = paged.lent();
    let found = held.page_size(page);
    match found {
        Some(found) => {
            *size = plain_size(found);
            DONE
        }
        None => NO_PAGE,
    }
}

/// The areas of all live and of all free boxes of a page, counted from 0, in one pass over its slots. `DONE`; `NO_PAGE`;
/// `EMPTY`.
#[no_mangle]
pub extern "C" fn guillotiere_paged_areas(
    paged: Option<&PagedReader>,
    page: u32,
    areas: Option<&mut PlainAreas>,
) -> u32 {
    let paged = match paged {
        Some(paged) => paged,
        None => return crate::plain::NULL_POINTER,
    };
    let areas = match areas {
        Some(areas) => areas,
        None => return crate::plain::NULL_POINTER,
    };
    if !paged.holds() {
        return EMPTY;
    }
    let held = paged.lent().pages();
    match held.get(page as usize) {
        Some(atlas) => {
            *areas = PlainAreas {
                allocated: atlas.allocated_area(),
                free: atlas.free_area(),
            };
            DONE
        }
        None => NO_PAGE,
    }
}

/// Writes the live boxes of a page, counted from 0, by rising slot, which is the low 24 bits of the id: as many as there is
/// room for, and into `count` how many there are. What `found` has after them stays. `DONE`; `NO_PAGE`; `MEMORY`; `EMPTY`.
#[no_mangle]
pub extern "C" fn guillotiere_paged_live(
    paged: Option<&PagedReader>,
    page: u32,
    found: *mut PlainAllocation,
    found_len: usize,
    count: Option<&mut usize>,
) -> u32 {
    let paged = match paged {
        Some(paged) => paged,
        None => return crate::plain::NULL_POINTER,
    };
    let found = match unsafe { slice_mut(found, found_len) } {
        Some(found) => found,
        None => return crate::plain::NULL_POINTER,
    };
    let count = match count {
        Some(count) => count,
        None => return crate::plain::NULL_POINTER,
    };
    if !paged.holds() {
        return EMPTY;
    }
    let held = paged.lent().pages();
    let atlas = match held.get(page as usize) {
        Some(atlas) => atlas,
        _ => {
            return NO_PAGE;
        }
    };
    let list = match atlas.allocations() {
        Ok(list) => list,
        _ => {
            return MEMORY;
        }
    };
    write_allocations(&list, found);
    *count = list.len();
    DONE
}
