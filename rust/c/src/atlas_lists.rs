// Erased from crates/guillotiere_c/src/atlas_lists.rt by rust/erase: don't edit.
//! The exports of an atlas that take or write lists.

use crate::atlas_handle::{AtlasHandle, AtlasReader};
use crate::plain::{
    status_of, status_of_done, PlainAllocation, PlainChange, PlainChangeCount, PlainRectangle,
    BAD_CALL, DONE, EMPTY, MEMORY, NOT_LIVE, SHORT,
};
use crate::writing::{write_allocations, write_changes, write_rectangles};
use wollemigo_core::guillotiere::{size2, AllocId, AtlasError, ChangeList};
use wollemigo_support::alloc::Global;
use wollemigo_support::prelude::Vec;
use wollemigo_support::raw::{slice, slice_mut};

/// Writes the live boxes, by rising slot, which is the low 24 bits of the id: as many as there is room for, and into `count`
/// how many there are. What `found` has after them stays. `DONE`; `MEMORY`; `EMPTY`.
#[no_mangle]
pub extern "C" fn guillotiere_atlas_live(
    atlas: Option<&AtlasReader>,
    found: *mut PlainAllocation,
    found_len: usize,
    count: Option<&mut usize>,
) -> u32 {
    let atlas = match atlas {
        Some(atlas) => atlas,
        None => return crate::plain::NULL_POINTER,
    };
    let found = match unsafe { slice_mut(found, found_len) } {
        Some(found) => found,
        None => return crate::plain::NULL_POINTER,
    };
    let count = match count {
        Some(count) => count,
        None => return crate::plain::NULL_POINTER,
    };
    if !atlas.holds() {
        return EMPTY;
    }
    let held = atlas.lent();
    let list = held.allocations();
    let list = match list {
        Ok(list) => list,
        _ => {
            return MEMORY;
        }
    };
    write_allocations(&list, found);
    *count = list.len();
    DONE
}

/// Writes the free boxes, in an order that is left open: as many as there is room for, and into `count` how many there are.
/// What `found` has after them stays. `DONE`; `MEMORY`; `EMPTY`.
#[no_mangle]
pub extern "C" fn guillotiere_atlas_free_boxes(
    atlas: Option<&AtlasReader>,
    found: *mut PlainRectangle,
    found_len: usize,
    count: Option<&mut usize>,
) -> u32 {
    let atlas = match atlas {
        Some(atlas) => atlas,
        None => return crate::plain::NULL_POINTER,
    };
    let found = match unsafe { slice_mut(found, found_len) } {
        Some(found) => found,
        None => return crate::plain::NULL_POINTER,
    };
    let count = match count {
        Some(count) => count,
        None => return crate::plain::NULL_POINTER,
    };
    if !atlas.holds() {
        return EMPTY;
    }
    let held = atlas.lent();
    let list = held.free_rectangles();
    let list = match list {
        Ok(list) => list,
        _ => {
            return MEMORY;
        }
    };
    write_rectangles(&list, found);
    *count = list.len();
    DONE
}

// Writes both lists of a rearranging.
fn write_list(
    list: &ChangeList,
    changes: &mut [PlainChange],
    failures: &mut [PlainAllocation],
) -> PlainChangeCount {
    write_changes(&list.changes, changes);
    write_allocations(&list.failures, failures);
    PlainChangeCount {
        changes: list.changes.len(),
        failures: list.failures.len(),
    }
}

// Writes what a rearranging answered, into arrays that have room for each member that was used.
fn write_whole_list(
    list: &ChangeList,
    changes: &mut [PlainChange],
    failures: &mut [PlainAllocation],
) -> PlainChangeCount {
    write_list(list, changes, failures)
}

/// `guillotiere_atlas_resize_and_rearrange` at the present size.
#[no_mangle]
pub extern "C" fn guillotiere_atlas_rearrange(
    atlas: Option<&mut AtlasHandle>,
    changes: *mut PlainChange,
    changes_len: usize,
    failures: *mut PlainAllocation,
    failures_len: usize,
    count: Option<&mut PlainChangeCount>,
) -> u32 {
    let alloc = Global;
    let atlas = match atlas {
        Some(atlas) => atlas,
        None => return crate::plain::NULL_POINTER,
    };
    let changes = match unsafe { slice_mut(changes, changes_len) } {
        Some(changes) => changes,
        None => return crate::plain::NULL_POINTER,
    };
    let failures = match unsafe { slice_mut(failures, failures_len) } {
        Some(failures) => failures,
        None => return crate::plain::NULL_POINTER,
    };
    let count = match count {
        Some(count) => count,
        None => return crate::plain::NULL_POINTER,
    };
    if !atlas.holds() {
        return EMPTY;
    }
    let mut held = atlas.take(alloc);
    let used = held.slots().used as usize;
    if changes.len() < used || failures.len() < used {
        atlas.put(held);
        return SHORT;
    }
    let answer = held.rearrange();
    atlas.put(held);
    match &answer {
        Ok(list) => {
            *count = write_whole_list(list, changes, failures);
            DONE
        }
        Err(error) => status_of(*error),
    }
}

/// Repacks what is live into an empty atlas of this size, the largest first; options and limit stay. All former ids are void.
/// `changes` gets what was placed, `failures` what found no room and is no longer live, `count` how many of each. Both arrays
/// must have room for as many as there are used slots (`guillotiere_atlas_slots`), else the answer is `SHORT`.
/// `DONE`; `BAD_CALL` if a side isn't above 0; `SHORT`; `SLOTS`; `MEMORY`; `EMPTY`.
#[no_mangle]
pub extern "C" fn guillotiere_atlas_resize_and_rearrange(
    atlas: Option<&mut AtlasHandle>,
    width: i32,
    height: i32,
    changes: *mut PlainChange,
    changes_len: usize,
    failures: *mut PlainAllocation,
    failures_len: usize,
    count: Option<&mut PlainChangeCount>,
) -> u32 {
    let alloc = Global;
    let atlas = match atlas {
        Some(atlas) => atlas,
        None => return crate::plain::NULL_POINTER,
    };
    let changes = match unsafe { slice_mut(changes, changes_len) } {
        Some(changes) => changes,
        None => return crate::plain::NULL_POINTER,
    };
    let failures = match unsafe { slice_mut(failures, failures_len) } {
        Some(failures) => failures,
        None => return crate::plain::NULL_POINTER,
    };
    let count = match count {
        Some(count) => count,
        None => return crate::plain::NULL_POINTER,
    };
    if !atlas.holds() {
        return EMPTY;
    }
    let mut held = atlas.take(alloc);
    if width <= 0 || height <= 0 {
        atlas.put(held);
        return BAD_CALL;
    }
    let used = held.slots().used as usize;
    if changes.len() < used || failures.len() < used {
        atlas.put(held);
        return SHORT;
    }
    let answer = held.resize_and_rearrange(size2(width, height));
    atlas.put(held);
    match &answer {
        Ok(list) => {
            *count = write_whole_list(list, changes, failures);
            DONE
        }
        Err(error) => status_of(*error),
    }
}

// The ids of these numbers.
fn ids_of(alloc: Global, numbers: &[u32]) -> Result<Vec<AllocId>, AtlasError> {
    let mut ids = Vec::with_capacity(alloc, numbers.len())?;
    for number in numbers {
        ids.push_reserved(AllocId::deserialize(*number));
    }
    Ok(ids)
}

/// Frees the boxes of a list of ids, all or none. `DONE`; `NOT_LIVE` if one isn't live or is listed twice; `MEMORY`, as the
/// list is copied first; `EMPTY`.
#[no_mangle]
pub extern "C" fn guillotiere_atlas_deallocate_all(
    atlas: Option<&mut AtlasHandle>,
    ids: *const u32,
    ids_len: usize,
) -> u32 {
    let alloc = Global;
    let atlas = match atlas {
        Some(atlas) => atlas,
        None => return crate::plain::NULL_POINTER,
    };
    let ids = match unsafe { slice(ids, ids_len) } {
        Some(ids) => ids,
        None => return crate::plain::NULL_POINTER,
    };
    if !atlas.holds() {
        return EMPTY;
    }
    let mut held = atlas.take(alloc);
    let list = match ids_of(alloc, ids) {
        Ok(list) => list,
        _ => {
            atlas.put(held);
            return MEMORY;
        }
    };
    let answer = held.deallocate_all(&list);
    atlas.put(held);
    status_of_done(answer)
}
