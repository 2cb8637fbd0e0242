// Erased from crates/guillotiere_c/src/atlas.rt by rust/erase: don't edit.
//! The exports of an atlas, but for those that take or write lists.

use crate::atlas_handle::{AtlasHandle, AtlasReader};
use crate::plain::{
    options_for, plain_allocation, plain_options, plain_rectangle, plain_size, plain_slots,
    status_of, status_of_done, PlainAllocation, PlainAreas, PlainOptions, PlainRectangle,
    PlainSize, PlainSlots, BAD_CALL, DONE, EMPTY, MEMORY, NOT_LIVE, NO_ROOM, SLOTS,
};
use wollemigo_core::guillotiere::{size2, AllocId, AtlasAllocator};
use wollemigo_support::alloc::Global;

/// Asks for a box of this size, rounded up by the options. `DONE`: `granted` has its id and its rectangle, which overlaps no
/// other live box. `NO_ROOM` if the size is empty, fits no free box, or passes 2147483647 once it is rounded up; `SLOTS`;
/// `MEMORY`; `EMPTY`.
#[no_mangle]
pub extern "C" fn guillotiere_atlas_allocate(
    atlas: Option<&mut AtlasHandle>,
    width: i32,
    height: i32,
    granted: Option<&mut PlainAllocation>,
) -> u32 {
    let alloc = Global;
    let atlas = match atlas {
        Some(atlas) => atlas,
        None => return crate::plain::NULL_POINTER,
    };
    let granted = match granted {
        Some(granted) => granted,
        None => return crate::plain::NULL_POINTER,
    };
    if !atlas.holds() {
        return EMPTY;
    }
    let mut held = atlas.take(alloc);
    let answer = held.allocate(size2(width, height));
    atlas.put(held);
    match answer {
        Ok(Some(allocation)) => {
            *granted = plain_allocation(allocation);
            DONE
        }
        Ok(None) => NO_ROOM,
        Err(error) => status_of(error),
    }
}

/// Frees the box of a live id: it joins the free space next to it. Takes no memory. `DONE`; `NOT_LIVE`; `EMPTY`.
#[no_mangle]
pub extern "C" fn guillotiere_atlas_deallocate(atlas: Option<&mut AtlasHandle>, id: u32) -> u32 {
    let alloc = Global;
    let atlas = match atlas {
        Some(atlas) => atlas,
        None => return crate::plain::NULL_POINTER,
    };
    if !atlas.holds() {
        return EMPTY;
    }
    let mut held = atlas.take(alloc);
    let answer = held.deallocate(AllocId::deserialize(id));
    atlas.put(held);
    status_of_done(answer)
}

/// The rectangle of a live id. `DONE`: it is in `found`. `NOT_LIVE`; `EMPTY`.
#[no_mangle]
pub extern "C" fn guillotiere_atlas_get(
    atlas: Option<&AtlasReader>,
    id: u32,
    found: Option<&mut PlainRectangle>,
) -> u32 {
    let atlas = match atlas {
        Some(atlas) => atlas,
        None => return crate::plain::NULL_POINTER,
    };
    let found = match found {
        Some(found) => found,
        None => return crate::plain::NULL_POINTER,
    };
    if !atlas.holds() {
        return EMPTY;
    }
    let held = atlas.lent();
    let rectangle = held.get(AllocId::deserialize(id));
    match rectangle {
        Some(rectangle) => {
            *found = plain_rectangle(rectangle);
            DONE
        }
        None => NOT_LIVE,
    }
}

/// Makes the atlas larger; every live id keeps its rectangle. `DONE`; `BAD_CALL` if a side shrinks; `SLOTS`; `MEMORY`;
/// `EMPTY`.
#[no_mangle]
pub extern "C" fn guillotiere_atlas_grow(
    atlas: Option<&mut AtlasHandle>,
    width: i32,
    height: i32,
) -> u32 {
    let alloc = Global;
    let atlas = match atlas {
        Some(atlas) => atlas,
        None => return crate::plain::NULL_POINTER,
    };
    if !atlas.holds() {
        return EMPTY;
    }
    let mut held = atlas.take(alloc);
    let size = held.size();
    if width < size.width || height < size.height {
        atlas.put(held);
        return BAD_CALL;
    }
    let answer = held.grow(size2(width, height));
    atlas.put(held);
    status_of_done(answer)
}

/// Whether the atlas may be grown to this size, in pixels: no side shrinks. False of a handle that holds nothing.
#[no_mangle]
pub extern "C" fn guillotiere_atlas_can_grow_to(
    atlas: Option<&AtlasReader>,
    width: i32,
    height: i32,
) -> bool {
    let atlas = match atlas {
        Some(atlas) => atlas,
        None => return false,
    };
    if !atlas.holds() {
        return false;
    }
    let held = atlas.lent();
    held.can_grow_to(size2(width, height))
}

/// Whether a request of this size, in pixels, has room: then `guillotiere_atlas_allocate` grants it, slots and memory aside;
/// else it answers `NO_ROOM`. Takes at most one search, and no memory. False of a handle that holds nothing.
#[no_mangle]
pub extern "C" fn guillotiere_atlas_can_fit(
    atlas: Option<&AtlasReader>,
    width: i32,
    height: i32,
) -> bool {
    let atlas = match atlas {
        Some(atlas) => atlas,
        None => return false,
    };
    if !atlas.holds() {
        return false;
    }
    let held = atlas.lent();
    held.can_fit(size2(width, height))
}

/// Takes memory for this many slots beyond those in use; nothing else changes. While there is memory for 4 more slots no
/// request is answered `MEMORY`, and for 3 no growth; a request uses at most 4, a growth at most 3, a freeing none. The
/// memory stays until the atlas is rearranged or freed, and a copy has none of it.
/// `DONE`; `SLOTS` if more slots would be used than the limit allows; `MEMORY`; `EMPTY`.
#[no_mangle]
pub extern "C" fn guillotiere_atlas_reserve(
    atlas: Option<&mut AtlasHandle>,
    additional: u32,
) -> u32 {
    let alloc = Global;
    let atlas = match atlas {
        Some(atlas) => atlas,
        None => return crate::plain::NULL_POINTER,
    };
    if !atlas.holds() {
        return EMPTY;
    }
    let mut held = atlas.take(alloc);
    let answer = held.reserve(additional);
    atlas.put(held);
    status_of_done(answer)
}

/// Starts again at the present size, options and limit: one free box, no id live. Takes no memory. `DONE`; `EMPTY`.
#[no_mangle]
pub extern "C" fn guillotiere_atlas_clear(atlas: Option<&mut AtlasHandle>) -> u32 {
    let alloc = Global;
    let atlas = match atlas {
        Some(atlas) => atlas,
        None => return crate::plain::NULL_POINTER,
    };
    if !atlas.holds() {
        return EMPTY;
    }
    let mut held = atlas.take(alloc);
    let answer = held.clear();
    atlas.put(held);
    status_of_done(answer)
}

/// Starts again at this size and with these options; the limit stays. Takes no memory.
/// `DONE`; `BAD_CALL` if a side isn't above 0 or the options aren't valid; `EMPTY`.
#[no_mangle]
pub extern "C" fn guillotiere_atlas_reset(
    atlas: Option<&mut AtlasHandle>,
    width: i32,
    height: i32,
    options: Option<&PlainOptions>,
) -> u32 {
    let alloc = Global;
    let atlas = match atlas {
        Some(atlas) => atlas,
        None => return crate::plain::NULL_POINTER,
    };
    let options = match options {
        Some(options) => options,
        None => return crate::plain::NULL_POINTER,
    };
    if !atlas.holds() {
        return EMPTY;
    }
    let options = options_for(options);
    let mut held = atlas.take(alloc);
    if width <= 0 || height <= 0 || !options.is_valid() {
        atlas.put(held);
        return BAD_CALL;
    }
    let answer = held.reset(size2(width, height), &options);
    atlas.put(held);
    status_of_done(answer)
}

/// The size of the atlas. `DONE`; `EMPTY`.
#[no_mangle]
pub extern "C" fn guillotiere_atlas_size(
    atlas: Option<&AtlasReader>,
    size: Option<&mut PlainSize>,
) -> u32 {
    let atlas = match atlas {
        Some(atlas) => atlas,
        None => return crate::plain::NULL_POINTER,
    };
    let size = match size {
        Some(size) => size,
        None => return crate::plain::NULL_POINTER,
    };
    if !atlas.holds() {
        return EMPTY;
    }
    let held = atlas.lent();
    *size = plain_size(held.size());
    DONE
}

/// The options of the atlas. `DONE`; `EMPTY`.
#[no_mangle]
pub extern "C" fn guillotiere_atlas_options(
    atlas: Option<&AtlasReader>,
    options: Option<&mut PlainOptions>,
) -> u32 {
    let atlas = match atlas {
        Some(atlas) => atlas,
        None => return crate::plain::NULL_POINTER,
    };
    let options = match options {
        Some(options) => options,
        None => return crate::plain::NULL_POINTER,
    };
    if !atlas.holds() {
        return EMPTY;
    }
    let held = atlas.lent();
    *options = plain_options(held.options());
    DONE
}

/// The counts of slots. `DONE`; `EMPTY`.
#[no_mangle]
pub extern "C" fn guillotiere_atlas_slots(
    atlas: Option<&AtlasReader>,
    slots: Option<&mut PlainSlots>,
) -> u32 {
    let atlas = match atlas {
        Some(atlas) => atlas,
        None => return crate::plain::NULL_POINTER,
    };
    let slots = match slots {
        Some(slots) => slots,
        None => return crate::plain::NULL_POINTER,
    };
    if !atlas.holds() {
        return EMPTY;
    }
    let held = atlas.lent();
    *slots = plain_slots(held.slots());
    DONE
}

/// The areas of all live and of all free boxes, in one pass over the slots. `DONE`; `EMPTY`.
#[no_mangle]
pub extern "C" fn guillotiere_atlas_areas(
    atlas: Option<&AtlasReader>,
    areas: Option<&mut PlainAreas>,
) -> u32 {
    let atlas = match atlas {
        Some(atlas) => atlas,
        None => return crate::plain::NULL_POINTER,
    };
    let areas = match areas {
        Some(areas) => areas,
        None => return crate::plain::NULL_POINTER,
    };
    if !atlas.holds() {
        return EMPTY;
    }
    let held = atlas.lent();
    *areas = PlainAreas {
        allocated: held.allocated_area(),
        free: held.free_area(),
    };
    DONE
}

/// Of the area that is free, what lies in free boxes which have no room for a request of this size, rounded up by the options:
/// all of it, if a side is 0 or less. Asked with the size of a usual box it says how fragmented the atlas is: where much is of
/// no use, it is time to rearrange it. Takes one pass over the slots, and no memory. `DONE`; `EMPTY`.
#[no_mangle]
pub extern "C" fn guillotiere_atlas_unusable_area(
    atlas: Option<&AtlasReader>,
    width: i32,
    height: i32,
    area: Option<&mut u64>,
) -> u32 {
    let atlas = match atlas {
        Some(atlas) => atlas,
        None => return crate::plain::NULL_POINTER,
    };
    let area = match area {
        Some(area) => area,
        None => return crate::plain::NULL_POINTER,
    };
    if !atlas.holds() {
        return EMPTY;
    }
    let held = atlas.lent();
    *area = held.unusable_area(size2(width, height));
    DONE
}

/// The free box of the largest area; of several the topmost one, and of these the leftmost. Takes one pass over the slots.
/// `DONE`: it is in `found`. `NO_ROOM` if nothing is free; `EMPTY`.
#[no_mangle]
pub extern "C" fn guillotiere_atlas_largest_free(
    atlas: Option<&AtlasReader>,
    found: Option<&mut PlainRectangle>,
) -> u32 {
    let atlas = match atlas {
        Some(atlas) => atlas,
        None => return crate::plain::NULL_POINTER,
    };
    let found = match found {
        Some(found) => found,
        None => return crate::plain::NULL_POINTER,
    };
    if !atlas.holds() {
        return EMPTY;
    }
    let held = atlas.lent();
    let rectangle = held.largest_free();
    match rectangle {
        Some(rectangle) => {
            *found = plain_rectangle(rectangle);
            DONE
        }
        None => NO_ROOM,
    }
}

/// Whether no id is live; also true of a handle that holds nothing.
#[no_mangle]
pub extern "C" fn guillotiere_atlas_is_empty(atlas: Option<&AtlasReader>) -> bool {
    let atlas = match atlas {
        Some(atlas) => atlas,
        None => return false,
    };
    if !atlas.holds() {
        return true;
    }
    let held = atlas.lent();
    held.is_empty()
}
