// Erased from crates/guillotiere_c/src/simple.rt by rust/erase: don't edit.
//! The exports of a simple allocator.

use crate::atlas_handle::AtlasReader;
use crate::plain::{
    options_for, plain_options, plain_rectangle, plain_size, plain_slots, status_of,
    status_of_done, PlainOptions, PlainRectangle, PlainSize, PlainSlots, BAD_CALL, DONE, EMPTY,
    MEMORY, NO_ROOM, OCCUPIED,
};
use crate::simple_handle::{SimpleHandle, SimpleReader};
use wollemigo_core::guillotiere::{
    size2, AllocatorOptions, AtlasError, Rectangle, SimpleAtlasAllocator, Size, DEFAULT_OPTIONS,
};
use wollemigo_support::alloc::Global;
use wollemigo_support::prelude::Box;

// Makes a simple allocator where the handle holds nothing.
fn start(
    alloc: Global,
    width: i32,
    height: i32,
    options: &AllocatorOptions,
    simple: &mut SimpleHandle,
) -> u32 {
    if simple.holds() {
        return OCCUPIED;
    }
    if width <= 0 || height <= 0 || !options.is_valid() {
        return BAD_CALL;
    }
    let made = SimpleAtlasAllocator::with_options(alloc, size2(width, height), options);
    let made = match made {
        Ok(made) => made,
        _ => {
            return MEMORY;
        }
    };
    match Box::new(alloc, made) {
        Ok(held) => {
            simple.put(held);
            DONE
        }
        Err(_) => MEMORY,
    }
}

/// Makes a simple allocator with the default options, where the handle holds nothing.
/// `DONE`; `BAD_CALL` if a side isn't above 0; `MEMORY`; `OCCUPIED`, before all others, if the handle holds one already.
#[no_mangle]
pub extern "C" fn guillotiere_simple_new(
    width: i32,
    height: i32,
    simple: Option<&mut SimpleHandle>,
) -> u32 {
    let alloc = Global;
    let simple = match simple {
        Some(simple) => simple,
        None => return crate::plain::NULL_POINTER,
    };
    start(alloc, width, height, &DEFAULT_OPTIONS, simple)
}

/// Makes a simple allocator with these options, where the handle holds nothing. `DONE`; `BAD_CALL` if a side isn't above 0
/// or the options aren't valid; `MEMORY`; `OCCUPIED`, before all others, if the handle holds one already.
#[no_mangle]
pub extern "C" fn guillotiere_simple_with_options(
    width: i32,
    height: i32,
    options: Option<&PlainOptions>,
    simple: Option<&mut SimpleHandle>,
) -> u32 {
    let alloc = Global;
    let options = match options {
        Some(options) => options,
        None => return crate::plain::NULL_POINTER,
    };
    let simple = match simple {
        Some(simple) => simple,
        None => return crate::plain::NULL_POINTER,
    };
    let options = options_for(options);
    start(alloc, width, height, &options, simple)
}

/// Frees a simple allocator, with all its memory; the handle holds nothing then.
#[no_mangle]
pub extern "C" fn guillotiere_simple_free(simple: Option<&mut SimpleHandle>) {
    let alloc = Global;
    let simple = match simple {
        Some(simple) => simple,
        None => return,
    };
    if !simple.holds() {
        return;
    }
    let _held = simple.take(alloc);
}

// Requests a rectangle; what the export's contract needs of the answer.
fn request(simple: &mut SimpleAtlasAllocator, size: Size) -> Result<Option<Rectangle>, AtlasError> {
    simple.allocate(size)
}

/// Asks for a box of this size, rounded up by the options. `DONE`: its rectangle is in `granted`. `NO_ROOM` if the size is
/// empty or fits no free box; `MEMORY`; `EMPTY`.
#[no_mangle]
pub extern "C" fn guillotiere_simple_allocate(
    simple: Option<&mut SimpleHandle>,
    width: i32,
    height: i32,
    granted: Option<&mut PlainRectangle>,
) -> u32 {
    let alloc = Global;
    let simple = match simple {
        Some(simple) => simple,
        None => return crate::plain::NULL_POINTER,
    };
    let granted = match granted {
        Some(granted) => granted,
        None => return crate::plain::NULL_POINTER,
    };
    if !simple.holds() {
        return EMPTY;
    }
    let mut held = simple.take(alloc);
    let answer = request(&mut held, size2(width, height));
    simple.put(held);
    match answer {
        Ok(Some(rectangle)) => {
            *granted = plain_rectangle(rectangle);
            DONE
        }
        Ok(None) => NO_ROOM,
        Err(error) => status_of(error),
    }
}

/// Makes the allocator larger. `DONE`; `BAD_CALL` if a side shrinks; `MEMORY`; `EMPTY`.
#[no_mangle]
pub extern "C" fn guillotiere_simple_grow(
    simple: Option<&mut SimpleHandle>,
    width: i32,
    height: i32,
) -> u32 {
    let alloc = Global;
    let simple = match simple {
        Some(simple) => simple,
        None => return crate::plain::NULL_POINTER,
    };
    if !simple.holds() {
        return EMPTY;
    }
    let mut held = simple.take(alloc);
    let size = held.size();
    if width < size.width || height < size.height {
        simple.put(held);
        return BAD_CALL;
    }
    let answer = held.grow(size2(width, height));
    simple.put(held);
    status_of_done(answer)
}

/// Whether the allocator may be grown to this size, in pixels: no side shrinks. False of a handle that holds nothing.
#[no_mangle]
pub extern "C" fn guillotiere_simple_can_grow_to(
    simple: Option<&SimpleReader>,
    width: i32,
    height: i32,
) -> bool {
    let simple = match simple {
        Some(simple) => simple,
        None => return false,
    };
    if !simple.holds() {
        return false;
    }
    let held = simple.lent();
    held.can_grow_to(size2(width, height))
}

/// Starts again with one free box of the allocator's size. Keeps the room of the entries, and takes no memory. `DONE`; `EMPTY`.
#[no_mangle]
pub extern "C" fn guillotiere_simple_clear(simple: Option<&mut SimpleHandle>) -> u32 {
    let alloc = Global;
    let simple = match simple {
        Some(simple) => simple,
        None => return crate::plain::NULL_POINTER,
    };
    if !simple.holds() {
        return EMPTY;
    }
    let mut held = simple.take(alloc);
    let answer = held.clear();
    simple.put(held);
    status_of_done(answer)
}

/// Starts again at this size and with these options. Keeps the room of the entries, and takes no memory.
/// `DONE`; `BAD_CALL` if a side isn't above 0 or the options aren't valid; `EMPTY`.
#[no_mangle]
pub extern "C" fn guillotiere_simple_reset(
    simple: Option<&mut SimpleHandle>,
    width: i32,
    height: i32,
    options: Option<&PlainOptions>,
) -> u32 {
    let alloc = Global;
    let simple = match simple {
        Some(simple) => simple,
        None => return crate::plain::NULL_POINTER,
    };
    let options = match options {
        Some(options) => options,
        None => return crate::plain::NULL_POINTER,
    };
    if !simple.holds() {
        return EMPTY;
    }
    let options = options_for(options);
    let mut held = simple.take(alloc);
    if width <= 0 || height <= 0 || !options.is_valid() {
        simple.put(held);
        return BAD_CALL;
    }
    let answer = held.reset(size2(width, height), &options);
    simple.put(held);
    status_of_done(answer)
}

/// Takes over an atlas's size, options and free boxes, so that it never grants what is live there. The atlas stays as it is.
/// `DONE`; `MEMORY`; `EMPTY` if one of the handles holds nothing.
#[no_mangle]
pub extern "C" fn guillotiere_simple_init_from_allocator(
    simple: Option<&mut SimpleHandle>,
    atlas: Option<&AtlasReader>,
) -> u32 {
    let alloc = Global;
    let simple = match simple {
        Some(simple) => simple,
        None => return crate::plain::NULL_POINTER,
    };
    let atlas = match atlas {
        Some(atlas) => atlas,
        None => return crate::plain::NULL_POINTER,
    };
    if !simple.holds() {
        return EMPTY;
    }
    let mut held = simple.take(alloc);
    if !atlas.holds() {
        simple.put(held);
        return EMPTY;
    }
    let source = atlas.lent();
    let answer = held.init_from_allocator(source);
    simple.put(held);
    status_of_done(answer)
}

/// The size of the allocator. `DONE`; `EMPTY`.
#[no_mangle]
pub extern "C" fn guillotiere_simple_size(
    simple: Option<&SimpleReader>,
    size: Option<&mut PlainSize>,
) -> u32 {
    let simple = match simple {
        Some(simple) => simple,
        None => return crate::plain::NULL_POINTER,
    };
    let size = match size {
        Some(size) => size,
        None => return crate::plain::NULL_POINTER,
    };
    if !simple.holds() {
        return EMPTY;
    }
    let held = simple.lent();
    *size = plain_size(held.size());
    DONE
}

/// The options of the allocator. `DONE`; `EMPTY`.
#[no_mangle]
pub extern "C" fn guillotiere_simple_options(
    simple: Option<&SimpleReader>,
    options: Option<&mut PlainOptions>,
) -> u32 {
    let simple = match simple {
        Some(simple) => simple,
        None => return crate::plain::NULL_POINTER,
    };
    let options = match options {
        Some(options) => options,
        None => return crate::plain::NULL_POINTER,
    };
    if !simple.holds() {
        return EMPTY;
    }
    let held = simple.lent();
    *options = plain_options(held.options());
    DONE
}

/// The counts of entries, one of which each free box takes. `DONE`; `EMPTY`.
#[no_mangle]
pub extern "C" fn guillotiere_simple_slots(
    simple: Option<&SimpleReader>,
    slots: Option<&mut PlainSlots>,
) -> u32 {
    let simple = match simple {
        Some(simple) => simple,
        None => return crate::plain::NULL_POINTER,
    };
    let slots = match slots {
        Some(slots) => slots,
        None => return crate::plain::NULL_POINTER,
    };
    if !simple.holds() {
        return EMPTY;
    }
    let held = simple.lent();
    *slots = plain_slots(held.slots());
    DONE
}

/// Whether one free box has the allocator's size; also true of a handle that holds nothing.
#[no_mangle]
pub extern "C" fn guillotiere_simple_is_empty(simple: Option<&SimpleReader>) -> bool {
    let simple = match simple {
        Some(simple) => simple,
        None => return false,
    };
    if !simple.holds() {
        return true;
    }
    let held = simple.lent();
    held.is_empty()
}
