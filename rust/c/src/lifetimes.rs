// Erased from crates/guillotiere_c/src/lifetimes.rt by rust/erase: don't edit.
//! The exports that make atlases, copy them and free them.

use crate::atlas_handle::{AtlasHandle, AtlasReader};
use crate::plain::{
    options_for, PlainOptions, BAD_CALL, DONE, EMPTY, MEMORY, MOST_SLOTS, OCCUPIED,
};
use wollemigo_core::guillotiere::{size2, AllocatorOptions, AtlasAllocator, DEFAULT_OPTIONS};
use wollemigo_support::alloc::Global;
use wollemigo_support::prelude::Box;

// Makes an atlas where the handle holds nothing.
fn start(
    alloc: Global,
    width: i32,
    height: i32,
    options: &AllocatorOptions,
    limit: u32,
    atlas: &mut AtlasHandle,
) -> u32 {
    if atlas.holds() {
        return OCCUPIED;
    }
    let is_limit = 1 <= limit && limit <= MOST_SLOTS;
    if width <= 0 || height <= 0 || !options.is_valid() || !is_limit {
        return BAD_CALL;
    }
    let made = AtlasAllocator::with_slot_limit(alloc, size2(width, height), options, limit);
    let made = match made {
        Ok(made) => made,
        _ => {
            return MEMORY;
        }
    };
    match Box::new(alloc, made) {
        Ok(held) => {
            atlas.put(held);
            DONE
        }
        Err(_) => MEMORY,
    }
}

/// Makes an atlas with the default options, where the handle holds nothing.
/// `DONE`; `BAD_CALL` if a side isn't above 0; `MEMORY`; `OCCUPIED`, before all others, if the handle holds an atlas already.
#[no_mangle]
pub extern "C" fn guillotiere_atlas_new(
    width: i32,
    height: i32,
    atlas: Option<&mut AtlasHandle>,
) -> u32 {
    let alloc = Global;
    let atlas = match atlas {
        Some(atlas) => atlas,
        None => return crate::plain::NULL_POINTER,
    };
    start(alloc, width, height, &DEFAULT_OPTIONS, MOST_SLOTS, atlas)
}

/// Makes an atlas with these options, where the handle holds nothing. `DONE`; `BAD_CALL` if a side isn't above 0 or the
/// options aren't valid; `MEMORY`; `OCCUPIED`, before all others, if the handle holds an atlas already.
#[no_mangle]
pub extern "C" fn guillotiere_atlas_with_options(
    width: i32,
    height: i32,
    options: Option<&PlainOptions>,
    atlas: Option<&mut AtlasHandle>,
) -> u32 {
    let alloc = Global;
    let options = match options {
        Some(options) => options,
        None => return crate::plain::NULL_POINTER,
    };
    let atlas = match atlas {
        Some(atlas) => atlas,
        None => return crate::plain::NULL_POINTER,
    };
    let options = options_for(options);
    start(alloc, width, height, &options, MOST_SLOTS, atlas)
}

/// Makes an atlas with these options and a limit on the slots that are used at once, where the handle holds nothing. `DONE`;
/// `BAD_CALL` if a side isn't above 0, the options aren't valid, or the limit isn't from 1 to `GUILLOTIERE_MOST_SLOTS`; `MEMORY`;
/// `OCCUPIED`, before all others, if the handle holds an atlas already.
#[no_mangle]
pub extern "C" fn guillotiere_atlas_with_slot_limit(
    width: i32,
    height: i32,
    options: Option<&PlainOptions>,
    limit: u32,
    atlas: Option<&mut AtlasHandle>,
) -> u32 {
    let alloc = Global;
    let options = match options {
        Some(options) => options,
        None => return crate::plain::NULL_POINTER,
    };
    let atlas = match atlas {
        Some(atlas) => atlas,
        None => return crate::plain::NULL_POINTER,
    };
    let options = options_for(options);
    start(alloc, width, height, &options, limit, atlas)
}

/// Frees an atlas, with all its memory; the handle holds nothing then. Of a handle that holds nothing: does nothing.
#[no_mangle]
pub extern "C" fn guillotiere_atlas_free(atlas: Option<&mut AtlasHandle>) {
    let alloc = Global;
    let atlas = match atlas {
        Some(atlas) => atlas,
        None => return,
    };
    if !atlas.holds() {
        return;
    }
    let _held = atlas.take(alloc);
}

/// Makes a copy that shares nothing with the atlas, where `copy` holds nothing: it answers later calls as the atlas does,
/// except where memory is refused. `DONE`; `MEMORY`; `EMPTY` if `atlas` holds nothing; `OCCUPIED` if `copy` holds something.
#[no_mangle]
pub extern "C" fn guillotiere_atlas_clone(
    atlas: Option<&AtlasReader>,
    copy: Option<&mut AtlasHandle>,
) -> u32 {
    let alloc = Global;
    let atlas = match atlas {
        Some(atlas) => atlas,
        None => return crate::plain::NULL_POINTER,
    };
    let copy = match copy {
        Some(copy) => copy,
        None => return crate::plain::NULL_POINTER,
    };
    if !atlas.holds() {
        return EMPTY;
    }
    if copy.holds() {
        return OCCUPIED;
    }
    let held = atlas.lent();
    let made = held.clone();
    let made = match made {
        Ok(made) => made,
        _ => {
            return MEMORY;
        }
    };
    match Box::new(alloc, made) {
        Ok(boxed) => {
            copy.put(boxed);
            DONE
        }
        Err(_) => MEMORY,
    }
}
