// Erased from crates/guillotiere_c/src/lib.rt by rust/erase: don't edit.
//! The allocators of `guillotiere` for C, and for every language that can call C (bindings/README.md).
//!
//! An allocator is held by a handle of one pointer, which its caller keeps and which is all zero while it holds
//! nothing. Each call is total: it tests its own conditions, answers a status (`plain`), and writes what it gives back
//! where its arguments point. A call that isn't `DONE` changes nothing; but a cache counts a miss, an insert that is
//! refused may have made changes, which it reports, and a refused reserve of slots keeps those of the pages before.
#![cfg_attr(not(feature = "std"), no_std)]
#![allow(dead_code, unused_imports, unused_labels, unused_variables)]

mod atlas;
mod atlas_handle;
mod atlas_lists;
mod cache;
mod cache_copy;
mod cache_figures;
mod cache_handle;
mod cache_order;
mod dense;
mod filled;
mod followed;
mod groups;
mod held;
mod lifetimes;
mod paged;
mod paged_handle;
mod pages;
mod plain;
mod plain_cache;
mod plain_paged;
mod plain_sheet;
mod sheet;
mod simple;
mod simple_handle;
mod version;
mod writing;

wollemigo_support::library_for_c! {
    guillotiere_set_memory, guillotiere_status_text,
    0 => "done",
    1 => "the request has no room",
    2 => "an empty size, options that aren't valid, a growth that shrinks a side, or a bad limit",
    3 => "an id isn't live, or is listed twice",
    4 => "more slots would be used than the limit allows",
    5 => "memory was refused",
    6 => "an array is too short",
    7 => "a handle holds nothing",
    8 => "a side of the sheet, or the least that is allowed, is below 1",
    9 => "the greatest side of a sheet is below the least",
    10 => "a side of the alignment is below 1",
    11 => "a sprite has a side below 1",
    12 => "a side of a sprite, with the padding at both its ends, exceeds 2147483647 pixels",
    13 => "a key is held with another size",
    14 => "a cache holds 4294967295 keys, and can hold no more",
    15 => "a side of a new page is below 1",
    16 => "a side of the largest page is less than that of a new one",
    17 => "no pages are allowed",
    18 => "the padding is below 0",
    19 => "the options of the pages' atlases aren't valid",
    20 => "a key isn't held",
    21 => "each change was handed over",
    22 => "there is no such page",
    23 => "a key that is inserted was held already",
    24 => "this frame uses all that the pages of a cache have room for",
    25 => "with the padding, rounded up to the alignment, a size exceeds the largest page",
    27 => "with the padding and rounded up, not even 1 by 1 fits the largest page",
    28 => "a pointer is null, or that of an array whose length isn't 0",
    29 => "a handle that is to be filled holds something already",
    _ => "no status",
}
