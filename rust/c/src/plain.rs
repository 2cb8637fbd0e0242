// Erased from crates/guillotiere_c/src/plain.rt by rust/erase: don't edit.
//! What crosses to C: statuses, numbers, and structs of numbers. All lengths are in pixels, all areas in unit squares.

use wollemigo_core::guillotiere::{
    size2, AllocId, Allocation, AllocatorOptions, AtlasError, Change, Point, Rectangle, Size,
    SlotCount,
};

/// Done; what is granted, found or listed was written.
pub const DONE: u32 = 0;

/// The request has no room.
pub const NO_ROOM: u32 = 1;

/// An empty size, options that aren't valid, a growth that shrinks a side, or a bad limit.
pub const BAD_CALL: u32 = 2;

/// An id isn't live, or is listed twice.
pub const NOT_LIVE: u32 = 3;

/// More slots would be used than the limit allows.
pub const SLOTS: u32 = 4;

/// Memory was refused.
pub const MEMORY: u32 = 5;

/// An array is too short.
pub const SHORT: u32 = 6;

/// A handle holds nothing.
pub const EMPTY: u32 = 7;

/// A side of the sheet, or the least that is allowed, is below 1.
pub const EMPTY_SHEET: u32 = 8;

/// The greatest side of a sheet is below the least.
pub const EMPTY_RANGE: u32 = 9;

/// A side of the alignment is below 1.
pub const EMPTY_ALIGNMENT: u32 = 10;

/// A sprite has a side below 1.
pub const EMPTY_SPRITE: u32 = 11;

/// A side of a sprite, with the padding at both its ends, exceeds 2147483647 pixels.
pub const GREAT_SPRITE: u32 = 12;

/// A key is held with another size.
pub const OTHER_SIZE: u32 = 13;

/// A cache holds 4294967295 keys, and can hold no more.
pub const NUMBERS: u32 = 14;

/// A side of a new page is below 1.
pub const EMPTY_PAGE: u32 = 15;

/// A side of the largest page is less than that of a new one.
pub const LARGEST_PAGE: u32 = 16;

/// No pages are allowed.
pub const NO_PAGES: u32 = 17;

/// The padding is below 0.
pub const BAD_PADDING: u32 = 18;

/// The options of the pages' atlases aren't valid.
pub const BAD_ATLAS: u32 = 19;

/// A key isn't held.
pub const NOT_HELD: u32 = 20;

/// Each change was handed over.
pub const NO_CHANGE: u32 = 21;

/// There is no such page.
pub const NO_PAGE: u32 = 22;

/// A key that is inserted was held already; its place was written.
pub const HELD: u32 = 23;

/// This frame uses all that the pages of a cache have room for.
pub const FRAME_FULL: u32 = 24;

/// With the padding, rounded up to the alignment, a size exceeds the largest page.
pub const NEVER_FITS: u32 = 25;

/// With the padding and rounded up, not even 1 by 1 fits the largest page; 26 isn't used.
pub const NOTHING_FITS: u32 = 27;

// No export answers it: what stands before them does, in the plain library the erased form of an export (docs/PLAIN.md, rule
// 11), in the proved one some C (bindings/nulls.py).
/// A pointer is null, or that of an array whose length isn't 0; nothing was done.
pub const NULL_POINTER: u32 = 28;

/// A handle that is to be filled holds something already.
pub const OCCUPIED: u32 = 29;

/// `width` by `height` alone.
pub const ONE_SIZE: u32 = 0;

/// Squares with a side from `least` to `greatest`.
pub const SQUARES: u32 = 1;

/// Each side a power of two, at most `greatest`; the sides may differ.
pub const POWERS: u32 = 2;

/// `width`, and a height from 1 to `greatest`.
pub const HEIGHTS: u32 = 3;

/// Instead of the number of a group: the sprite is in none. Every smaller number, 0 included, is that of a group.
pub const NO_GROUP: u32 = 4_294_967_295;

/// There is a new page, the last one: make a texture of `size` for `page`.
pub const PAGE_ADDED: u32 = 0;

/// `page` has this `size` now, and nothing on it moved: make its texture larger.
pub const PAGE_GROWN: u32 = 1;

/// `key` is gone, and its place was `from`.
pub const EVICTED: u32 = 2;

/// `key` moved, by a repacking: copy `from.rectangle` to `to.rectangle`, border and all, out of a copy of the page as it was
/// before the call.
pub const MOVED: u32 = 3;

/// `page`, the last one, is gone, and nothing was on it: drop its texture.
pub const PAGE_REMOVED: u32 = 4;

/// The greatest limit on the slots of an atlas, and that of an atlas without a limit of its own.
pub const MOST_SLOTS: u32 = 16_777_216;

pub const INTERFACE: u32 = 3;

// The three numbers of the version.
pub const VERSION_MAJOR: u32 = 0;

pub const VERSION_MINOR: u32 = 7;

pub const VERSION_PATCH: u32 = 0;

/// A size, in pixels.
#[repr(C)]
#[derive(Clone, Copy)]
pub struct PlainSize {
    pub width: i32,
    pub height: i32,
}

/// The unit squares from `min` up to, but not including, `max`.
#[repr(C)]
#[derive(Clone, Copy)]
pub struct PlainRectangle {
    pub min_x: i32,
    pub min_y: i32,
    pub max_x: i32,
    pub max_y: i32,
}

/// A live box. An id that was freed may be issued again, for another box, even by the next call: forget it when you free it.
#[repr(C)]
#[derive(Clone, Copy)]
pub struct PlainAllocation {
    pub id: u32,
    pub rectangle: PlainRectangle,
}

/// A box that was placed anew: under its former id, and under the id that it has now. Its sides stay.
#[repr(C)]
#[derive(Clone, Copy)]
pub struct PlainChange {
    pub before: PlainAllocation,
    pub after: PlainAllocation,
}

/// Sides of requests are rounded up to multiples of the alignment, whose sides are above 0. A size is small if both its sides
/// are below the small threshold, large if one is at least the large one; the small one is at most the large one.
#[repr(C)]
#[derive(Clone, Copy)]
pub struct PlainOptions {
    pub alignment_width: i32,
    pub alignment_height: i32,
    pub small_size_threshold: i32,
    pub large_size_threshold: i32,
}

/// How many slots are used, the most that were used at once since the last start, and how many may be used. Each live and
/// each free box takes a slot, and so does each container of the tree of cuts. Of a simple allocator: its entries, one for
/// each free box; how many there are, used and unused; and 4261412864.
#[repr(C)]
#[derive(Clone, Copy)]
pub struct PlainSlots {
    pub used: u32,
    pub kept: u32,
    pub limit: u32,
}

/// The areas of all live and of all free boxes of an atlas or of a page, which are together its own.
#[repr(C)]
#[derive(Clone, Copy)]
pub struct PlainAreas {
    pub allocated: u64,
    pub free: u64,
}

/// How many changes and failures a rearranging wrote.
#[repr(C)]
#[derive(Clone, Copy)]
pub struct PlainChangeCount {
    pub changes: usize,
    pub failures: usize,
}

/// A size as C has it.
pub fn plain_size(size: Size) -> PlainSize {
    PlainSize {
        width: size.width,
        height: size.height,
    }
}

/// A rectangle as C has it.
pub fn plain_rectangle(rectangle: Rectangle) -> PlainRectangle {
    let Rectangle { min, max } = rectangle;
    PlainRectangle {
        min_x: min.x,
        min_y: min.y,
        max_x: max.x,
        max_y: max.y,
    }
}

/// A live box as C has it.
pub fn plain_allocation(allocation: Allocation) -> PlainAllocation {
    PlainAllocation {
        id: allocation.id.serialize(),
        rectangle: plain_rectangle(allocation.rectangle),
    }
}

/// What a box was and what it became, as C has it.
pub fn plain_change(change: Change) -> PlainChange {
    PlainChange {
        before: plain_allocation(change.old),
        after: plain_allocation(change.new),
    }
}

/// Counts of slots as C has them.
pub fn plain_slots(slots: SlotCount) -> PlainSlots {
    PlainSlots {
        used: slots.used,
        kept: slots.kept,
        limit: slots.limit,
    }
}

/// Options as C has them.
pub fn plain_options(options: AllocatorOptions) -> PlainOptions {
    PlainOptions {
        alignment_width: options.alignment.width,
        alignment_height: options.alignment.height,
        small_size_threshold: options.small_size_threshold,
        large_size_threshold: options.large_size_threshold,
    }
}

/// Options of C's as the library has them.
pub fn options_for(options: &PlainOptions) -> AllocatorOptions {
    AllocatorOptions {
        alignment: size2(options.alignment_width, options.alignment_height),
        small_size_threshold: options.small_size_threshold,
        large_size_threshold: options.large_size_threshold,
    }
}

/// The status of an error.
pub fn status_of(error: AtlasError) -> u32 {
    match error {
        AtlasError::NotLive => NOT_LIVE,
        AtlasError::Slots => SLOTS,
        AtlasError::Memory => MEMORY,
    }
}

/// The status of an answer that gives nothing back.
pub fn status_of_done(answer: Result<(), AtlasError>) -> u32 {
    match answer {
        Ok(()) => DONE,
        Err(error) => status_of(error),
    }
}
