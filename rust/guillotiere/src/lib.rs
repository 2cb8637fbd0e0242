//! Rectangles inside textures: glyphs, icons and sprites that share one texture, or the layers of a few.
//!
//! | you have | take |
//! |---|---|
//! | things under keys, such as glyphs, of which more come than a texture holds | [`cache::TextureCache`]: it adds pages, lets them grow, and evicts what wasn't used |
//! | rectangles that you ask for and give back yourself | [`AtlasAllocator`]; on the layers of a texture array [`PagedAtlas`] |
//! | rectangles for one frame, all dropped at once | [`SimpleAtlasAllocator`] |
//! | all sprites known beforehand | [`sheet::pack`]: the smallest sheet that is found |
//! | an allocator that is to be kept in a file | [`recording::RecordingAllocator`] |
//!
//! A `#![no_std]` program takes it with `default-features = false` and `features = ["libm"]`: without `libm` euclid 0.22.7 doesn't compile
//! there ([features](#features)).
//!
//! A cache of glyphs, with what its program follows:
//!
//! ```
//! # #[cfg(feature = "cache")] {
//! use guillotiere::cache::{CacheOptions, Inserted, TextureCache};
//! use guillotiere::size2;
//!
//! let options = CacheOptions { pages: 4, padding: 1, ..CacheOptions::new(size2(512, 512)) };
//! let mut glyphs = TextureCache::new(&options).unwrap();
//! glyphs.begin_frame();
//! let inserted = glyphs.insert('g', size2(20, 30)).unwrap();
//! for change in glyphs.drain_changes() {
//!     println!("make or enlarge a texture, or copy pixels: {:?}", change);
//! }
//! if let Inserted::Placed(place) = inserted {
//!     println!("write the glyph into {:?} of texture {}", place.inner, place.page);
//! }
//! # }
//! ```
//!
//! Boxes of an atlas, asked for and given back:
//!
//! ```
//! use guillotiere::*;
//!
//! let mut atlas = AtlasAllocator::new(size2(1000, 1000));
//! let one = atlas.allocate(size2(100, 1000)).unwrap();
//! let other = atlas.allocate(size2(900, 200)).unwrap();
//! atlas.deallocate(one.id);
//! assert_eq!(atlas[other.id], other.rectangle);
//! ```
//!
//! # When to take it, and when not
//!
//! An atlas is cut in two, again and again, by lines from border to border (guillotine cuts), and what is given back joins the free
//! space next to it at once. So it suits boxes of many sizes that come and go. It isn't the right thing where
//!
//! - all boxes have one size: a grid and a list of free cells is smaller and faster;
//! - boxes are only added, and the last few percent of the texture count: [`sheet::pack_dense`] is fuller;
//! - coordinates are no `i32`, or a box may be turned while others come and go.
//!
//! # What calls cost
//!
//! | call | its time grows by |
//! |---|---|
//! | [`AtlasAllocator::new`] | nothing; it takes 44 bytes, and the ninth slot 11,656, once |
//! | [`allocate`](AtlasAllocator::allocate), [`can_fit`](AtlasAllocator::can_fit) | the lists of free boxes that are about as wide or as high, at most 103, since boxes are listed by 52 bands of their widths and 52 of their heights; of the boxes of one size in a list only the first is looked at; where none has just that width or height, one box of each size that is larger in both and may leave over less than the best so far |
//! | [`deallocate`](AtlasAllocator::deallocate) | the slots that go where free space is joined, each of which goes once |
//! | `atlas[id]`, [`get`](AtlasAllocator::get), [`size`](AtlasAllocator::size), [`is_empty`](AtlasAllocator::is_empty) | nothing |
//! | [`iter`](AtlasAllocator::iter), [`free_iter`](AtlasAllocator::free_iter) and the `for_each` calls, which take no memory; [`allocations`](AtlasAllocator::allocations) and [`free_rectangles`](AtlasAllocator::free_rectangles), which gather a list; [`areas`](AtlasAllocator::areas), [`unusable_area`](AtlasAllocator::unusable_area), [`largest_free`](AtlasAllocator::largest_free), `clone` | the most slots that were used at once |
//! | [`grow`](AtlasAllocator::grow) | the boxes and groups along the first cut |
//! | [`rearrange`](AtlasAllocator::rearrange), [`resize_and_rearrange`](AtlasAllocator::resize_and_rearrange) | sorting all live boxes, and a request for each |
//! | [`clear`](AtlasAllocator::clear), [`reset`](AtlasAllocator::reset) | the lists that had free boxes, at most 2,704 |
//! | [`PagedAtlas::allocate`] | a request to each page, until one has room; where none has, the making of a page |
//! | [`PagedAtlas::shrink`], [`clear`](PagedAtlas::clear), [`iter`](PagedAtlas::iter) | the pages, `iter` also by the most slots of each |
//! | `get`, `peek`, `contains_key` of a cache, `insert` of a key that is held | one look-up |
//! | `insert` of a new key | a step for each page; a request to each page, until one has room, but for pages that refused a size no larger, of the last two, and haven't changed since; if none has room, an eviction and one more request, up to 16 times, and then the keys that this frame didn't use, until without them a page would have room |
//! | an eviction | a freeing; it passes each blank key that is older than the key that goes (see `insert`) once, and not again until it is used |
//! | `remove`, `begin_frame` of a cache | one look-up, and a freeing; nothing |
//! | `iter`, `keys` of a cache | the keys, by a step each, without a look-up |
//! | `drain_changes` | the changes |
//! | `trim`, `end_batch` | the keys that go |
//! | `reserve_slots`, `clear` of a cache | the pages; `clear` also by the keys |
//! | `compact` | all keys, and for each of the last page that is small enough a request to each page before it that isn't known to have no room |
//! | `repack` | all keys, and the sorting of those on that page |
//! | `live_area`, `free_area`, `statistics` of a cache | nothing |
//! | `unusable_area` | the slots of that page |
//! | `sheet::pack`, `fill` and the others | a request for each sprite, times the ways and sheets that are tried, times `effort` |
//!
//! # Limits
//!
//! - Sides of an atlas, and of requests once they are rounded up to the alignment, go up to 2,147,483,647 pixels.
//! - An atlas has 16,777,216 slots at most ([`MOST_SLOTS`]): one for each live box, each free box and each group of boxes between cuts.
//! - The id of a freed box is given out again once its slot was taken 256 times, and may be at once after `clear`, `reset` or a
//!   rearrangement: don't keep ids of what is freed.
//! - Memory, where pointers have 64 bits: 44 bytes for each slot, of eight at a time from the second on; 16 more for its rectangle, of 64
//!   slots at a time from the first box on, with a list of these; and 11,656 once there is a ninth slot. So a new atlas takes 44 bytes, one
//!   with a box 1,408, and one with a ninth slot 13,416, and a live box among 65,536 equal tiles took 105. A `SimpleAtlasAllocator` takes
//!   32 for each free box, eight from the second on, and as much for the ninth. It stays until the atlas is dropped or rearranged.
//! - A cache has up to 4,294,967,295 entries.
//!
//! # Errors
//!
//! After an error everything is as it was before the call, also where memory is refused; of a cache, what it did before the error is
//! among its changes. Calls with a `try_` in their names return errors as values, and so do those of a cache and of sheets; the others
//! panic, and the text says which condition failed.
//!
//! # Features
//!
//! | feature | what it switches on |
//! |---|---|
//! | `std` (default) | `std::error::Error` for the errors; [`dump_svg`], [`dump_into_svg`] |
//! | `cache`, `sheet`, `recording` (default) | the modules of these names |
//! | `serialization`, `serde` | serde for both allocators, [`AllocId`], [`AllocatorOptions`] and [`NodeKind`], for an allocator by its [`recording`], and for what euclid has |
//! | `libm` | euclid's feature of this name, which its versions before 0.22.14 need without `std` |
//!
//! Without `std` this crate and those below it use only `core` and `alloc`.
//!
//! # What is proved
//!
//! All work is done by `wollemigo-core`, which is the text of proved sources with its contracts removed: each call of those sources
//! meets its contract. That the text means the same without them is tested, not proved. Here nothing is decided: values are turned
//! into those of euclid, and errors into panics. There is no unsafe code here or in the two packages below.
//!
//! # From the crate `guillotiere`
//!
//! This crate has the names of the crate `guillotiere` 0.7.0, so a program that uses it changes one line of its Cargo.toml. The README of
//! this package has a table of what behaves differently.
#![forbid(unsafe_code)]
#![warn(missing_docs)]
#![cfg_attr(not(feature = "std"), no_std)]

extern crate alloc;
pub extern crate euclid;
#[cfg(feature = "serialization")]
pub extern crate serde;

mod atlas;
#[cfg(feature = "cache")]
pub mod cache;
mod convert;
mod error;
mod paged;
#[cfg(feature = "recording")]
pub mod recording;
#[cfg(feature = "serialization")]
mod serialization;
#[cfg(feature = "sheet")]
pub mod sheet;
mod shown;
mod simple;
#[cfg(feature = "std")]
mod svg;
mod values;
mod walks;

pub use crate::atlas::AtlasAllocator;
pub use crate::error::AtlasError;
pub use crate::paged::{PageAllocation, PagedAtlas, PagesIter};
pub use crate::simple::SimpleAtlasAllocator;
#[cfg(feature = "std")]
pub use crate::svg::{dump_into_svg, dump_svg};
pub use crate::values::{
    AllocId, Allocation, AllocatorOptions, Areas, Change, ChangeList, NodeKind, Point, Rectangle,
    Size, SlotCount, DEFAULT_OPTIONS, MOST_SLOTS,
};
pub use crate::walks::{Allocations, FreeIter, FreeRectangles, LiveIter};
pub use euclid::{point2, size2};

// That rustc says so where an answer is dropped that is needed.
#[cfg(all(doctest, feature = "cache", feature = "sheet", feature = "recording"))]
#[doc = include_str!("../tests/dropped.md")]
mod dropped {}

// The example of the page.
#[cfg(all(doctest, feature = "cache"))]
#[doc = include_str!("../README.md")]
mod readme {}
