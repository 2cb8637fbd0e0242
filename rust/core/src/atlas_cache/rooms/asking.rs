// Erased from crates/atlas_cache/src/rooms/asking.rt by rust/erase: don't edit.
//! A request to a page, which isn't searched again where that can't help.

use crate::atlas_cache::rooms::repacking::area_of;
use crate::guillotiere::{Allocation, AtlasAllocator, AtlasError, Size};
use wollemigo_support::alloc::Allocator;

/// What is kept of a page: two sizes that it has no room for, and the area of what is live on it.
#[derive(Clone, Copy)]
pub struct Known {
    /// What it refused last.
    pub first: Size,
    /// What it refused before that.
    pub second: Size,
    /// The area of what is live on it, in pixels.
    pub live: u64,
}

// A size that no page has room for.
const NO_SIZE: Size = Size {
    width: 0,
    height: 0,
};

/// What is known of a page that changed: the area of what is live on it now.
#[inline]
#[must_use]
pub fn changed(live: u64) -> Known {
    Known {
        first: NO_SIZE,
        second: NO_SIZE,
        live,
    }
}

// Whether a page with no room for one size, of which no side is below 1, has none for another either.
#[inline]
fn is_no_smaller(asked: Size, refused: Size) -> bool {
    0 < refused.width
        && refused.width <= asked.width
        && 0 < refused.height
        && refused.height <= asked.height
}

// One more size that a page has no room for. Where that is no larger than the first, it takes its place.
#[inline]
fn with(known: Known, asked: Size) -> Known {
    let second = if is_no_smaller(known.first, asked) {
        known.second
    } else {
        known.first
    };
    Known {
        first: asked,
        second,
        live: known.live,
    }
}

/// Asks a page, as `allocate` does. It isn't searched if it is known to have no room: it had none for a size in `known`, which
/// isn't larger. From then on `known` is what is known of the page: that it has none for this size either, where it granted nothing.
#[inline]
pub fn ask<A: Allocator + Copy>(
    page: &mut AtlasAllocator<A>,
    known: &mut Known,
    asked: Size,
) -> Result<Option<Allocation>, AtlasError> {
    let _size = page.size();
    if is_no_smaller(asked, known.first) {
        return Ok(None);
    }
    if is_no_smaller(asked, known.second) {
        return Ok(None);
    }
    match page.allocate(asked) {
        Ok(None) => {
            *known = with(*known, asked);
            Ok(None)
        }
        Ok(Some(granted)) => {
            *known = changed(known.live + area_of(granted.rectangle));
            Ok(Some(granted))
        }
        Err(error) => Err(error),
    }
}
