// Erased from crates/atlas_search/src/cut.rt by rust/erase: don't edit.
//! How a rectangle is cut for a request that fits it.

use crate::atlas_model::{Point, Rectangle, Size};

/// Which way members of a sequence lie next to each other.
#[derive(Clone, Copy, Debug, PartialEq, Eq, Hash)]
pub enum Orientation {
    Horizontal,
    Vertical,
}

/// The other axis.
#[inline]
#[must_use]
pub fn across(axis: Orientation) -> Orientation {
    match axis {
        Orientation::Horizontal => Orientation::Vertical,
        Orientation::Vertical => Orientation::Horizontal,
    }
}

/// What is left of a rectangle once a request is taken from its `min`: along an axis the split, as wide across as the
/// rectangle, and next to the request the leftover. Either may be empty.
#[derive(Clone, Copy, Debug, PartialEq, Eq, Hash)]
pub struct Rest {
    pub orientation: Orientation,
    pub split: Rectangle,
    pub leftover: Rectangle,
}

// The area, or 2147483647 if it is larger.
#[inline]
fn capped_area(width: i32, height: i32) -> u64 {
    let area = width as u64 * height as u64;
    if area < 2147483647 {
        area
    } else {
        2147483647
    }
}

/// The axis on which the greater part remains, counted by areas up to 2147483647.
#[inline]
#[must_use]
pub fn orientation_of(whole: Size, size: Size) -> Orientation {
    let beside = capped_area(whole.width - size.width, size.height);
    let below = capped_area(size.width, whole.height - size.height);
    if below < beside {
        Orientation::Horizontal
    } else {
        Orientation::Vertical
    }
}

// Where a request that lies at `min` ends.
#[inline]
fn corner_of(chosen: Rectangle, size: Size) -> Point {
    Point {
        x: chosen.min.x + size.width,
        y: chosen.min.y + size.height,
    }
}

/// The part of `chosen` that a request of this size takes: at its `min`.
#[inline]
#[must_use]
pub fn granted(chosen: Rectangle, size: Size) -> Rectangle {
    Rectangle {
        min: chosen.min,
        max: corner_of(chosen, size),
    }
}

/// The size of an exact rectangle.
#[inline]
#[must_use]
pub fn exact_size(area: Rectangle) -> Size {
    area.size()
}

/// The first `extent` pixels of a rectangle along an axis.
#[inline]
#[must_use]
pub fn front(area: Rectangle, axis: Orientation, extent: i32) -> Rectangle {
    let Rectangle { min, max } = area;
    match axis {
        Orientation::Horizontal => Rectangle {
            min,
            max: Point {
                x: min.x + extent,
                y: max.y,
            },
        },
        Orientation::Vertical => Rectangle {
            min,
            max: Point {
                x: max.x,
                y: min.y + extent,
            },
        },
    }
}

/// What is left of a rectangle after the first `extent` pixels along an axis.
#[inline]
#[must_use]
pub fn back(area: Rectangle, axis: Orientation, extent: i32) -> Rectangle {
    let Rectangle { min, max } = area;
    match axis {
        Orientation::Horizontal => Rectangle {
            min: Point {
                x: min.x + extent,
                y: min.y,
            },
            max,
        },
        Orientation::Vertical => Rectangle {
            min: Point {
                x: min.x,
                y: min.y + extent,
            },
            max,
        },
    }
}

/// What lies beyond a rectangle along an axis, to the far corner of a size.
#[inline]
#[must_use]
pub fn beyond(area: Rectangle, axis: Orientation, size: Size) -> Rectangle {
    let min = match axis {
        Orientation::Horizontal => Point {
            x: area.max.x,
            y: area.min.y,
        },
        Orientation::Vertical => Point {
            x: area.min.x,
            y: area.max.y,
        },
    };
    let max = Point {
        x: size.width,
        y: size.height,
    };
    Rectangle { min, max }
}

// What is left along an axis: the leftover is cut from the strip beside the split.
#[inline]
fn rest_along(orientation: Orientation, chosen: Rectangle, size: Size) -> Rest {
    let Size { width, height } = size;
    match orientation {
        Orientation::Horizontal => Rest {
            orientation,
            split: back(chosen, orientation, width),
            leftover: back(
                front(chosen, orientation, width),
                Orientation::Vertical,
                height,
            ),
        },
        Orientation::Vertical => Rest {
            orientation,
            split: back(chosen, orientation, height),
            leftover: back(
                front(chosen, orientation, height),
                Orientation::Horizontal,
                width,
            ),
        },
    }
}

/// What is left of `chosen` for a request of this size: along the axis on which the greater part remains, counted by
/// areas up to 2147483647.
#[inline]
#[must_use]
pub fn guillotine(chosen: Rectangle, size: Size) -> Rest {
    rest_along(orientation_of(chosen.size(), size), chosen, size)
}
