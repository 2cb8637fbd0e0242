// Erased from crates/atlas_model/src/geometry.rt by rust/erase: don't edit.
//! Points, sizes and rectangles in pixels.

/// A point, in pixels; y grows downwards.
#[derive(Clone, Copy, Debug, PartialEq, Eq, Hash)]
pub struct Point {
    pub x: i32,
    pub y: i32,
}

/// The size of a request, of a rectangle or of an atlas, in pixels.
#[derive(Clone, Copy, Debug, PartialEq, Eq, Hash)]
pub struct Size {
    pub width: i32,
    pub height: i32,
}

/// A rectangle: the unit squares from `min` up to, but not including, `max`.
#[derive(Clone, Copy, Debug, PartialEq, Eq, Hash)]
pub struct Rectangle {
    pub min: Point,
    pub max: Point,
}

/// The point with these coordinates.
#[inline]
#[must_use]
pub fn point2(x: i32, y: i32) -> Point {
    Point { x, y }
}

/// The size with these sides.
#[inline]
#[must_use]
pub fn size2(width: i32, height: i32) -> Size {
    Size { width, height }
}

// Whether `to - from` fits an `i32`.
#[inline]
fn has_length(from: i32, to: i32) -> bool {
    to.checked_sub(from).is_some()
}

impl Size {
    /// Whether a side is 0 or less.
    #[inline]
    #[must_use]
    pub fn is_empty(&self) -> bool {
        self.width <= 0 || self.height <= 0
    }

    /// Whether both sides are above 0: what each allocator asks of the size that it is made with or started again at.
    #[inline]
    #[must_use]
    pub fn is_positive(&self) -> bool {
        self.width > 0 && self.height > 0
    }
}

impl Rectangle {
    /// Whether no unit square lies in the rectangle.
    #[inline]
    #[must_use]
    pub fn is_empty(&self) -> bool {
        self.max.x <= self.min.x || self.max.y <= self.min.y
    }

    /// Whether `width` and `height` both fit an `i32`.
    #[inline]
    #[must_use]
    pub fn is_measurable(&self) -> bool {
        has_length(self.min.x, self.max.x) && has_length(self.min.y, self.max.y)
    }

    /// `max.x - min.x`, in pixels, which is negative where `max` lies left of `min`. Requires that the rectangle is
    /// measurable: `is_measurable` is the test.
    #[inline]
    #[must_use]
    pub fn width(&self) -> i32 {
        self.max.x - self.min.x
    }

    /// `max.y - min.y`, in pixels, which is negative where `max` lies above `min`. Requires that the rectangle is
    /// measurable.
    #[inline]
    #[must_use]
    pub fn height(&self) -> i32 {
        self.max.y - self.min.y
    }

    /// `width` and `height`. Requires that the rectangle is measurable.
    #[inline]
    #[must_use]
    pub fn size(&self) -> Size {
        Size {
            width: self.width(),
            height: self.height(),
        }
    }
}

impl From<Size> for Rectangle {
    /// The rectangle from (0, 0) to the width and the height. It is empty where a side is 0 or less, and always
    /// measurable.
    #[inline]
    fn from(size: Size) -> Rectangle {
        Rectangle {
            min: point2(0, 0),
            max: point2(size.width, size.height),
        }
    }
}
