//! Points, sizes and boxes under the names of the crate `euclid` 0.22, with those of its calls that a first program needs. It is for a
//! machine without a registry, where that crate can't be had; a program that wants more of it takes that crate itself, by one line less.
//!
//! What is here does what euclid does, the texts of `Debug` included.
#![no_std]
#![forbid(unsafe_code)]
#![warn(missing_docs)]

use core::fmt;
use core::hash::{Hash, Hasher};
use core::marker::PhantomData;
use core::ops::{Mul, Sub};

/// The unit of what has none.
#[derive(Copy, Clone, Debug, PartialEq, Eq, PartialOrd, Ord, Hash)]
pub struct UnknownUnit;

/// The types without a unit.
pub mod default {
    use super::UnknownUnit;

    /// A point without a unit.
    pub type Point2D<T> = super::Point2D<T, UnknownUnit>;
    /// A size without a unit.
    pub type Size2D<T> = super::Size2D<T, UnknownUnit>;
    /// A box without a unit.
    pub type Box2D<T> = super::Box2D<T, UnknownUnit>;
}

/// A point.
pub struct Point2D<T, U> {
    /// How far to the right.
    pub x: T,
    /// How far down, or up: that is the caller's.
    pub y: T,
    #[doc(hidden)]
    pub _unit: PhantomData<U>,
}

/// A size.
pub struct Size2D<T, U> {
    /// From left to right.
    pub width: T,
    /// From top to bottom.
    pub height: T,
    #[doc(hidden)]
    pub _unit: PhantomData<U>,
}

/// A box, by two of its corners.
pub struct Box2D<T, U> {
    /// The corner with the least coordinates.
    pub min: Point2D<T, U>,
    /// The corner with the greatest coordinates.
    pub max: Point2D<T, U>,
}

// Derived, these would ask the same of the unit.
macro_rules! values {
    ($($name:ident: $($field:ident)*;)*) => {$(
        impl<T: Copy, U> Copy for $name<T, U> {}

        impl<T: Clone, U> Clone for $name<T, U> {
            fn clone(&self) -> Self {
                $name { $($field: self.$field.clone()),* }
            }
        }

        impl<T: PartialEq, U> PartialEq for $name<T, U> {
            fn eq(&self, other: &Self) -> bool {
                $(self.$field == other.$field)&&*
            }
        }

        impl<T: Eq, U> Eq for $name<T, U> {}

        impl<T: Hash, U> Hash for $name<T, U> {
            fn hash<H: Hasher>(&self, state: &mut H) {
                $(self.$field.hash(state);)*
            }
        }

        impl<T: Default, U> Default for $name<T, U> {
            fn default() -> Self {
                $name { $($field: Default::default()),* }
            }
        }
    )*};
}

values! {
    Point2D: x y _unit;
    Size2D: width height _unit;
    Box2D: min max;
}

impl<T: fmt::Debug, U> fmt::Debug for Point2D<T, U> {
    fn fmt(&self, f: &mut fmt::Formatter<'_>) -> fmt::Result {
        f.debug_tuple("").field(&self.x).field(&self.y).finish()
    }
}

impl<T: fmt::Debug, U> fmt::Debug for Size2D<T, U> {
    fn fmt(&self, f: &mut fmt::Formatter<'_>) -> fmt::Result {
        self.width.fmt(f)?;
        f.write_str("x")?;
        self.height.fmt(f)
    }
}

impl<T: fmt::Debug, U> fmt::Debug for Box2D<T, U> {
    fn fmt(&self, f: &mut fmt::Formatter<'_>) -> fmt::Result {
        let (min, max) = (&self.min, &self.max);
        f.debug_tuple("Box2D").field(min).field(max).finish()
    }
}

/// A point of these coordinates.
pub const fn point2<T, U>(x: T, y: T) -> Point2D<T, U> {
    Point2D::new(x, y)
}

/// A size of these sides.
pub const fn size2<T, U>(width: T, height: T) -> Size2D<T, U> {
    Size2D::new(width, height)
}

impl<T, U> Point2D<T, U> {
    /// A point of these coordinates.
    pub const fn new(x: T, y: T) -> Self {
        let _unit = PhantomData;
        Point2D { x, y, _unit }
    }
}

impl<T, U> Size2D<T, U> {
    /// A size of these sides.
    pub const fn new(width: T, height: T) -> Self {
        let _unit = PhantomData;
        Size2D {
            width,
            height,
            _unit,
        }
    }
}

impl<T: Copy + Mul<Output = T>, U> Size2D<T, U> {
    /// The width times the height.
    pub fn area(self) -> T {
        self.width * self.height
    }
}

impl<T, U> Box2D<T, U> {
    /// A box of these corners.
    pub const fn new(min: Point2D<T, U>, max: Point2D<T, U>) -> Self {
        Box2D { min, max }
    }
}

impl<T: PartialOrd, U> Box2D<T, U> {
    /// Whether no side is above nothing.
    pub fn is_empty(&self) -> bool {
        !(self.max.x > self.min.x && self.max.y > self.min.y)
    }
}

impl<T: Copy + Sub<Output = T>, U> Box2D<T, U> {
    /// From left to right.
    pub fn width(&self) -> T {
        self.max.x - self.min.x
    }

    /// From top to bottom.
    pub fn height(&self) -> T {
        self.max.y - self.min.y
    }

    /// The width and the height.
    pub fn size(&self) -> Size2D<T, U> {
        size2(self.width(), self.height())
    }
}

impl<T: Copy + Sub<Output = T> + Mul<Output = T>, U> Box2D<T, U> {
    /// The width times the height.
    pub fn area(&self) -> T {
        self.size().area()
    }
}
