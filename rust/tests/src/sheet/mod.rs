//! Tests of sheets: places worked by hand, and random sprites whose places plain code goes over.

mod climbing;
mod dense;
mod filling;
mod groups;
mod packing;
mod pages;

use wollemigo_core::guillotiere::Size;

// For constants, in which `size2` can't be called.
const fn sides(width: i32, height: i32) -> Size {
    Size { width, height }
}
