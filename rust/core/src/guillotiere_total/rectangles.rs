// Erased from crates/guillotiere_total/src/rectangles.rt by rust/erase: don't edit.
//! The sides of any rectangle.

use crate::guillotiere::{Rectangle, Size};
use crate::guillotiere_total::error::CallError;

/// `Rectangle::width` of any rectangle. `Unmeasurable` where its width or its height fits no `i32`.
#[inline]
pub fn width(rectangle: &Rectangle) -> Result<i32, CallError> {
    if !rectangle.is_measurable() {
        return Err(CallError::Unmeasurable);
    }
    Ok(rectangle.width())
}

/// `Rectangle::height` of any rectangle. `Unmeasurable` where its width or its height fits no `i32`.
#[inline]
pub fn height(rectangle: &Rectangle) -> Result<i32, CallError> {
    if !rectangle.is_measurable() {
        return Err(CallError::Unmeasurable);
    }
    Ok(rectangle.height())
}

/// `Rectangle::size` of any rectangle. `Unmeasurable` where its width or its height fits no `i32`.
#[inline]
pub fn size(rectangle: &Rectangle) -> Result<Size, CallError> {
    if !rectangle.is_measurable() {
        return Err(CallError::Unmeasurable);
    }
    Ok(rectangle.size())
}
