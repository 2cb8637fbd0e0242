// Erased from crates/guillotiere_c/src/held.rt by rust/erase: don't edit.
//! A box that is taken apart, and made whole again.

use wollemigo_support::alloc::Allocator;
use wollemigo_support::prelude::Box;

/// The place of a value on the heap, with the right to its block.
pub struct Held<T, A: Allocator> {
    pub(crate) at: *mut T,
    pub(crate) alloc: A,
}

/// Takes a box apart.
pub fn hold<T, A: Allocator>(whole: Box<T, A>) -> Held<T, A> {
    let (at, alloc) = Box::into_raw_with_allocator(whole);
    Held { at, alloc }
}

/// Makes the box whole again.
pub fn release<T, A: Allocator>(held: Held<T, A>) -> Box<T, A> {
    let Held { at, alloc } = held;
    unsafe { Box::from_raw(alloc, at) }
}
