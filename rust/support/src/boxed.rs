//! Boxes that are given an allocator.

use crate::alloc::{AllocFailed, Allocator, Global};
use crate::room;
use core::fmt;
use core::marker::PhantomData;
use core::ops::{Deref, DerefMut};
use rust_alloc::boxed::Box as Block;
use rust_alloc::vec::Vec as Items;

/// A value on the heap, whose memory an allocator grants.
pub struct Box<T, A: Allocator = Global> {
    // One value: a list is what Rust makes without an abort where memory is refused, and such a block is made of it.
    block: Block<[T; 1]>,
    lease: Lease<T, A>,
}

// Tells the allocator when the block has gone. None where another has the block now.
struct Lease<T, A: Allocator> {
    alloc: Option<A>,
    of: PhantomData<T>,
}

impl<T, A: Allocator> Lease<T, A> {
    fn new(alloc: A) -> Lease<T, A> {
        Lease {
            alloc: Some(alloc),
            of: PhantomData,
        }
    }
}

impl<T, A: Allocator> Drop for Lease<T, A> {
    fn drop(&mut self) {
        if let Some(alloc) = &self.alloc {
            room::give_back::<T, A>(alloc, 1);
        }
    }
}

impl<T, A: Allocator> Box<T, A> {
    /// Moves a value to the heap. On an Err it comes back.
    pub fn new(alloc: A, value: T) -> Result<Box<T, A>, AllocFailed<T>> {
        let mut one = Items::new();
        if room::exchange::<T, A, _>(&alloc, 0, 1, || one.try_reserve_exact(1)).is_err() {
            return Err(AllocFailed { value });
        }
        one.push(value);
        match Block::<[T; 1]>::try_from(one.into_boxed_slice()) {
            Ok(block) => Ok(Box {
                block,
                lease: Lease::new(alloc),
            }),
            Err(_) => core::unreachable!("a list of one"),
        }
    }

    /// The allocator that it was given.
    pub fn allocator(&self) -> &A {
        match &self.lease.alloc {
            Some(alloc) => alloc,
            None => core::unreachable!("a box has its allocator"),
        }
    }

    /// The value, moved out of its block, which is given back.
    pub fn into_inner(whole: Box<T, A>) -> T {
        let [value] = *whole.block;
        value
    }

    /// The place of the value and the allocator of its block, both for `from_raw`.
    #[cfg(feature = "raw")]
    pub fn into_raw_with_allocator(mut whole: Box<T, A>) -> (*mut T, A) {
        match whole.lease.alloc.take() {
            Some(alloc) => (Block::into_raw(whole.block).cast(), alloc),
            None => core::unreachable!("a box has its allocator"),
        }
    }

    /// The box again that `into_raw_with_allocator` took apart.
    ///
    /// # Safety
    ///
    /// Both came from one call of `into_raw_with_allocator`, and come here once.
    #[cfg(feature = "raw")]
    pub unsafe fn from_raw(alloc: A, at: *mut T) -> Box<T, A> {
        Box {
            block: Block::from_raw(at.cast()),
            lease: Lease::new(alloc),
        }
    }
}

impl<T, A: Allocator> Deref for Box<T, A> {
    type Target = T;

    #[inline]
    fn deref(&self) -> &T {
        &self.block[0]
    }
}

impl<T, A: Allocator> DerefMut for Box<T, A> {
    #[inline]
    fn deref_mut(&mut self) -> &mut T {
        &mut self.block[0]
    }
}

impl<T: fmt::Debug, A: Allocator> fmt::Debug for Box<T, A> {
    fn fmt(&self, f: &mut fmt::Formatter<'_>) -> fmt::Result {
        (**self).fmt(f)
    }
}

impl<T: PartialEq, A: Allocator, B: Allocator> PartialEq<Box<T, B>> for Box<T, A> {
    fn eq(&self, other: &Box<T, B>) -> bool {
        **self == **other
    }
}

impl<T: Eq, A: Allocator> Eq for Box<T, A> {}
