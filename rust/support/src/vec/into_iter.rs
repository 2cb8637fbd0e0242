//! Items that leave their list.

use super::Vec;
use crate::alloc::{Allocator, Global};
use crate::room;
use core::iter::FusedIterator;
use core::mem::take;
use core::slice;

/// The items of a list by value. It holds their block, and gives it back at its end.
pub struct IntoIter<T, A: Allocator = Global> {
    rest: rust_alloc::vec::IntoIter<T>,
    // The list without its items, for its allocator.
    emptied: Vec<T, A>,
    capacity: usize,
}

impl<T, A: Allocator> Drop for IntoIter<T, A> {
    fn drop(&mut self) {
        room::give_back::<T, A>(&self.emptied.alloc, self.capacity);
    }
}

impl<T, A: Allocator> Iterator for IntoIter<T, A> {
    type Item = T;

    #[inline]
    fn next(&mut self) -> Option<T> {
        self.rest.next()
    }

    #[inline]
    fn size_hint(&self) -> (usize, Option<usize>) {
        self.rest.size_hint()
    }
}

impl<T, A: Allocator> DoubleEndedIterator for IntoIter<T, A> {
    #[inline]
    fn next_back(&mut self) -> Option<T> {
        self.rest.next_back()
    }
}

impl<T, A: Allocator> ExactSizeIterator for IntoIter<T, A> {}

impl<T, A: Allocator> FusedIterator for IntoIter<T, A> {}

impl<T, A: Allocator> IntoIterator for Vec<T, A> {
    type Item = T;
    type IntoIter = IntoIter<T, A>;

    fn into_iter(mut self) -> IntoIter<T, A> {
        IntoIter {
            capacity: self.items.capacity(),
            rest: take(&mut self.items).into_iter(),
            emptied: self,
        }
    }
}

impl<'a, T, A: Allocator> IntoIterator for &'a Vec<T, A> {
    type Item = &'a T;
    type IntoIter = slice::Iter<'a, T>;

    #[inline]
    fn into_iter(self) -> slice::Iter<'a, T> {
        self.items.iter()
    }
}

impl<'a, T, A: Allocator> IntoIterator for &'a mut Vec<T, A> {
    type Item = &'a mut T;
    type IntoIter = slice::IterMut<'a, T>;

    #[inline]
    fn into_iter(self) -> slice::IterMut<'a, T> {
        self.items.iter_mut()
    }
}
