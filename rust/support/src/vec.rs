//! Lists that are given an allocator.

mod compared;
mod into_iter;
mod sorts;

pub use into_iter::IntoIter;
pub use rust_alloc::vec::Drain;

use crate::alloc::{AllocError, AllocFailed, Allocator, Global};
use crate::room;
use core::ops::{Deref, DerefMut, RangeBounds};
use rust_alloc::vec::Vec as Items;

/// A list, whose memory an allocator grants. A call that gives an Err leaves it as it was, unless it says otherwise.
pub struct Vec<T, A: Allocator = Global> {
    items: Items<T>,
    alloc: A,
}

/// Making one.
impl<T, A: Allocator> Vec<T, A> {
    /// No items. Takes no memory.
    #[inline]
    pub fn new(alloc: A) -> Vec<T, A> {
        Vec {
            items: Items::new(),
            alloc,
        }
    }

    /// No items, and room for exactly so many; at 0 no memory is asked for.
    pub fn with_capacity(alloc: A, capacity: usize) -> Result<Vec<T, A>, AllocError> {
        let mut made = Vec::new(alloc);
        made.move_to(capacity)?;
        Ok(made)
    }

    /// The items of a slice, with room for no more.
    pub fn from_slice(alloc: A, items: &[T]) -> Result<Vec<T, A>, AllocError>
    where
        T: Copy,
    {
        let mut made = Vec::with_capacity(alloc, items.len())?;
        made.items.extend_from_slice(items);
        Ok(made)
    }

    /// One item so many times, with room for no more.
    pub fn from_elem(alloc: A, item: T, count: usize) -> Result<Vec<T, A>, AllocError>
    where
        T: Clone,
    {
        let mut made = Vec::with_capacity(alloc, count)?;
        made.items.resize(count, item);
        Ok(made)
    }

    /// The items of an array. On an Err they come back.
    pub fn from_array<const N: usize>(
        alloc: A,
        items: [T; N],
    ) -> Result<Vec<T, A>, AllocFailed<[T; N]>> {
        match Vec::with_capacity(alloc, N) {
            Ok(mut made) => {
                made.items.extend(items);
                Ok(made)
            }
            Err(AllocError) => Err(AllocFailed { value: items }),
        }
    }

    /// The same items in the same order, with room for no more.
    #[allow(clippy::should_implement_trait)]
    pub fn clone(&self) -> Result<Vec<T, A>, AllocError>
    where
        T: Clone,
        A: Clone,
    {
        let mut made = Vec::with_capacity(self.alloc.clone(), self.items.len())?;
        made.items.extend_from_slice(&self.items);
        Ok(made)
    }
}

/// Room.
impl<T, A: Allocator> Vec<T, A> {
    // A block for so many items in place of the present one, which holds no more.
    fn move_to(&mut self, capacity: usize) -> Result<(), AllocError> {
        let before = self.items.capacity();
        let items = &mut self.items;
        room::exchange::<T, A, _>(&self.alloc, before, capacity, || {
            items.try_reserve_exact(capacity - items.len())
        })
    }

    #[cold]
    #[inline(never)]
    fn grow(&mut self, additional: usize) -> Result<(), AllocError> {
        let needed = self.items.len().checked_add(additional).ok_or(AllocError)?;
        self.move_to(room::grown::<T>(self.items.capacity(), needed))
    }

    /// Makes room for so many more items. The capacity never shrinks, and nothing is asked for where there is room;
    /// else it grows to twice as much or to what is needed.
    #[inline]
    pub fn reserve(&mut self, additional: usize) -> Result<(), AllocError> {
        if additional <= self.items.capacity() - self.items.len() {
            return Ok(());
        }
        self.grow(additional)
    }

    /// Makes room for so many more items. The capacity never shrinks, and nothing is asked for where there is room; else it
    /// grows to what is needed.
    pub fn reserve_exact(&mut self, additional: usize) -> Result<(), AllocError> {
        if additional <= self.items.capacity() - self.items.len() {
            return Ok(());
        }
        let needed = self.items.len().checked_add(additional).ok_or(AllocError)?;
        self.move_to(needed)
    }

    /// How many items it has room for.
    #[inline]
    pub fn capacity(&self) -> usize {
        self.items.capacity()
    }

    /// The allocator that it was given.
    #[inline]
    pub fn allocator(&self) -> &A {
        &self.alloc
    }
}

/// Adding.
impl<T, A: Allocator> Vec<T, A> {
    /// Appends an item. Where there is room it succeeds; on an Err the item comes back.
    #[inline]
    pub fn push(&mut self, value: T) -> Result<(), AllocFailed<T>> {
        if self.items.len() == self.items.capacity() {
            return self.push_grown(value);
        }
        self.items.push(value);
        Ok(())
    }

    #[cold]
    #[inline(never)]
    fn push_grown(&mut self, value: T) -> Result<(), AllocFailed<T>> {
        if self.grow(1).is_err() {
            return Err(AllocFailed { value });
        }
        self.items.push(value);
        Ok(())
    }

    /// Appends an item where there is room. Panics if there is none.
    #[inline]
    pub fn push_reserved(&mut self, value: T) {
        if self.items.len() == self.items.capacity() {
            has_no_room();
        }
        self.items.push(value);
    }

    /// Puts an item at an index, and moves those from there on up by one. On an Err the item comes back.
    pub fn insert(&mut self, index: usize, value: T) -> Result<(), AllocFailed<T>> {
        if self.reserve(1).is_err() {
            return Err(AllocFailed { value });
        }
        self.items.insert(index, value);
        Ok(())
    }

    /// Appends the items of a slice.
    #[inline]
    pub fn extend_from_slice(&mut self, other: &[T]) -> Result<(), AllocError>
    where
        T: Clone,
    {
        self.reserve(other.len())?;
        self.items.extend_from_slice(other);
        Ok(())
    }

    /// Appends what an iterator gives. On an Err those that came before it stay appended.
    pub fn extend<I: IntoIterator<Item = T>>(&mut self, items: I) -> Result<(), AllocError> {
        let mut rest = items.into_iter();
        let mut room = self.items.capacity() - self.items.len();
        while let Some(item) = rest.next() {
            if room == 0 {
                self.reserve_by_hint(rest.size_hint().0)?;
                room = self.items.capacity() - self.items.len();
            }
            self.items.push(item);
            room -= 1;
        }
        Ok(())
    }

    // Room for one more, and for `hint` after it if that is granted: a hint may be too high.
    fn reserve_by_hint(&mut self, hint: usize) -> Result<(), AllocError> {
        if self.reserve(hint.saturating_add(1)).is_ok() {
            return Ok(());
        }
        self.reserve(1)
    }

    /// Moves the items of another list to the end of this one. On an Err both keep theirs.
    pub fn append(&mut self, other: &mut Vec<T, A>) -> Result<(), AllocError> {
        self.reserve(other.items.len())?;
        self.items.append(&mut other.items);
        Ok(())
    }

    /// Cuts the list to so many items, or fills it up with copies of one.
    pub fn resize(&mut self, len: usize, item: T) -> Result<(), AllocError>
    where
        T: Clone,
    {
        self.reserve(len.saturating_sub(self.items.len()))?;
        self.items.resize(len, item);
        Ok(())
    }
}

/// Taking out. The capacity stays.
impl<T, A: Allocator> Vec<T, A> {
    /// Takes the last item; None if there is none.
    #[inline]
    pub fn pop(&mut self) -> Option<T> {
        self.items.pop()
    }

    /// Takes the item at an index, and moves the later ones down. Panics if there is none.
    #[inline]
    pub fn remove(&mut self, index: usize) -> T {
        self.items.remove(index)
    }

    /// Takes the item at an index, and puts the last one there. Panics if there is none.
    #[inline]
    pub fn swap_remove(&mut self, index: usize) -> T {
        self.items.swap_remove(index)
    }

    /// Takes out the items of a range, even if the iterator is dropped before its end.
    pub fn drain<R: RangeBounds<usize>>(&mut self, range: R) -> Drain<'_, T> {
        self.items.drain(range)
    }

    /// Keeps those items that `keep` is true of, in their order.
    pub fn retain<F: FnMut(&T) -> bool>(&mut self, keep: F) {
        self.items.retain(keep);
    }

    /// Keeps the first items up to so many.
    #[inline]
    pub fn truncate(&mut self, len: usize) {
        self.items.truncate(len);
    }

    /// Takes all items out.
    #[inline]
    pub fn clear(&mut self) {
        self.items.clear();
    }
}

/// Reading. All that a slice has is there too.
impl<T, A: Allocator> Vec<T, A> {
    /// How many items there are.
    #[inline]
    pub fn len(&self) -> usize {
        self.items.len()
    }

    /// Whether there are none.
    #[inline]
    pub fn is_empty(&self) -> bool {
        self.items.is_empty()
    }

    /// The items.
    #[inline]
    pub fn as_slice(&self) -> &[T] {
        &self.items
    }

    /// The items, to change them.
    #[inline]
    pub fn as_mut_slice(&mut self) -> &mut [T] {
        &mut self.items
    }
}

#[cold]
#[inline(never)]
fn has_no_room() -> ! {
    core::panic!("push_reserved on a list without room")
}

impl<T, A: Allocator> Drop for Vec<T, A> {
    #[inline]
    fn drop(&mut self) {
        room::give_back::<T, A>(&self.alloc, self.items.capacity());
    }
}

impl<T, A: Allocator> Deref for Vec<T, A> {
    type Target = [T];

    #[inline]
    fn deref(&self) -> &[T] {
        &self.items
    }
}

impl<T, A: Allocator> DerefMut for Vec<T, A> {
    #[inline]
    fn deref_mut(&mut self) -> &mut [T] {
        &mut self.items
    }
}

/// Gathers what an iterator gives.
pub trait CollectIn: Iterator + Sized {
    /// A list of all that comes, in its order.
    fn collect_in<A: Allocator>(self, alloc: A) -> Result<Vec<Self::Item, A>, AllocError> {
        let mut made = Vec::new(alloc);
        made.extend(self)?;
        Ok(made)
    }
}

impl<I: Iterator> CollectIn for I {}
