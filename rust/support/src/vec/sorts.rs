//! Stable sorts. Rust's own take a buffer, and abort where it is refused. Here the items are sorted beside the list,
//! each with its place, by Rust's sort without a buffer: the place tells equal items apart.

use super::Vec;
use crate::alloc::{AllocError, Allocator};
use crate::room;
use core::cmp::Ordering;
use rust_alloc::vec::Vec as Items;

// So many are sorted where they are.
const FEW: usize = 20;

impl<T: Copy, A: Allocator> Vec<T, A> {
    /// Sorts; equal items keep their order. Takes memory for a time, except for up to 20 items or for those already in
    /// order. On an Err all items are where they were.
    pub fn sort(&mut self) -> Result<(), AllocError>
    where
        T: Ord,
    {
        self.sort_by(T::cmp)
    }

    /// As `sort`, by the key of each item.
    pub fn sort_by_key<K: Ord, F: FnMut(&T) -> K>(&mut self, mut key: F) -> Result<(), AllocError> {
        self.sort_by(|a, b| key(a).cmp(&key(b)))
    }

    /// As `sort`, by an order that is given.
    pub fn sort_by<F: FnMut(&T, &T) -> Ordering>(
        &mut self,
        mut compare: F,
    ) -> Result<(), AllocError> {
        let len = self.items.len();
        if len <= FEW {
            insert_each(&mut self.items, &mut compare);
            return Ok(());
        }
        if is_in_order(&self.items, &mut compare) {
            return Ok(());
        }
        let mut placed = Items::new();
        room::exchange::<(T, usize), A, _>(&self.alloc, 0, len, || placed.try_reserve_exact(len))?;
        placed.extend(self.items.iter().copied().zip(0..));
        placed.sort_unstable_by(|a, b| compare(&a.0, &b.0).then(a.1.cmp(&b.1)));
        for (item, from) in self.items.iter_mut().zip(&placed) {
            *item = from.0;
        }
        room::give_back::<(T, usize), A>(&self.alloc, len);
        Ok(())
    }
}

fn is_in_order<T, F: FnMut(&T, &T) -> Ordering>(items: &[T], compare: &mut F) -> bool {
    items
        .windows(2)
        .all(|two| compare(&two[0], &two[1]) != Ordering::Greater)
}

// Sorts by moving each item down to its place among those before it.
fn insert_each<T, F: FnMut(&T, &T) -> Ordering>(items: &mut [T], compare: &mut F) {
    for end in 1..items.len() {
        let mut at = end;
        while at > 0 && compare(&items[at - 1], &items[at]) == Ordering::Greater {
            items.swap(at - 1, at);
            at -= 1;
        }
    }
}
