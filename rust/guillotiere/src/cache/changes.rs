//! What calls did and no one has taken yet.
use super::values::{change_of, CacheChange};
use super::CacheError;
use core::fmt;
use core::iter::FusedIterator;
use wollemigo_core::atlas_cache as library;
use wollemigo_core::guillotiere::size2;
use wollemigo_support::alloc::Global;
use wollemigo_support::vec::Vec as LibraryVec;

/// The changes of all calls in order. The last one of each call is marked, by a number of its own: so a call takes no memory beside what
/// the library's call takes for the changes that it adds.
pub(super) struct Waiting<K> {
    changes: LibraryVec<library::CacheChange<K>, Global>,
    // How many were handed over.
    handed: usize,
}

// The number of a change that is below 0 where the change is marked, and nowhere else: a width, or a position.
fn number_of<K>(change: &mut library::CacheChange<K>) -> Option<&mut i32> {
    match change {
        library::CacheChange::PageAdded { size, .. }
        | library::CacheChange::PageGrown { size, .. } => Some(&mut size.width),
        library::CacheChange::Evicted { place, .. } => Some(&mut place.rectangle.min.x),
        library::CacheChange::Moved { to, .. } => Some(&mut to.rectangle.min.x),
        library::CacheChange::PageRemoved { .. } => None,
    }
}

// A change as the last one of its call. A page that is gone has no such number, and is kept as one that grew to a width of 0.
fn marked<K>(mut change: library::CacheChange<K>) -> library::CacheChange<K> {
    if let library::CacheChange::PageRemoved { page } = change {
        let size = size2(0, 0);
        change = library::CacheChange::PageGrown { page, size };
    }
    if let Some(number) = number_of(&mut change) {
        *number = !*number;
    }
    change
}

// A change without its mark, if it has one, and whether it had one.
fn unmarked<K>(mut change: library::CacheChange<K>) -> (library::CacheChange<K>, bool) {
    let is_last = match number_of(&mut change) {
        Some(number) if *number < 0 => {
            *number = !*number;
            true
        }
        _ => false,
    };
    match change {
        library::CacheChange::PageGrown { page, size } if size.width == 0 => {
            (library::CacheChange::PageRemoved { page }, is_last)
        }
        other => (other, is_last),
    }
}

impl<K: Copy> Waiting<K> {
    pub(super) fn new() -> Self {
        Waiting {
            changes: LibraryVec::new(Global),
            handed: 0,
        }
    }

    pub(super) fn try_clone(&self) -> Result<Self, CacheError> {
        let changes = LibraryVec::from_slice(Global, &self.changes.as_slice()[self.handed..]);
        Ok(Waiting {
            changes: changes.map_err(|_| CacheError::Memory)?,
            handed: 0,
        })
    }

    /// Takes memory for so many changes beside those that wait.
    pub(super) fn reserve(&mut self, additional: usize) -> Result<(), CacheError> {
        self.changes.drain(..self.handed);
        self.handed = 0;
        let reserved = self.changes.reserve(additional);
        reserved.map_err(|_| CacheError::Memory)
    }

    /// What a call answers that adds changes, of which the last one is marked then.
    #[inline]
    pub(super) fn added<T>(&mut self, call: impl FnOnce(&mut library::Changes<K>) -> T) -> T {
        let before = self.changes.len();
        let answer = call(&mut self.changes);
        if let Some(last) = self.changes.as_mut_slice()[before..].last_mut() {
            *last = marked(*last);
        }
        answer
    }

    // The first change from a position on.
    #[inline]
    fn at(&self, position: usize) -> Option<(library::CacheChange<K>, bool)> {
        self.changes.as_slice().get(position).copied().map(unmarked)
    }

    // Where the first call ends of which some weren't handed over.
    #[inline]
    fn first_end(&self) -> usize {
        let waiting = &self.changes.as_slice()[self.handed..];
        let last = waiting.iter().position(|change| unmarked(*change).1);
        last.map_or(self.handed, |at| self.handed + at + 1)
    }

    pub(super) fn next(&mut self) -> Option<CacheChange<K>> {
        let (change, _) = self.at(self.handed)?;
        self.hand_over(self.handed + 1);
        Some(change_of(change))
    }

    #[inline]
    fn hand_over(&mut self, up_to: usize) {
        self.handed = up_to;
        if up_to == self.changes.len() {
            self.changes.clear();
            self.handed = 0;
        }
    }
}

/// The changes of one call, in the order in which they are to be followed. Those that are left when this is dropped count as handed over.
///
/// ```
/// use guillotiere::cache::{CacheOptions, TextureCache};
/// use guillotiere::size2;
///
/// let mut glyphs = TextureCache::new(&CacheOptions::new(size2(64, 64))).unwrap();
/// let _ = glyphs.insert('g', size2(10, 20))?;
/// let changes = glyphs.drain_changes();
/// assert_eq!(changes.len(), 1); // a page was added
/// # Ok::<(), guillotiere::cache::CacheError>(())
/// ```
#[must_use = "changes that aren't followed leave textures as they were"]
pub struct Changes<'a, K: Copy> {
    waiting: &'a mut Waiting<K>,
    next: usize,
    end: usize,
}

impl<'a, K: Copy> Changes<'a, K> {
    #[inline]
    pub(super) fn of_the_first_call(waiting: &'a mut Waiting<K>) -> Self {
        let (next, end) = (waiting.handed, waiting.first_end());
        Changes { waiting, next, end }
    }
}

impl<K: Copy> Iterator for Changes<'_, K> {
    type Item = CacheChange<K>;

    #[inline]
    fn next(&mut self) -> Option<CacheChange<K>> {
        if self.next == self.end {
            return None;
        }
        let (change, _) = self.waiting.at(self.next)?;
        self.next += 1;
        Some(change_of(change))
    }

    fn size_hint(&self) -> (usize, Option<usize>) {
        let left = self.end - self.next;
        (left, Some(left))
    }
}

impl<K: Copy> ExactSizeIterator for Changes<'_, K> {}

impl<K: Copy> FusedIterator for Changes<'_, K> {}

impl<K: Copy> Drop for Changes<'_, K> {
    #[inline]
    fn drop(&mut self) {
        self.waiting.hand_over(self.end);
    }
}

impl<K: Copy> fmt::Debug for Changes<'_, K> {
    fn fmt(&self, f: &mut fmt::Formatter<'_>) -> fmt::Result {
        f.debug_struct("Changes")
            .field("left", &self.len())
            .finish_non_exhaustive()
    }
}
