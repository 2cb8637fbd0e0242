//! Walks along the rectangles of an atlas.
use crate::error::expected;
use crate::{convert, Allocation, AtlasAllocator, AtlasError, Rectangle};
use core::fmt;
use core::iter::{Enumerate, FusedIterator};
use core::marker::PhantomData;
use core::slice;
use wollemigo_core::atlas_allocator::store_of;
use wollemigo_core::atlas_store::slots::walks::{slot_id, visit_allocated, visit_free};
use wollemigo_core::atlas_store::slots::Slot;
use wollemigo_core::guillotiere as library;
use wollemigo_support::alloc::Global;
use wollemigo_support::vec::Vec as LibraryVec;

impl AtlasAllocator {
    /// The live rectangles with their ids, by rising slot, one after another: no list is made, and no memory taken. A walk to the end is
    /// one pass over the slots.
    ///
    /// ```
    /// use guillotiere::{size2, AtlasAllocator};
    ///
    /// let mut atlas = AtlasAllocator::new(size2(64, 64));
    /// let glyph = atlas.allocate(size2(20, 60)).unwrap();
    /// assert_eq!(atlas.iter().find(|live| live.rectangle.max.x == 20), Some(glyph));
    /// for live in &atlas {
    ///     println!("{:?} at {:?}", live.id, live.rectangle);
    /// }
    /// ```
    #[must_use]
    pub fn iter(&self) -> LiveIter<'_> {
        live_rectangles(self.library())
    }

    /// The free rectangles, one after another, in an order that is left open: no list is made, and no memory taken. A walk to the end is
    /// one pass over the slots.
    ///
    /// ```
    /// use guillotiere::{size2, AtlasAllocator};
    ///
    /// let mut atlas = AtlasAllocator::new(size2(64, 64));
    /// let _ = atlas.allocate(size2(64, 60));
    /// let largest = atlas.free_iter().max_by_key(|free| free.area());
    /// assert_eq!(largest.unwrap().size(), size2(64, 4));
    /// ```
    #[must_use]
    pub fn free_iter(&self) -> FreeIter<'_> {
        FreeIter {
            left: numbered_slots(self.library()),
        }
    }

    /// The live rectangles with their ids, by rising slot. One pass over the slots, which gathers them in a list: so their number is known
    /// at once (`len`), and `iter` is for the others.
    ///
    /// ```
    /// use guillotiere::{size2, AtlasAllocator};
    ///
    /// let mut atlas = AtlasAllocator::new(size2(64, 64));
    /// let glyph = atlas.allocate(size2(20, 60)).unwrap();
    /// assert!(atlas.allocations().eq([glyph]));
    /// let free: i32 = atlas.free_rectangles().map(|area| area.area()).sum();
    /// assert_eq!(free, 64 * 64 - 20 * 60);
    /// ```
    ///
    /// # Panics
    ///
    /// If memory for the list runs out; `iter` takes none.
    #[must_use]
    #[track_caller]
    pub fn allocations(&self) -> Allocations<'_> {
        expected(self.try_allocations())
    }

    /// `allocations` with the error as a value.
    ///
    /// # Errors
    ///
    /// `Memory` if memory is refused.
    pub fn try_allocations(&self) -> Result<Allocations<'_>, AtlasError> {
        Ok(Allocations::of(self.library().allocations()?))
    }

    /// The free rectangles, in an order that is left open. One pass over the slots, which gathers them in a list, as `allocations` does.
    ///
    /// # Panics
    ///
    /// If memory for the list runs out; `free_iter` takes none.
    #[must_use]
    #[track_caller]
    pub fn free_rectangles(&self) -> FreeRectangles<'_> {
        expected(self.try_free_rectangles())
    }

    /// `free_rectangles` with the error as a value.
    ///
    /// # Errors
    ///
    /// `Memory` if memory is refused.
    pub fn try_free_rectangles(&self) -> Result<FreeRectangles<'_>, AtlasError> {
        Ok(FreeRectangles::of(self.library().free_rectangles()?))
    }
}

impl<'a> IntoIterator for &'a AtlasAllocator {
    type Item = Allocation;
    type IntoIter = LiveIter<'a>;

    fn into_iter(self) -> LiveIter<'a> {
        self.iter()
    }
}

// The slots of an atlas with their numbers, of which some were passed at both ends.
type Slots<'a> = Enumerate<slice::Iter<'a, Slot>>;

fn numbered_slots(atlas: &library::AtlasAllocator<Global>) -> Slots<'_> {
    store_of(atlas).slots().iter().enumerate()
}

/// The live rectangles of an atlas of the library.
pub(crate) fn live_rectangles(atlas: &library::AtlasAllocator<Global>) -> LiveIter<'_> {
    LiveIter {
        left: numbered_slots(atlas),
    }
}

// What a walk of the library shows of one slot.
#[inline]
fn live_in((number, slot): (usize, &Slot)) -> Option<Allocation> {
    let mut found = None;
    visit_allocated(slice::from_ref(slot), |_, area: &library::Rectangle| {
        found = Some(Allocation {
            id: convert::id(slot_id(number, slot.generation)),
            rectangle: convert::rectangle(area),
        });
    });
    found
}

#[inline]
fn free_in((_, slot): (usize, &Slot)) -> Option<Rectangle> {
    let mut found = None;
    visit_free(slice::from_ref(slot), |area: &library::Rectangle| {
        found = Some(convert::rectangle(area));
    });
    found
}

/// The live rectangles of an atlas with their ids, by rising slot, without a list.
///
/// ```
/// use guillotiere::{size2, AtlasAllocator};
///
/// let mut atlas = AtlasAllocator::new(size2(64, 64));
/// let glyph = atlas.allocate(size2(20, 60)).unwrap();
/// let mut walk = atlas.iter();
/// assert_eq!((walk.next(), walk.next()), (Some(glyph), None));
/// ```
#[derive(Clone)]
pub struct LiveIter<'a> {
    left: Slots<'a>,
}

/// The free rectangles of an atlas, in an order that is left open, without a list.
///
/// ```
/// use guillotiere::{size2, AtlasAllocator};
///
/// let atlas = AtlasAllocator::new(size2(64, 64));
/// assert_eq!(atlas.free_iter().count(), 1);
/// ```
#[derive(Clone)]
pub struct FreeIter<'a> {
    left: Slots<'a>,
}

macro_rules! lazy_walk {
    ($walk:ident, $item:ty, $found:path) => {
        impl Iterator for $walk<'_> {
            type Item = $item;

            #[inline]
            fn next(&mut self) -> Option<$item> {
                self.left.find_map($found)
            }

            fn size_hint(&self) -> (usize, Option<usize>) {
                (0, Some(self.left.len()))
            }
        }

        impl DoubleEndedIterator for $walk<'_> {
            #[inline]
            fn next_back(&mut self) -> Option<$item> {
                self.left.by_ref().rev().find_map($found)
            }
        }

        impl FusedIterator for $walk<'_> {}

        impl fmt::Debug for $walk<'_> {
            fn fmt(&self, f: &mut fmt::Formatter<'_>) -> fmt::Result {
                f.debug_list().entries(self.clone()).finish()
            }
        }
    };
}

lazy_walk!(LiveIter, Allocation, live_in);
lazy_walk!(FreeIter, Rectangle, free_in);

// A list of the library, of which some items were taken at both ends.
struct Left<T> {
    list: LibraryVec<T, Global>,
    next: usize,
    end: usize,
}

impl<T: Copy> Left<T> {
    fn all(list: LibraryVec<T, Global>) -> Self {
        let end = list.len();
        Left { list, next: 0, end }
    }

    fn items(&self) -> &[T] {
        &self.list.as_slice()[self.next..self.end]
    }

    fn first(&mut self) -> Option<T> {
        let item = *self.items().first()?;
        self.next += 1;
        Some(item)
    }

    fn last(&mut self) -> Option<T> {
        let item = *self.items().last()?;
        self.end -= 1;
        Some(item)
    }
}

/// The live rectangles of an atlas with their ids, by rising slot.
///
/// ```
/// use guillotiere::{size2, AtlasAllocator};
///
/// let mut atlas = AtlasAllocator::new(size2(64, 64));
/// let _ = atlas.allocate(size2(20, 60));
/// for live in atlas.allocations() {
///     println!("{:?} at {:?}", live.id, live.rectangle);
/// }
/// ```
pub struct Allocations<'a> {
    left: Left<library::Allocation>,
    atlas: PhantomData<&'a AtlasAllocator>,
}

/// The free rectangles of an atlas, in an order that is left open.
///
/// ```
/// use guillotiere::{size2, AtlasAllocator};
///
/// let atlas = AtlasAllocator::new(size2(64, 64));
/// assert_eq!(atlas.free_rectangles().len(), 1);
/// ```
pub struct FreeRectangles<'a> {
    left: Left<library::Rectangle>,
    atlas: PhantomData<&'a AtlasAllocator>,
}

impl Allocations<'_> {
    pub(crate) fn of(list: LibraryVec<library::Allocation, Global>) -> Self {
        Allocations {
            left: Left::all(list),
            atlas: PhantomData,
        }
    }
}

impl FreeRectangles<'_> {
    pub(crate) fn of(list: LibraryVec<library::Rectangle, Global>) -> Self {
        FreeRectangles {
            left: Left::all(list),
            atlas: PhantomData,
        }
    }
}

macro_rules! walk {
    ($walk:ident, $item:ty, $turned:expr) => {
        impl Iterator for $walk<'_> {
            type Item = $item;

            fn next(&mut self) -> Option<$item> {
                self.left.first().as_ref().map($turned)
            }

            fn size_hint(&self) -> (usize, Option<usize>) {
                let left = self.left.items().len();
                (left, Some(left))
            }
        }

        impl DoubleEndedIterator for $walk<'_> {
            fn next_back(&mut self) -> Option<$item> {
                self.left.last().as_ref().map($turned)
            }
        }

        impl ExactSizeIterator for $walk<'_> {}

        impl FusedIterator for $walk<'_> {}

        impl fmt::Debug for $walk<'_> {
            fn fmt(&self, f: &mut fmt::Formatter<'_>) -> fmt::Result {
                f.debug_list()
                    .entries(self.left.items().iter().map($turned))
                    .finish()
            }
        }
    };
}

walk!(Allocations, Allocation, convert::allocation);
walk!(FreeRectangles, Rectangle, convert::rectangle);
