//! Live rectangles placed anew.
use super::{AtlasAllocator, SLOTS_OF_A_REQUEST};
use crate::error::expected;
use crate::{convert, AtlasError, ChangeList, Size};
use wollemigo_core::guillotiere as library;
use wollemigo_core::guillotiere_total::{atlas as total, CallError};
use wollemigo_support::alloc::Global;

impl AtlasAllocator {
    /// `resize_and_rearrange` at the present size.
    ///
    /// ```
    /// use guillotiere::{size2, AtlasAllocator};
    ///
    /// let mut atlas = AtlasAllocator::new(size2(64, 64));
    /// let small = atlas.allocate(size2(8, 8)).unwrap();
    /// let list = atlas.rearrange();
    /// assert_eq!((list.changes[0].old, list.failures.len()), (small, 0));
    /// ```
    ///
    /// # Panics
    ///
    /// If memory or slots run out.
    #[track_caller]
    pub fn rearrange(&mut self) -> ChangeList {
        expected(self.try_rearrange())
    }

    /// `rearrange` with the error as a value.
    ///
    /// # Errors
    ///
    /// `Slots` if more slots would be used than the limit allows, `Memory` if memory is refused.
    pub fn try_rearrange(&mut self) -> Result<ChangeList, AtlasError> {
        self.rearranged(|atlas| Ok(atlas.rearrange()?))
    }

    /// Repacks what is allocated into an empty atlas of this size, the largest first; all former ids are void.
    ///
    /// ```
    /// use guillotiere::{size2, AtlasAllocator};
    ///
    /// let mut atlas = AtlasAllocator::new(size2(64, 64));
    /// let _ = atlas.allocate(size2(8, 8));
    /// let list = atlas.resize_and_rearrange(size2(4, 4));
    /// assert_eq!(list.failures.len(), 1); // it is no longer live
    /// ```
    ///
    /// # Panics
    ///
    /// If a side is below 1, or memory or slots run out.
    #[track_caller]
    pub fn resize_and_rearrange(&mut self, new_size: Size) -> ChangeList {
        expected(self.try_resize_and_rearrange(new_size))
    }

    /// `resize_and_rearrange` with the error as a value.
    ///
    /// # Errors
    ///
    /// `EmptySize` if a side is below 1; those of `try_rearrange`.
    pub fn try_resize_and_rearrange(&mut self, new_size: Size) -> Result<ChangeList, AtlasError> {
        self.rearranged(|atlas| total::resize_and_rearrange(atlas, convert::library_size(new_size)))
    }

    // Memory for the lists and for what is shown comes first, so that nothing is refused after the rearranging.
    fn rearranged(
        &mut self,
        call: impl FnOnce(
            &mut library::AtlasAllocator<Global>,
        ) -> Result<library::ChangeList, CallError>,
    ) -> Result<ChangeList, AtlasError> {
        let mut live = 0;
        self.atlas.for_each_allocated_rectangle(|_, _| live += 1);
        let mut list = convert::change_list_for(live, live)?;
        self.shown.reserve(1 + SLOTS_OF_A_REQUEST * live)?;
        let moved = call(&mut self.atlas)?;
        convert::fill_change_list(&mut list, &moved);
        for change in &list.changes {
            self.shown.put(&change.new);
        }
        Ok(list)
    }
}
