//! An atlas as plain data, for serde.
use super::{AtlasAllocator, SLOTS_OF_A_REQUEST};
use crate::{convert, AtlasError};
use wollemigo_core::guillotiere as library;
use wollemigo_support::alloc::Global;

impl AtlasAllocator {
    /// All that the atlas stores, but for the shape of its lists.
    pub(crate) fn image(&self) -> Result<library::AtlasImage<Global>, AtlasError> {
        Ok(self.atlas.image()?)
    }

    /// The atlas that data describe; None if they are those of none.
    pub(crate) fn of_image(
        image: &library::AtlasImage<Global>,
    ) -> Result<Option<AtlasAllocator>, AtlasError> {
        let made = match library::AtlasAllocator::from_image(Global, image)? {
            Some(made) => made,
            None => return Ok(None),
        };
        let mut it = AtlasAllocator::over(made);
        let kept = it.atlas.slots().kept;
        it.shown.reserve(kept as usize + SLOTS_OF_A_REQUEST)?;
        let shown = &mut it.shown;
        it.atlas.for_each_allocated_rectangle(|id, rectangle| {
            let rectangle = *rectangle;
            shown.put(&convert::allocation(&library::Allocation { id, rectangle }));
        });
        Ok(Some(it))
    }
}
