//! The crate's values from those of the library, and back.
use crate::{
    point2, size2, AllocId, Allocation, AllocatorOptions, AtlasError, Change, ChangeList,
    Rectangle, Size, SlotCount,
};
use wollemigo_core::guillotiere as library;
use wollemigo_support::alloc::Global;

#[inline]
pub(crate) fn size(size: library::Size) -> Size {
    size2(size.width, size.height)
}

#[inline]
pub(crate) fn library_size(size: Size) -> library::Size {
    library::size2(size.width, size.height)
}

#[inline]
pub(crate) fn rectangle(rectangle: &library::Rectangle) -> Rectangle {
    let library::Rectangle { min, max } = *rectangle;
    Rectangle {
        min: point2(min.x, min.y),
        max: point2(max.x, max.y),
    }
}

#[inline]
pub(crate) fn id(id: library::AllocId) -> AllocId {
    AllocId(id.serialize())
}

#[inline]
pub(crate) fn library_id(id: AllocId) -> library::AllocId {
    library::AllocId::deserialize(id.0)
}

#[inline]
pub(crate) fn allocation(allocation: &library::Allocation) -> Allocation {
    Allocation {
        id: id(allocation.id),
        rectangle: rectangle(&allocation.rectangle),
    }
}

fn change(change: &library::Change) -> Change {
    Change {
        old: allocation(&change.old),
        new: allocation(&change.new),
    }
}

#[inline]
pub(crate) fn slots(slots: library::SlotCount) -> SlotCount {
    let library::SlotCount { used, kept, limit } = slots;
    SlotCount { used, kept, limit }
}

pub(crate) fn options(options: &library::AllocatorOptions) -> AllocatorOptions {
    AllocatorOptions {
        alignment: size(options.alignment),
        small_size_threshold: options.small_size_threshold,
        large_size_threshold: options.large_size_threshold,
    }
}

pub(crate) fn library_options(options: &AllocatorOptions) -> library::AllocatorOptions {
    library::AllocatorOptions {
        alignment: library_size(options.alignment),
        small_size_threshold: options.small_size_threshold,
        large_size_threshold: options.large_size_threshold,
    }
}

/// An empty list with room for so many changes and failures. `Memory` is the only error.
pub(crate) fn change_list_for(changes: usize, failures: usize) -> Result<ChangeList, AtlasError> {
    let mut list = ChangeList::empty();
    let refused = |_| AtlasError::Memory;
    list.changes.try_reserve_exact(changes).map_err(refused)?;
    list.failures.try_reserve_exact(failures).map_err(refused)?;
    Ok(list)
}

/// Appends what is in a list of the library.
pub(crate) fn fill_change_list(list: &mut ChangeList, from: &library::ChangeList<Global>) {
    list.changes
        .extend(from.changes.as_slice().iter().map(change));
    list.failures
        .extend(from.failures.as_slice().iter().map(allocation));
}
