//! Events from those of the library, and back.
use crate::recording::Event;
use crate::{convert, Allocation, AtlasError, Change, ChangeList, Rectangle};
use alloc::vec::Vec;
use wollemigo_core::guillotiere as library;
use wollemigo_core::guillotiere_recording::Event as LibraryEvent;
use wollemigo_support::alloc::Global;
use wollemigo_support::vec::Vec as LibraryVec;

fn library_rectangle(rectangle: &Rectangle) -> library::Rectangle {
    let Rectangle { min, max } = *rectangle;
    library::Rectangle {
        min: library::Point { x: min.x, y: min.y },
        max: library::Point { x: max.x, y: max.y },
    }
}

fn library_allocation(allocation: &Allocation) -> library::Allocation {
    library::Allocation {
        id: convert::library_id(allocation.id),
        rectangle: library_rectangle(&allocation.rectangle),
    }
}

fn library_change(change: &Change) -> library::Change {
    library::Change {
        old: library_allocation(&change.old),
        new: library_allocation(&change.new),
    }
}

/// Each item turned. `Memory` is the only error.
pub(super) fn listed<T, U>(items: &[T], turned: impl Fn(&T) -> U) -> Result<Vec<U>, AtlasError> {
    let mut list = Vec::new();
    list.try_reserve_exact(items.len())
        .map_err(|_| AtlasError::Memory)?;
    list.extend(items.iter().map(turned));
    Ok(list)
}

fn library_listed<T, U>(
    items: &[T],
    turned: impl Fn(&T) -> U,
) -> Result<LibraryVec<U, Global>, AtlasError> {
    let mut list = LibraryVec::new(Global);
    list.extend(items.iter().map(turned))
        .map_err(|_| AtlasError::Memory)?;
    Ok(list)
}

fn change_list(from: &library::ChangeList<Global>) -> Result<ChangeList, AtlasError> {
    let mut list = convert::change_list_for(from.changes.len(), from.failures.len())?;
    convert::fill_change_list(&mut list, from);
    Ok(list)
}

fn library_change_list(from: &ChangeList) -> Result<library::ChangeList<Global>, AtlasError> {
    Ok(library::ChangeList {
        changes: library_listed(&from.changes, library_change)?,
        failures: library_listed(&from.failures, library_allocation)?,
    })
}

/// `Memory` is the only error.
pub(super) fn event(event: &LibraryEvent<Global>) -> Result<Event, AtlasError> {
    Ok(match event {
        LibraryEvent::Allocate(asked, granted) => Event::Allocate(
            convert::size(*asked),
            granted.as_ref().map(convert::allocation),
        ),
        LibraryEvent::Deallocate(name) => Event::Deallocate(convert::id(*name)),
        LibraryEvent::Grow(new_size) => Event::Grow(convert::size(*new_size)),
        LibraryEvent::Rearrange(list) => Event::Rearrange(change_list(list)?),
        LibraryEvent::ResizeAndRearrange(new_size, list) => {
            Event::ResizeAndRearrange(convert::size(*new_size), change_list(list)?)
        }
    })
}

/// `Memory` is the only error.
pub(super) fn library_event(event: &Event) -> Result<LibraryEvent<Global>, AtlasError> {
    Ok(match event {
        Event::Allocate(asked, granted) => LibraryEvent::Allocate(
            convert::library_size(*asked),
            granted.as_ref().map(library_allocation),
        ),
        Event::Deallocate(name) => LibraryEvent::Deallocate(convert::library_id(*name)),
        Event::Grow(new_size) => LibraryEvent::Grow(convert::library_size(*new_size)),
        Event::Rearrange(list) => LibraryEvent::Rearrange(library_change_list(list)?),
        Event::ResizeAndRearrange(new_size, list) => LibraryEvent::ResizeAndRearrange(
            convert::library_size(*new_size),
            library_change_list(list)?,
        ),
    })
}
