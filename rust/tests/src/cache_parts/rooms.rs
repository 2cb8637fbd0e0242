//! Pages of a cache, worked by hand.

use test_memory::Refusing;
use wollemigo_core::atlas_cache::rooms::Rooms;
use wollemigo_core::atlas_cache::{CacheError, CacheOptions};
use wollemigo_core::guillotiere::{point2, size2, Allocation, Rectangle, Size, DEFAULT_OPTIONS};
use wollemigo_support::alloc::Global;
use wollemigo_support::test::Fail;
use wollemigo_support::vec::Vec;

// New pages of 32 by 16 pixels, up to 64 by 32, at most 2.
fn options() -> CacheOptions {
    CacheOptions {
        page: size2(32, 16),
        largest_page: size2(64, 32),
        pages: 2,
        padding: 0,
        atlas: DEFAULT_OPTIONS,
    }
}

// Both pages.
fn two_pages() -> Result<Rooms, CacheError> {
    let mut rooms = Rooms::new(Global, options());
    rooms.add_page()?;
    rooms.add_page()?;
    Ok(rooms)
}

// The page and the rectangle that a request is granted.
fn place(rooms: &mut Rooms, asked: Size) -> Result<Option<(u32, Rectangle)>, CacheError> {
    let placed = rooms.place(asked)?;
    Ok(placed.map(|(page, granted)| (page, granted.rectangle)))
}

// Whether there is room for a request, which is freed again.
fn place_and_free(rooms: &mut Rooms, asked: Size) -> Result<bool, CacheError> {
    let placed = rooms.place(asked)?;
    if let Some((page, granted)) = &placed {
        rooms.free(*page, granted.id);
    }
    Ok(placed.is_some())
}

// What two requests are granted.
fn place_two(rooms: &mut Rooms, first: Size, second: Size) -> Result<Vec<Allocation>, CacheError> {
    let mut held = Vec::new(Global);
    if let Some((_, granted)) = rooms.place(first)? {
        held.push(granted)?;
    }
    if let Some((_, granted)) = rooms.place(second)? {
        held.push(granted)?;
    }
    Ok(held)
}

// How many rectangles of the first page a repacking moves, where to the first of them, and how many it gives up.
fn repack_first(
    rooms: &mut Rooms,
    held: Vec<Allocation>,
) -> Result<(usize, Option<Rectangle>, usize), CacheError> {
    let list = rooms.repack(0, held, false)?.expect("a page that is there");
    let first = list.changes.first().map(|change| change.new.rectangle);
    Ok((list.changes.len(), first, list.failures.len()))
}

fn at(x: i32, y: i32, right: i32, bottom: i32) -> Rectangle {
    Rectangle {
        min: point2(x, y),
        max: point2(right, bottom),
    }
}

#[test]
fn pages_are_added_up_to_the_most() -> Result<(), Fail> {
    let mut rooms = Rooms::new(Global, options());
    assert!(rooms.is_empty() && rooms.options() == options());
    assert_eq!(rooms.add_page()?, Some((0, size2(32, 16))));
    assert_eq!(rooms.add_page()?, Some((1, size2(32, 16))));
    assert_eq!(rooms.add_page()?, None);
    assert_eq!(rooms.len(), 2);
    Ok(())
}

#[test]
fn the_first_page_grows_first() -> Result<(), Fail> {
    let mut rooms = two_pages()?;
    assert_eq!(rooms.grow_page()?, Some((0, size2(32, 32))));
    assert_eq!(rooms.grow_page()?, Some((0, size2(64, 32))));
    assert_eq!(rooms.grow_page()?, Some((1, size2(32, 32))));
    assert_eq!(rooms.grow_page()?, Some((1, size2(64, 32))));
    assert_eq!(rooms.grow_page()?, None);
    Ok(())
}

#[test]
fn the_first_page_with_room_is_taken() -> Result<(), Fail> {
    let mut rooms = two_pages()?;
    assert_eq!(
        place(&mut rooms, size2(32, 16))?,
        Some((0, at(0, 0, 32, 16)))
    );
    assert_eq!(
        place(&mut rooms, size2(20, 16))?,
        Some((1, at(0, 0, 20, 16)))
    );
    assert_eq!(place(&mut rooms, size2(20, 10))?, None);
    assert_eq!(
        place(&mut rooms, size2(12, 16))?,
        Some((1, at(20, 0, 32, 16)))
    );
    Ok(())
}

#[test]
fn what_is_freed_has_room_again() -> Result<(), Fail> {
    let mut rooms = two_pages()?;
    assert_eq!(
        place(&mut rooms, size2(32, 16))?,
        Some((0, at(0, 0, 32, 16)))
    );
    assert!(place_and_free(&mut rooms, size2(32, 16))?);
    assert!(place_and_free(&mut rooms, size2(32, 16))?);
    Ok(())
}

#[test]
fn a_cleared_page_has_room() -> Result<(), Fail> {
    let mut rooms = two_pages()?;
    place(&mut rooms, size2(32, 16))?;
    rooms.clear();
    assert_eq!(
        place(&mut rooms, size2(32, 16))?,
        Some((0, at(0, 0, 32, 16)))
    );
    Ok(())
}

// A page that refused a size is asked for it again once it has room: something was freed, the page grew, was cleared or repacked.
#[test]
fn a_page_that_refused_is_asked_again_when_it_changed() -> Result<(), Fail> {
    let mut rooms = two_pages()?;
    let held = place_two(&mut rooms, size2(20, 16), size2(12, 16))?;
    place(&mut rooms, size2(32, 16))?;
    for asked in [size2(12, 16), size2(20, 16), size2(12, 16), size2(1, 1)] {
        assert_eq!(place(&mut rooms, asked)?, None);
    }
    for allocation in &held {
        rooms.free(0, allocation.id);
    }
    assert_eq!(
        place(&mut rooms, size2(32, 16))?,
        Some((0, at(0, 0, 32, 16)))
    );
    assert_eq!(place(&mut rooms, size2(8, 8))?, None);
    assert_eq!(rooms.grow_page()?, Some((0, size2(32, 32))));
    assert_eq!(
        place(&mut rooms, size2(8, 8))?,
        Some((0, at(0, 16, 8, 24)))
    );
    assert_eq!(place(&mut rooms, size2(32, 32))?, None);
    rooms.clear();
    assert_eq!(
        place(&mut rooms, size2(32, 32))?,
        Some((0, at(0, 0, 32, 32)))
    );
    assert_eq!(place(&mut rooms, size2(33, 1))?, None);
    assert_eq!(place(&mut rooms, size2(32, 16))?, Some((1, at(0, 0, 32, 16))));
    assert_eq!(place(&mut rooms, size2(32, 16))?, None);
    rooms.repack(1, Vec::new(Global), false)?;
    assert_eq!(
        place(&mut rooms, size2(32, 16))?,
        Some((1, at(0, 0, 32, 16)))
    );
    Ok(())
}

#[test]
fn the_largest_is_packed_first() -> Result<(), Fail> {
    let mut rooms = two_pages()?;
    let held = place_two(&mut rooms, size2(12, 16), size2(16, 16))?;
    assert_eq!(held.first().map(|it| it.rectangle), Some(at(0, 0, 12, 16)));
    assert_eq!(held.last().map(|it| it.rectangle), Some(at(12, 0, 28, 16)));
    assert_eq!((rooms.live_area(0), rooms.free_area(0)), (448, 64));
    assert_eq!(
        repack_first(&mut rooms, held)?,
        (2, Some(at(0, 0, 16, 16)), 0)
    );
    assert_eq!((rooms.live_area(0), rooms.free_area(0)), (448, 64));
    Ok(())
}

#[test]
fn a_refusal_changes_no_page() {
    let heap = Refusing::new(Global);
    let mut rooms = Rooms::new(&heap, options());
    heap.refuse_every();
    assert_eq!(rooms.add_page(), Err(CacheError::Memory));
    assert!(rooms.is_empty());
}

// Of two pages the last one goes, and not one on which something lies.
#[test]
fn idle_pages_go_from_the_end() -> Result<(), Fail> {
    let mut rooms = two_pages()?;
    place(&mut rooms, size2(32, 16))?;
    assert_eq!(rooms.remove_page(), Some(1));
    assert_eq!(rooms.remove_page(), None);
    assert_eq!(rooms.len(), 1);
    Ok(())
}

// A new page of 32 by 16 is one free rectangle.
#[test]
fn what_fits_an_empty_page_leaves_nothing_unusable() -> Result<(), Fail> {
    let rooms = two_pages()?;
    assert_eq!(rooms.unusable_area(0, size2(32, 16))?, 0);
    assert_eq!(rooms.unusable_area(0, size2(33, 1))?, 512);
    Ok(())
}
