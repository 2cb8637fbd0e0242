//! The walks over an atlas, by callbacks that count, keep, wrap and look back at the atlas.

use guillotiere_tests::tables::rectangle;
use wollemigo_core::guillotiere::{size2, AllocId, AtlasAllocator, AtlasError, Rectangle};
use wollemigo_support::alloc::Global;
use wollemigo_support::test::Fail;

// A shelf, two squares below it and room for a third.
fn filled() -> Result<AtlasAllocator, AtlasError> {
    let mut atlas = AtlasAllocator::new(Global, size2(300, 200))?;
    let _shelf = atlas.allocate(size2(300, 100))?;
    for _ in 0..2 {
        let _square = atlas.allocate(size2(100, 100))?;
    }
    Ok(atlas)
}

#[test]
fn callbacks_count_and_keep_the_last_live_box() -> Result<(), Fail> {
    let atlas = filled()?;
    let mut live = 0;
    let mut last = None;
    atlas.for_each_allocated_rectangle(|id: AllocId, area: &Rectangle| {
        live += 1;
        last = Some((id.serialize(), *area));
    });
    assert_eq!(live, 3);
    assert_eq!(last, Some((3, rectangle((0, 100, 100, 200)))));
    Ok(())
}

#[test]
fn callbacks_count_and_keep_the_last_free_box() -> Result<(), Fail> {
    let atlas = filled()?;
    let mut free = 0;
    let mut hole = None;
    atlas.for_each_free_rectangle(|area: &Rectangle| {
        free += 1;
        hole = Some(*area);
    });
    assert_eq!(free, 1);
    assert_eq!(hole, Some(rectangle((200, 100, 300, 200))));
    Ok(())
}

#[test]
fn steps_give_what_callbacks_are_told() -> Result<(), Fail> {
    let atlas = filled()?;
    let ids: Vec<u32> = atlas.iter().map(|live| live.id.serialize()).collect();
    assert_eq!(ids, [0, 2, 3]);
    let last = (&atlas).into_iter().last().expect("three boxes");
    assert_eq!(last.rectangle, rectangle((0, 100, 100, 200)));
    let free: Vec<Rectangle> = atlas.free_iter().collect();
    assert_eq!(free, [rectangle((200, 100, 300, 200))]);
    let (mut live, mut holes) = (atlas.iter(), atlas.free_iter());
    assert_eq!(live.next().map(|first| first.id.serialize()), Some(0));
    assert_eq!((live.copy().count(), live.count()), (2, 2));
    assert_eq!((holes.copy().count(), holes.by_ref().count()), (1, 1));
    assert_eq!((holes.next(), holes.next()), (None, None));
    Ok(())
}

#[test]
fn a_callback_may_wrap_a_sum() -> Result<(), Fail> {
    let atlas = filled()?;
    let mut sum = 0u8;
    atlas.for_each_allocated_rectangle(|id: AllocId, area: &Rectangle| {
        let [low, _, _, _] = area.max.x.to_le_bytes();
        sum = sum
            .wrapping_add(low)
            .wrapping_add(id.serialize().to_le_bytes()[0]);
    });
    // 300 + 200 + 100 and the ids 0, 2 and 3, modulo 256.
    assert_eq!(sum, 93);
    Ok(())
}

#[test]
fn a_callback_may_measure() -> Result<(), Fail> {
    let atlas = filled()?;
    let mut live = 0;
    atlas.for_each_allocated_rectangle(|_: AllocId, area: &Rectangle| live += area.width());
    let mut free = 0;
    atlas.for_each_free_rectangle(|area: &Rectangle| free += area.height());
    assert_eq!((live, free), (500, 100));
    Ok(())
}

#[test]
fn a_callback_may_keep_what_it_is_shown() -> Result<(), Fail> {
    let atlas = filled()?;
    let mut found = Vec::new();
    atlas.for_each_allocated_rectangle(|_: AllocId, area: &Rectangle| found.push(*area));
    let shelf_and_squares = [
        rectangle((0, 0, 300, 100)),
        rectangle((100, 100, 200, 200)),
        rectangle((0, 100, 100, 200)),
    ];
    assert_eq!(found, shelf_and_squares);
    Ok(())
}

#[test]
fn areas_are_exact() -> Result<(), Fail> {
    let atlas = filled()?;
    assert_eq!((atlas.allocated_area(), atlas.free_area()), (50000, 10000));
    Ok(())
}

#[test]
fn the_greatest_area_is_exact() -> Result<(), Fail> {
    let most = size2(2147483647, 2147483647);
    let mut largest = AtlasAllocator::new(Global, most)?;
    let empty = (largest.allocated_area(), largest.free_area());
    assert_eq!(empty, (0, 4611686014132420609));
    let _all = largest.allocate(most)?;
    let full = (largest.allocated_area(), largest.free_area());
    assert_eq!(full, (4611686014132420609, 0));
    Ok(())
}

#[test]
fn a_callback_may_look_at_the_atlas() -> Result<(), Fail> {
    let atlas = filled()?;
    let mut agree = 0;
    let mut inner = 0;
    atlas.for_each_allocated_rectangle(|id: AllocId, area: &Rectangle| {
        if atlas.get(id) == Some(*area) {
            agree += 1;
        }
        atlas.for_each_free_rectangle(|_: &Rectangle| inner += 1);
    });
    assert_eq!((agree, inner), (3, 3));
    assert_eq!(atlas.allocations()?.len(), 3);
    let slots = atlas.slots();
    assert_eq!((slots.used, slots.kept, slots.limit), (5, 5, 16777216));
    Ok(())
}

#[test]
fn an_id_is_an_index() -> Result<(), Fail> {
    let mut atlas = AtlasAllocator::new(Global, size2(100, 100))?;
    let granted = atlas.allocate(size2(20, 60))?;
    let allocation = granted.expect("room in an empty atlas");
    assert!(atlas.get(allocation.id).is_some());
    assert_eq!(atlas[allocation.id], rectangle((0, 0, 20, 60)));
    assert_eq!(allocation.rectangle, rectangle((0, 0, 20, 60)));
    Ok(())
}

// Two strips of 30 lie right of and below a box of 70 by 70: 70 by 30 and 30 by 100, or 30 by 70 and 100 by 30.
#[test]
fn what_is_free_is_of_use_or_not() -> Result<(), Fail> {
    let mut atlas = AtlasAllocator::new(Global, size2(100, 100))?;
    let told = |atlas: &AtlasAllocator, width, height| atlas.unusable_area(size2(width, height));
    assert_eq!((told(&atlas, 100, 100), told(&atlas, 101, 1)), (0, 10000));
    assert_eq!((told(&atlas, 0, 5), told(&atlas, 5, -1)), (10000, 10000));
    assert_eq!(told(&atlas, i32::MAX, i32::MAX), 10000);
    assert_eq!(atlas.largest_free(), Some(rectangle((0, 0, 100, 100))));
    let _box = atlas.allocate(size2(70, 70))?;
    assert_eq!((told(&atlas, 30, 30), told(&atlas, 31, 31)), (0, 5100));
    // One strip is as long as the atlas, and the other 70.
    let (longer, wider) = (told(&atlas, 30, 71), told(&atlas, 71, 30));
    assert_eq!((longer.min(wider), longer.max(wider)), (2100, 5100));
    let largest = atlas.largest_free().expect("two strips");
    assert_eq!(
        (largest.max.x - largest.min.x) * (largest.max.y - largest.min.y),
        3000
    );
    let _rest = atlas.allocate(size2(30, 100))?;
    let _rest = atlas.allocate(size2(100, 30))?;
    let _rest = atlas.allocate(size2(70, 30))?;
    let _rest = atlas.allocate(size2(30, 70))?;
    assert_eq!((atlas.largest_free(), told(&atlas, 1, 1)), (None, 0));
    Ok(())
}

// Four tiles, of which two are freed: of equal ones the upper, and of these the left one.
#[test]
fn of_the_largest_free_boxes_the_first_is_told() -> Result<(), Fail> {
    for (freed, first) in [([3, 1], 1), ([2, 3], 2), ([3, 0], 0), ([2, 1], 1)] {
        let mut atlas = AtlasAllocator::new(Global, size2(20, 20))?;
        let mut tiles = Vec::new();
        for _ in 0..4 {
            tiles.push(atlas.allocate(size2(10, 10))?.expect("room for four"));
        }
        tiles.sort_by_key(|tile| (tile.rectangle.min.y, tile.rectangle.min.x));
        for tile in freed {
            atlas.deallocate(tiles[tile].id)?;
        }
        let largest = atlas.largest_free().expect("two tiles");
        let free = atlas.free_rectangles()?;
        if free.len() == 2 {
            assert_eq!(largest, tiles[first].rectangle);
        } else {
            assert_eq!(largest, free.as_slice()[0]);
        }
    }
    Ok(())
}
