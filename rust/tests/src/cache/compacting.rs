//! Keys of the last page move to pages before it: rows that were worked out by hand.

use test_memory::Refusing;
use wollemigo_core::atlas_cache::entries::DefaultHasher;
use wollemigo_core::atlas_cache::{CacheChange, CacheError, CacheOptions, Changes, TextureCache};
use wollemigo_core::guillotiere::{point2, size2, Rectangle, DEFAULT_OPTIONS};
use wollemigo_support::alloc::{Allocator, Global};
use wollemigo_support::test::Fail;
use wollemigo_support::vec::Vec;

type Cache<A> = TextureCache<u32, DefaultHasher, A>;

// Three pages of 16 by 16 pixels. On each of the first two lie two keys of 16 by 8, on the third keys 5 and 6 of 8 by 8, and key 7 of 16
// by 8, which was used last. Then key 2 goes: the lower half of page 0 is free.
fn three_pages<A: Allocator + Copy>(alloc: A) -> Result<Cache<A>, Fail> {
    let options = CacheOptions {
        page: size2(16, 16),
        largest_page: size2(16, 16),
        pages: 3,
        padding: 0,
        atlas: DEFAULT_OPTIONS,
    };
    let mut cache = TextureCache::with_hasher(alloc, options, DefaultHasher::new())?;
    let mut changes = Vec::new(alloc);
    for key in 1..5 {
        cache.insert(key, size2(16, 8), &mut changes)?;
    }
    cache.insert(5, size2(8, 8), &mut changes)?;
    cache.insert(6, size2(8, 8), &mut changes)?;
    cache.insert(7, size2(16, 8), &mut changes)?;
    cache.remove(&2);
    Ok(cache)
}

// A rectangle of 8 by 8 pixels.
fn eight(x: i32, y: i32) -> Rectangle {
    Rectangle { min: point2(x, y), max: point2(x + 8, y + 8) }
}

// Which keys moved, and to which rectangles of page 0.
fn moves<A: Allocator>(changes: &Changes<u32, A>) -> std::vec::Vec<(u32, Rectangle)> {
    let each = changes.iter().map(|change| match *change {
        CacheChange::Moved { key, from, to } => {
            assert_eq!((from.page, to.page, from.number), (2, 0, to.number));
            (key, to.rectangle)
        }
        _ => panic!("a change that moves nothing"),
    });
    each.collect()
}

// What so many pixels are enough for: how many moved, and which keys.
fn compacted(pixels: u64) -> Result<(u64, std::vec::Vec<(u32, Rectangle)>), Fail> {
    let mut cache = three_pages(Global)?;
    let mut changes = Vec::new(Global);
    let moved = cache.compact(pixels, &mut changes)?;
    for key in [1, 3, 4, 5, 6, 7] {
        assert!(cache.peek(&key).is_some());
    }
    Ok((moved, moves(&changes)))
}

#[test]
fn as_many_keys_move_as_the_pixels_are_enough_for() -> Result<(), Fail> {
    assert_eq!(compacted(0)?, (0, vec![]));
    assert_eq!(compacted(63)?, (0, vec![]));
    // Key 7 takes more, and key 6 is the next in the order of use.
    assert_eq!(compacted(64)?, (64, vec![(6, eight(0, 8))]));
    assert_eq!(compacted(127)?, (64, vec![(6, eight(0, 8))]));
    let lower = Rectangle { min: point2(0, 8), max: point2(16, 16) };
    assert_eq!(compacted(128)?, (128, vec![(7, lower)]));
    // Then no page before the last has room for the others.
    assert_eq!(compacted(u64::MAX)?, (128, vec![(7, lower)]));
    Ok(())
}

#[test]
fn a_page_is_given_back_once_all_have_moved() -> Result<(), Fail> {
    let mut cache = three_pages(Global)?;
    let mut changes = Vec::new(Global);
    cache.remove(&7);
    for (key, place) in [(6, eight(0, 8)), (5, eight(8, 8))] {
        cache.shrink(&mut changes)?;
        assert_eq!((changes.len(), cache.pages()), (0, 3));
        assert_eq!(cache.compact(100, &mut changes)?, 64);
        assert_eq!(moves(&changes), vec![(key, place)]);
        changes.clear();
    }
    cache.shrink(&mut changes)?;
    assert!(changes.iter().eq([CacheChange::PageRemoved { page: 2 }].iter()));
    // Page 1 is the last one now, and page 0 is full.
    assert_eq!(cache.compact(u64::MAX, &mut changes)?, 0);
    // None counts as used: key 6 was, before key 5, and key 4 before both.
    let order: std::vec::Vec<u32> = cache.iter().map(|(key, _)| key).collect();
    assert_eq!(order, [6, 5, 4, 3, 1]);
    let counts = cache.statistics();
    assert_eq!((counts.hits, counts.misses, counts.evictions), (0, 0, 0));
    Ok(())
}

#[test]
fn with_one_page_or_none_nothing_moves() -> Result<(), Fail> {
    let options = three_pages(Global)?.options();
    let mut cache = TextureCache::with_hasher(Global, options, DefaultHasher::new())?;
    let mut changes = Vec::new(Global);
    assert_eq!(cache.compact(u64::MAX, &mut changes)?, 0);
    cache.insert(1, size2(8, 8), &mut changes)?;
    changes.clear();
    assert_eq!(cache.compact(u64::MAX, &mut changes)?, 0);
    assert!(changes.is_empty());
    Ok(())
}

// The first request is for the list of changes: nothing moves. With room for them, a page that is refused slots ends the call.
#[test]
fn a_refused_compacting_keeps_what_moved() -> Result<(), Fail> {
    let heap = Refusing::new(Global);
    let mut cache = three_pages(&heap)?;
    let mut changes = Vec::new(&heap);
    heap.refuse_nth(1);
    assert_eq!(cache.compact(64, &mut changes), Err(CacheError::Memory));
    assert!(changes.is_empty());
    heap.refuse_nth(0);
    assert_eq!(cache.compact(64, &mut changes)?, 64);
    assert_eq!(cache.peek(&6).map(|place| place.page), Some(0));
    Ok(())
}
