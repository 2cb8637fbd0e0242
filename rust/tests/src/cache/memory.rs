//! A cache where requests for memory are refused, and what is in reserve.

use test_memory::Refusing;
use wollemigo_core::atlas_cache::entries::DefaultHasher;
use wollemigo_core::atlas_cache::{CacheError, CacheOptions, Inserted, Place, TextureCache};
use wollemigo_core::guillotiere::{point2, size2, Rectangle, Size, DEFAULT_OPTIONS};
use wollemigo_support::alloc::{Allocator, Global};
use wollemigo_support::test::Fail;
use wollemigo_support::vec::Vec;

// Pages of this size that don't grow, at most `pages`, with this padding.
fn options(page: Size, pages: u32, padding: i32) -> CacheOptions {
    CacheOptions {
        page,
        largest_page: page,
        pages,
        padding,
        atlas: DEFAULT_OPTIONS,
    }
}

// The place of a blank key, the first one.
fn nowhere() -> Place {
    let nothing = Rectangle {
        min: point2(0, 0),
        max: point2(0, 0),
    };
    Place {
        number: 0,
        page: 0,
        rectangle: nothing,
        inner: nothing,
    }
}

#[test]
fn a_refused_blank_key_changes_nothing() -> Result<(), Fail> {
    let heap = Refusing::new(Global);
    let options = options(size2(16, 16), 1, 2);
    let mut cache = TextureCache::with_hasher(&heap, options, DefaultHasher::new())?;
    let mut changes = Vec::new(&heap);
    heap.refuse_nth(1);
    assert_eq!(
        cache.insert(9, size2(5, 0), &mut changes),
        Err(CacheError::Memory)
    );
    assert!(cache.is_empty() && cache.numbers() == 0);
    heap.refuse_nth(0);
    assert_eq!(
        cache.insert(9, size2(5, 0), &mut changes)?,
        Inserted::Placed(nowhere())
    );
    Ok(())
}

fn at(x: i32, y: i32, right: i32, bottom: i32) -> Rectangle {
    Rectangle {
        min: point2(x, y),
        max: point2(right, bottom),
    }
}

// Where a key lies.
fn lies<A: Allocator + Copy>(
    cache: &TextureCache<u32, DefaultHasher, A>,
    key: u32,
) -> Option<Rectangle> {
    cache.peek(&key).map(|place| place.rectangle)
}

// Keys 1 and 3, each 6 by 8, one above the other, and key 2, 10 by 9, at their right.
fn three<A: Allocator + Copy>(alloc: A) -> Result<TextureCache<u32, DefaultHasher, A>, Fail> {
    let options = options(size2(16, 16), 2, 0);
    let mut cache = TextureCache::with_hasher(alloc, options, DefaultHasher::new())?;
    let mut changes = Vec::new(alloc);
    cache.insert(1, size2(6, 8), &mut changes)?;
    cache.insert(2, size2(10, 9), &mut changes)?;
    cache.insert(3, size2(6, 8), &mut changes)?;
    Ok(cache)
}

// Requests are refused one after another: for the list of changes, for that of the rectangles, and for the new atlas.
#[test]
fn a_refused_repacking_changes_nothing() -> Result<(), Fail> {
    let heap = Refusing::new(Global);
    let mut cache = three(&heap)?;
    let mut changes = Vec::new(&heap);
    for nth in 1..20 {
        heap.refuse_nth(nth);
        if cache.repack(0, &mut changes).is_ok() {
            assert!(nth > 3);
            break;
        }
        assert!(changes.is_empty());
        assert_eq!(lies(&cache, 1), Some(at(0, 0, 6, 8)));
        assert_eq!(lies(&cache, 2), Some(at(6, 0, 16, 9)));
        assert_eq!(lies(&cache, 3), Some(at(0, 8, 6, 16)));
    }
    assert_eq!(lies(&cache, 2), Some(at(0, 0, 10, 9)));
    Ok(())
}

// Where memory for the changes is refused, no key goes; with room for them none is asked for.
#[test]
fn a_refused_end_of_a_batch_changes_nothing() -> Result<(), Fail> {
    let heap = Refusing::new(Global);
    let mut cache = three(&heap)?;
    let mut changes = Vec::new(&heap);
    heap.refuse_nth(1);
    assert_eq!(cache.end_batch(2, &mut changes), Err(CacheError::Memory));
    assert!(changes.is_empty() && cache.len() == 3);
    changes.reserve(3)?;
    heap.refuse_nth(1);
    cache.end_batch(2, &mut changes)?;
    assert_eq!((changes.len(), cache.len()), (2, 1));
    assert_eq!(lies(&cache, 1), Some(at(0, 0, 6, 8)));
    Ok(())
}

// One that keeps all asks for the same memory, and gives it back where a key would go.
#[test]
fn a_repacking_that_keeps_all_leaves_nothing() -> Result<(), Fail> {
    let heap = Refusing::new(Global);
    let mut cache = three(&heap)?;
    let mut changes = Vec::new(&heap);
    let mut answers = 0;
    for nth in 1..20 {
        heap.refuse_nth(nth);
        if let Ok(done) = cache.repack_keeping_all(0, &mut changes) {
            assert!(!done && nth > 3);
            answers += 1;
        }
        assert!(changes.is_empty() && cache.len() == 3 && cache.statistics().evictions == 0);
        assert_eq!(lies(&cache, 2), Some(at(6, 0, 16, 9)));
    }
    assert!(answers > 0);
    cache.remove(&1);
    assert!(cache.repack_keeping_all(0, &mut changes)? && changes.len() == 2);
    assert_eq!(lies(&cache, 2), Some(at(0, 0, 10, 9)));
    assert_eq!(lies(&cache, 3), Some(at(10, 0, 16, 8)));
    Ok(())
}

// How many requests for memory 16 insertions make, where room for so many entries was asked for before.
fn requests_after<A: Allocator + Copy>(heap: &Refusing<A>, additional: usize) -> Result<u64, Fail> {
    let options = options(size2(64, 64), 1, 0);
    let mut cache = TextureCache::with_hasher(heap, options, DefaultHasher::new())?;
    let mut changes = Vec::new(heap);
    cache.reserve(additional)?;
    let made = heap.requests();
    for key in 0..16 {
        cache.insert(key, size2(4, 4), &mut changes)?;
    }
    Ok(heap.requests() - made)
}

// What isn't reserved is asked for by three lists at least: the keys, the entries and their order.
#[test]
fn reserved_entries_of_a_cache_take_no_more_memory() -> Result<(), Fail> {
    let heap = Refusing::new(Global);
    let asked = requests_after(&heap, 0)?;
    let reserved = requests_after(&heap, 16)?;
    assert!(asked.saturating_sub(reserved) >= 3);
    Ok(())
}

// On a full page of 4 by 4 keys each one more evicts one, each of 8 by 8 four, and none of either asks for memory.
#[test]
fn inserts_in_reserve_ask_for_no_memory() -> Result<(), Fail> {
    let heap = Refusing::new(Global);
    let options = options(size2(16, 16), 1, 0);
    let mut cache = TextureCache::with_hasher(&heap, options, DefaultHasher::new())?;
    let mut changes = Vec::new(&heap);
    for key in 0..16 {
        cache.insert(key, size2(4, 4), &mut changes)?;
    }
    cache.begin_frame();
    cache.reserve(4)?;
    cache.reserve_slots(16)?;
    changes.reserve(20)?;
    let made = heap.requests();
    heap.refuse_nth(1);
    for key in 16..20 {
        let side = if key < 18 { 4 } else { 8 };
        let placed = cache.insert(key, size2(side, side), &mut changes)?;
        assert!(matches!(placed, Inserted::Placed(_)));
    }
    assert_eq!(heap.requests(), made);
    assert!(cache.peek(&0).is_none() && cache.peek(&19).is_some());
    Ok(())
}
