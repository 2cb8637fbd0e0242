//! What is in reserve.

use test_memory::Refusing;
use wollemigo_core::atlas_cache::entries::{DefaultHasher, Entries, Entry};
use wollemigo_core::atlas_cache::recency::Recency;
use wollemigo_core::atlas_cache::CacheError;
use wollemigo_core::guillotiere::{point2, size2, AllocId, Rectangle};
use wollemigo_support::alloc::{Allocator, Global};
use wollemigo_support::test::Fail;

#[test]
fn reserved_numbers_take_no_more_memory() -> Result<(), Fail> {
    let heap = Refusing::new(Global);
    let mut recency = Recency::new(&heap);
    recency.reserve(100)?;
    heap.refuse_every();
    for _ in 0..100 {
        recency.push()?;
    }
    recency.clear();
    for _ in 0..100 {
        recency.push()?;
    }
    Ok(())
}

// Adds entries with keys from 0 on.
fn add<A: Allocator + Copy>(
    entries: &mut Entries<u32, DefaultHasher, A>,
    count: u32,
) -> Result<(), CacheError> {
    for key in 0..count {
        entries.push(Entry {
            key,
            size: size2(1, 1),
            page: 0,
            id: AllocId::deserialize(key),
            rectangle: Rectangle {
                min: point2(0, 0),
                max: point2(1, 1),
            },
            number: 0,
            frame: 0,
        })?;
    }
    Ok(())
}

#[test]
fn cleared_entries_keep_what_was_reserved() -> Result<(), Fail> {
    let heap = Refusing::new(Global);
    let mut entries = Entries::with_hasher(&heap, DefaultHasher::new());
    entries.reserve(100)?;
    entries.clear();
    heap.refuse_every();
    add(&mut entries, 100)?;
    entries.clear();
    add(&mut entries, 100)?;
    Ok(())
}
