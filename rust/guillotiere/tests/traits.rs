//! What the compiler knows of the types, and what they show of themselves.
#![cfg(all(feature = "cache", feature = "sheet", feature = "recording"))]
use guillotiere::cache::{
    CacheChange, CacheError, CacheOptions, Counts, Inserted, OptionsError, Place, TextureCache,
};
use guillotiere::recording::{Event, Recording, RecordingAllocator, ResumeError};
use guillotiere::sheet::{Filled, Pages, Sheet, SheetError};
use guillotiere::*;
use std::collections::hash_map::RandomState;
use std::fmt::{Debug, Display};
use std::hash::Hash;
use std::mem::{align_of, size_of};
use std::panic::{RefUnwindSafe, UnwindSafe};

fn goes_anywhere<T: Send + Sync + UnwindSafe + RefUnwindSafe + Unpin + Debug + 'static>() {}

#[test]
fn all_types_go_to_other_threads_and_through_unwinding() {
    goes_anywhere::<AtlasAllocator>();
    goes_anywhere::<SimpleAtlasAllocator>();
    goes_anywhere::<PagedAtlas>();
    goes_anywhere::<TextureCache>();
    goes_anywhere::<TextureCache<(u32, char), RandomState>>();
    goes_anywhere::<RecordingAllocator>();
    goes_anywhere::<Recording>();
    goes_anywhere::<Event>();
    goes_anywhere::<ResumeError>();
    goes_anywhere::<ChangeList>();
    goes_anywhere::<AtlasError>();
    goes_anywhere::<Sheet>();
    goes_anywhere::<Filled>();
}

#[test]
fn threads_read_one_atlas() {
    let mut atlas = AtlasAllocator::new(size2(64, 64));
    let granted = atlas.allocate(size2(10, 20)).unwrap();
    let shared = &atlas;
    std::thread::scope(|scope| {
        let readers = [(); 4].map(|_| scope.spawn(move || shared[granted.id]));
        for reader in readers {
            assert_eq!(reader.join().unwrap(), granted.rectangle);
        }
    });
}

// What goes into a set, and what is ordered or made without a word.
#[test]
fn values_are_compared_hashed_and_made() {
    fn is_hashed<T: Eq + Hash + Debug + Clone>() {}
    fn is_ordered<T: Ord + Copy>() {}
    fn is_made<T: Default + PartialEq + Debug>(value: T) {
        assert_eq!(T::default(), value);
    }
    is_hashed::<Allocation>();
    is_hashed::<PageAllocation>();
    is_hashed::<Change>();
    is_hashed::<ChangeList>();
    is_hashed::<SlotCount>();
    is_hashed::<Areas>();
    is_hashed::<Place>();
    is_hashed::<Inserted>();
    is_hashed::<CacheChange<char>>();
    is_hashed::<Counts>();
    is_hashed::<Sheet>();
    is_hashed::<Filled>();
    is_hashed::<Pages>();
    is_hashed::<Recording>();
    is_hashed::<Event>();
    is_ordered::<AllocId>();
    assert!(AllocId::deserialize(3) < AllocId::deserialize(4));
    is_made(DEFAULT_OPTIONS);
    is_made(ChangeList::empty());
    is_made(CacheOptions::new(size2(1024, 1024)));
    is_made(Counts {
        hits: 0,
        misses: 0,
        evictions: 0,
        forced: 0,
    });
}

#[test]
fn errors_are_errors() {
    fn is_told<T: Display + Debug + Copy + Eq + Hash>() {}
    is_told::<AtlasError>();
    is_told::<CacheError>();
    is_told::<OptionsError>();
    is_told::<SheetError>();
    is_told::<ResumeError>();
    #[cfg(feature = "std")]
    {
        fn is_error<T: std::error::Error + 'static>() {}
        is_error::<AtlasError>();
        is_error::<CacheError>();
        is_error::<OptionsError>();
        is_error::<SheetError>();
        is_error::<ResumeError>();
    }
}

// As C lays out structs of these fields, in their order.
#[test]
fn values_have_the_layout_of_c() {
    assert_eq!((size_of::<AllocId>(), align_of::<AllocId>()), (4, 4));
    assert_eq!((size_of::<Allocation>(), align_of::<Allocation>()), (20, 4));
    assert_eq!((size_of::<Change>(), align_of::<Change>()), (40, 4));
    let options = (
        size_of::<AllocatorOptions>(),
        align_of::<AllocatorOptions>(),
    );
    assert_eq!(options, (16, 4));
}

#[test]
fn kinds_of_nodes_have_names() {
    use NodeKind::*;
    for kind in [Container, Alloc, Free, Unused] {
        assert!([Container, Alloc, Free, Unused].contains(&kind));
    }
}

#[test]
fn what_debug_shows() {
    let mut atlas = AtlasAllocator::new(size2(64, 32));
    atlas.allocate(size2(9, 9)).unwrap();
    let shown = format!("{:?}", atlas);
    for part in ["AtlasAllocator", "64", "32", "used"] {
        assert!(shown.contains(part), "{}", shown);
    }
    assert!(format!("{:?}", SimpleAtlasAllocator::new(size2(64, 32))).contains("64"));
    assert!(format!("{:?}", RecordingAllocator::new(size2(64, 32))).contains("64"));
}

#[test]
fn a_cache_takes_keys_and_hashers_of_ones_own() {
    let options = CacheOptions {
        page: size2(16, 16),
        largest_page: size2(16, 16),
        pages: 1,
        padding: 0,
        atlas: DEFAULT_OPTIONS,
    };
    let mut cache = TextureCache::with_hasher(&options, RandomState::new()).unwrap();
    let first = cache
        .insert(("one", 1), size2(3, 4))
        .unwrap()
        .place()
        .unwrap();
    let second = cache
        .insert(("two", 2), size2(5, 6))
        .unwrap()
        .place()
        .unwrap();
    assert_eq!(cache.newest(), Some((("two", 2), second)));
    assert_eq!(cache.older(("two", 2)), Some((("one", 1), first)));
    assert_eq!(
        (cache.oldest(), cache.older(("one", 1))),
        (Some((("one", 1), first)), None)
    );
    assert_eq!(
        (cache.live_area(0), cache.free_area(0)),
        (Some(42), Some(256 - 42))
    );
    assert_eq!((cache.live_area(1), cache.reserve(10)), (None, Ok(())));
    assert!(format!("{:?}", cache).contains("pages: 1"));
    assert!(cache.clone().iter().eq(cache.iter()));
}

// A table that grows in one piece would be copied: its rectangles would lie elsewhere.
#[test]
fn indexed_rectangles_stay_where_they_are_in_memory() {
    let mut atlas = AtlasAllocator::new(size2(1024, 1024));
    let first = atlas.allocate(size2(2, 2)).unwrap();
    let place: *const Rectangle = &atlas[first.id];
    let mut last = first;
    for _ in 0..100_000 {
        last = atlas.allocate(size2(2, 2)).unwrap();
    }
    assert_eq!(place, &atlas[first.id] as *const Rectangle);
    assert_eq!(
        (atlas[first.id], atlas[last.id]),
        (first.rectangle, last.rectangle)
    );
    let copy = atlas.clone();
    assert_eq!(
        (copy[first.id], copy[last.id]),
        (first.rectangle, last.rectangle)
    );
}

// As the callbacks tell them.
#[test]
fn rectangles_of_an_atlas_are_walked_from_both_ends() {
    let mut atlas = AtlasAllocator::new(size2(64, 64));
    let granted: Vec<Allocation> = (1..9)
        .map(|side| atlas.allocate(size2(side, 5)).unwrap())
        .collect();
    for turn in [1, 4] {
        atlas.deallocate(granted[turn].id);
    }
    let (mut live, mut free) = (Vec::new(), Vec::new());
    atlas.for_each_allocated_rectangle(|id, rectangle| {
        let rectangle = *rectangle;
        live.push(Allocation { id, rectangle });
    });
    atlas.for_each_free_rectangle(|rectangle| free.push(*rectangle));
    assert_eq!((live.len(), atlas.allocations().len()), (6, 6));
    assert!(atlas.allocations().eq(live.iter().copied()));
    assert!(atlas.allocations().rev().eq(live.iter().rev().copied()));
    assert!(atlas.free_rectangles().eq(free.iter().copied()));
    let mut ends = atlas.free_rectangles();
    assert_eq!(
        (ends.next(), ends.next_back()),
        (free.first().copied(), free.last().copied())
    );
    assert_eq!(ends.len(), free.len() - 2);
    assert_eq!(format!("{:?}", atlas.allocations()), format!("{:?}", live));
}
