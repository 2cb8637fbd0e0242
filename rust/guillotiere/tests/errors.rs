//! The calls that the crate doesn't have: errors as values, lists of ids, counts, areas, and what may be asked before a
//! call.
use guillotiere::*;

// An error alone: allocators have no `PartialEq`.
fn kind_of<T>(answer: Result<T, AtlasError>) -> Option<AtlasError> {
    answer.err()
}

// Options with this alignment and these thresholds.
fn options(alignment: (i32, i32), small: i32, large: i32) -> AllocatorOptions {
    AllocatorOptions {
        alignment: size2(alignment.0, alignment.1),
        small_size_threshold: small,
        large_size_threshold: large,
    }
}

#[test]
fn each_condition_of_a_start_has_its_error() {
    let rows = [
        ((0, 9), (1, 1), 32, 256, 1, AtlasError::EmptySize),
        ((9, -1), (0, 1), 9, 8, 0, AtlasError::EmptySize),
        ((9, 9), (0, 1), 32, 256, 1, AtlasError::Alignment),
        ((9, 9), (1, -1), 9, 8, 0, AtlasError::Alignment),
        ((9, 9), (1, 1), 9, 8, 0, AtlasError::Thresholds),
        ((9, 9), (1, 1), 8, 8, 0, AtlasError::SlotLimit),
        ((9, 9), (1, 1), 8, 8, MOST_SLOTS + 1, AtlasError::SlotLimit),
    ];
    for (size, alignment, small, large, limit, error) in rows {
        let size = size2(size.0, size.1);
        let options = options(alignment, small, large);
        let limited = AtlasAllocator::try_with_slot_limit(size, &options, limit);
        assert_eq!(kind_of(limited), Some(error));
        if error != AtlasError::SlotLimit {
            let atlas = AtlasAllocator::try_with_options(size, &options);
            let simple = SimpleAtlasAllocator::try_with_options(size, &options);
            assert_eq!(
                (kind_of(atlas), kind_of(simple)),
                (Some(error), Some(error))
            );
            let mut atlas = AtlasAllocator::new(size2(7, 7));
            let mut simple = SimpleAtlasAllocator::new(size2(7, 7));
            assert_eq!(atlas.try_reset(size, &options), Err(error));
            assert_eq!(simple.try_reset(size, &options), Err(error));
            assert_eq!((atlas.size(), simple.size()), (size2(7, 7), size2(7, 7)));
        }
    }
    for limit in [1, MOST_SLOTS] {
        assert!(
            AtlasAllocator::try_with_slot_limit(size2(9, 9), &options((1, 1), 8, 8), limit).is_ok()
        );
    }
}

#[test]
fn sizes_that_a_call_refuses() {
    assert_eq!(
        kind_of(AtlasAllocator::try_new(size2(0, 9))),
        Some(AtlasError::EmptySize)
    );
    assert_eq!(
        kind_of(SimpleAtlasAllocator::try_new(size2(9, -1))),
        Some(AtlasError::EmptySize)
    );
    let mut atlas = AtlasAllocator::new(size2(64, 64));
    assert_eq!(atlas.try_grow(size2(63, 64)), Err(AtlasError::Shrinks));
    assert_eq!(
        atlas.try_resize_and_rearrange(size2(0, 1)),
        Err(AtlasError::EmptySize)
    );
    assert_eq!(atlas.size(), size2(64, 64));
}

#[test]
fn ids_that_are_not_live() {
    let mut atlas = AtlasAllocator::new(size2(64, 64));
    let one = atlas.allocate(size2(9, 9)).unwrap();
    let other = atlas.allocate(size2(8, 8)).unwrap();
    assert_eq!(
        atlas.try_deallocate_all(&[one.id, other.id, one.id]),
        Err(AtlasError::NotLive)
    );
    assert_eq!(atlas.get(one.id), Some(one.rectangle));
    assert_eq!(atlas.try_deallocate_all(&[]), Ok(()));
    assert_eq!(atlas.try_deallocate_all(&[one.id, other.id]), Ok(()));
    assert_eq!(atlas.try_deallocate(one.id), Err(AtlasError::NotLive));
    assert_eq!(atlas.get(one.id), None);
    assert!(atlas.is_empty());
}

#[test]
fn slots_run_out() {
    let mut atlas =
        AtlasAllocator::try_with_slot_limit(size2(64, 64), &DEFAULT_OPTIONS, 5).unwrap();
    atlas.try_allocate(size2(10, 10)).unwrap().unwrap();
    assert_eq!(atlas.try_allocate(size2(3, 3)), Err(AtlasError::Slots));
    assert_eq!(atlas.try_allocate(size2(65, 3)), Ok(None));
    let slots = atlas.slots();
    assert!(slots.used <= slots.kept && slots.kept <= slots.limit && slots.limit == 5);
}

#[test]
fn slots_in_reserve() {
    let mut atlas =
        AtlasAllocator::try_with_slot_limit(size2(64, 64), &DEFAULT_OPTIONS, 5).unwrap();
    let before = atlas.slots();
    assert_eq!(atlas.try_reserve(4), Ok(()));
    assert_eq!(atlas.try_reserve(5), Err(AtlasError::Slots));
    assert_eq!(atlas.slots(), before);
}

#[test]
fn requests_that_have_room() {
    let mut atlas = AtlasAllocator::new(size2(64, 32));
    assert!(atlas.can_fit(size2(64, 32)));
    for (width, height) in [(0, 1), (1, -1), (65, 1), (1, 33), (i32::MIN, i32::MAX)] {
        assert!(!atlas.can_fit(size2(width, height)));
        assert_eq!(atlas.allocate(size2(width, height)), None);
    }
    atlas.allocate(size2(64, 31)).unwrap();
    assert!(atlas.can_fit(size2(64, 1)) && !atlas.can_fit(size2(1, 2)));
}

#[test]
fn sizes_that_may_be_grown_to() {
    let mut atlas = AtlasAllocator::new(size2(64, 32));
    let mut simple = SimpleAtlasAllocator::new(size2(64, 32));
    for (width, height, grows) in [
        (63, 99, false),
        (99, 31, false),
        (64, 32, true),
        (64, 33, true),
        (-1, 99, false),
    ] {
        let size = size2(width, height);
        assert_eq!(
            (atlas.can_grow_to(size), simple.can_grow_to(size)),
            (grows, grows)
        );
        assert_eq!(
            (atlas.try_grow(size).is_ok(), simple.try_grow(size).is_ok()),
            (grows, grows)
        );
    }
}

#[test]
fn options_are_told() {
    let options = AllocatorOptions {
        alignment: size2(16, 8),
        small_size_threshold: -3,
        large_size_threshold: 77,
    };
    let atlas = AtlasAllocator::with_options(size2(64, 64), &options);
    let mut simple = SimpleAtlasAllocator::new(size2(64, 64));
    assert_eq!(
        (atlas.options(), simple.options()),
        (options, DEFAULT_OPTIONS)
    );
    simple.init_from_allocator(&atlas);
    assert_eq!(simple.options(), options);
}

#[test]
fn entries_of_a_simple_allocator() {
    let mut simple = SimpleAtlasAllocator::new(size2(64, 64));
    assert_eq!(
        simple.slots(),
        SlotCount {
            used: 1,
            kept: 1,
            limit: 4_261_412_864
        }
    );
    simple.allocate(size2(10, 20)).unwrap();
    assert_eq!(
        simple.slots(),
        SlotCount {
            used: 2,
            kept: 2,
            limit: 4_261_412_864
        }
    );
    assert!(simple.allocate(size2(64, 64)).is_none());
    simple.clear();
    assert_eq!(simple.slots().used, 1);
}

#[test]
fn areas_are_those_of_the_atlas() {
    let mut atlas = AtlasAllocator::new(size2(64, 32));
    atlas.allocate(size2(10, 20)).unwrap();
    assert_eq!(
        atlas.areas(),
        Areas {
            allocated: 200,
            free: 64 * 32 - 200
        }
    );
}

#[cfg(feature = "std")]
#[test]
fn errors_are_errors() {
    let error: Box<dyn std::error::Error> = Box::new(AtlasError::NotLive);
    assert_eq!(error.to_string(), "the id is not live");
}

#[test]
fn allocators_go_to_other_threads() {
    let mut atlas = AtlasAllocator::new(size2(64, 64));
    let granted = atlas.allocate(size2(10, 20)).unwrap();
    let _shown = atlas[granted.id];
    let there = std::thread::spawn(move || {
        let mut simple = SimpleAtlasAllocator::new(size2(1, 1));
        simple.init_from_allocator(&atlas);
        (atlas[granted.id], simple)
    });
    let (rectangle, mut simple) = there.join().unwrap();
    assert_eq!(rectangle, granted.rectangle);
    assert!(simple.allocate(size2(64, 64)).is_none());
}

#[test]
fn a_copy_shares_nothing() {
    let mut atlas = AtlasAllocator::new(size2(64, 64));
    let granted = atlas.allocate(size2(10, 20)).unwrap();
    let mut copy = atlas.try_clone().unwrap();
    copy.deallocate(granted.id);
    assert_eq!(atlas[granted.id], granted.rectangle);
    drop(atlas);
    assert!(copy.allocate(size2(64, 64)).is_some());
}

// In a corner of 100 by 100 lie 20 by 60; below them is room for 20 by 40.
#[test]
fn a_copy_of_a_simple_allocator_shares_nothing() {
    let mut simple = SimpleAtlasAllocator::new(size2(100, 100));
    assert!(simple.allocate(size2(20, 60)).is_some());
    let mut copy = simple.clone();
    let below = Rectangle {
        min: point2(0, 60),
        max: point2(20, 100),
    };
    assert_eq!(simple.allocate(size2(20, 40)), Some(below));
    simple.reset(size2(8, 8), &DEFAULT_OPTIONS);
    assert_eq!(
        (copy.size(), copy.options()),
        (size2(100, 100), DEFAULT_OPTIONS)
    );
    assert_eq!(copy.allocate(size2(20, 40)), Some(below));
}
