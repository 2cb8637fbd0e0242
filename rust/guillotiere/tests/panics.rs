//! What a panic says: which condition of the call failed.
#![cfg(feature = "recording")]
use guillotiere::recording::RecordingAllocator;
use guillotiere::*;
use std::panic::{catch_unwind, AssertUnwindSafe};

fn text<T>(call: impl FnOnce() -> T) -> String {
    let payload = catch_unwind(AssertUnwindSafe(call))
        .err()
        .expect("the call returned");
    let text = payload.downcast::<String>().map(|text| *text);
    text.unwrap_or_else(|payload| payload.downcast::<&str>().unwrap().to_string())
}

const EMPTY_SIZE: &str = "a side of the size is below 1";
const ALIGNMENT: &str = "a side of the alignment is below 1";
const THRESHOLDS: &str = "the small threshold is above the large one";
const SHRINKS: &str = "a side of the new size is less than the present one";
const NOT_LIVE: &str = "the id is not live";

#[test]
fn starts_that_panic() {
    let unaligned = AllocatorOptions {
        alignment: size2(1, 0),
        ..DEFAULT_OPTIONS
    };
    let crossed = AllocatorOptions {
        small_size_threshold: 257,
        ..DEFAULT_OPTIONS
    };
    let rows = [
        (size2(0, 5), DEFAULT_OPTIONS, EMPTY_SIZE),
        (size2(5, -5), unaligned, EMPTY_SIZE),
        (size2(5, 5), unaligned, ALIGNMENT),
        (size2(5, 5), crossed, THRESHOLDS),
    ];
    for (size, options, expected) in rows {
        assert_eq!(
            text(|| AtlasAllocator::with_options(size, &options)),
            expected
        );
        assert_eq!(
            text(|| SimpleAtlasAllocator::with_options(size, &options)),
            expected
        );
        let mut atlas = AtlasAllocator::new(size2(9, 9));
        assert_eq!(text(|| atlas.reset(size, &options)), expected);
        let mut simple = SimpleAtlasAllocator::new(size2(9, 9));
        assert_eq!(text(|| simple.reset(size, &options)), expected);
        assert_eq!((atlas.size(), simple.size()), (size2(9, 9), size2(9, 9)));
    }
    assert_eq!(text(|| AtlasAllocator::new(size2(0, 5))), EMPTY_SIZE);
    assert_eq!(text(|| SimpleAtlasAllocator::new(size2(0, 5))), EMPTY_SIZE);
}

#[test]
fn changes_that_panic() {
    let mut atlas = AtlasAllocator::new(size2(9, 9));
    let mut simple = SimpleAtlasAllocator::new(size2(9, 9));
    assert_eq!(text(|| atlas.grow(size2(8, 10))), SHRINKS);
    assert_eq!(text(|| simple.grow(size2(10, 8))), SHRINKS);
    assert_eq!(text(|| atlas.resize_and_rearrange(size2(3, 0))), EMPTY_SIZE);
    assert_eq!(text(|| atlas.deallocate(AllocId::deserialize(7))), NOT_LIVE);
    assert_eq!(text(|| atlas[AllocId::deserialize(7)]), NOT_LIVE);
    let mut full = AtlasAllocator::try_with_slot_limit(size2(9, 9), &DEFAULT_OPTIONS, 1).unwrap();
    assert_eq!(text(|| full.allocate(size2(2, 3))), "no slot is left");
    assert!(atlas.is_empty() && simple.is_empty() && full.is_empty());
}

#[test]
fn recorded_calls_that_panic() {
    assert_eq!(text(|| RecordingAllocator::new(size2(0, 5))), EMPTY_SIZE);
    let crossed = AllocatorOptions {
        small_size_threshold: 257,
        ..DEFAULT_OPTIONS
    };
    assert_eq!(
        text(|| RecordingAllocator::with_options(size2(5, 5), &crossed)),
        THRESHOLDS
    );
    let mut atlas = RecordingAllocator::new(size2(9, 9));
    assert_eq!(text(|| atlas.grow(size2(8, 10))), SHRINKS);
    assert_eq!(text(|| atlas.resize_and_rearrange(size2(3, 0))), EMPTY_SIZE);
    let name = AllocId::deserialize(0);
    assert_eq!(text(|| atlas.deallocate(name)), NOT_LIVE);
    assert_eq!(atlas.recording().events, []);
}
