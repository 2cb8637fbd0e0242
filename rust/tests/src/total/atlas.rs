//! Calls of an atlas.

use super::tables::{options, Start, BAD_STARTS};
use guillotiere_tests::tables::{size, ALIGNED_TO_8};
use test_memory::Refusing;
use wollemigo_core::guillotiere::{
    size2, AtlasAllocator, AtlasError, ChangeList, Size, DEFAULT_OPTIONS,
};
use wollemigo_core::guillotiere_total::{atlas, CallError};
use wollemigo_support::alloc::Global;
use wollemigo_support::test::Fail;

fn limited(row: Start) -> Option<CallError> {
    let options = options(row.1, row.2);
    atlas::with_slot_limit(Global, size(row.0), &options, row.3).err()
}

fn unlimited(row: Start) -> Option<CallError> {
    let options = options(row.1, row.2);
    atlas::with_options(Global, size(row.0), &options).err()
}

// The error where it isn't that of the limit.
fn without_limit(error: CallError) -> Option<CallError> {
    if error == CallError::SlotLimit {
        None
    } else {
        Some(error)
    }
}

#[test]
fn bad_starts_have_the_error_of_the_first_condition() {
    for row in BAD_STARTS {
        assert_eq!(limited(row), Some(row.4));
        assert_eq!(unlimited(row), without_limit(row.4));
    }
    assert_eq!(
        atlas::new(Global, size2(9, 0)).err(),
        Some(CallError::EmptySize)
    );
}

fn frame(made: &AtlasAllocator) -> (Size, i32, u32) {
    (
        made.size(),
        made.options().alignment.width,
        made.slots().limit,
    )
}

#[test]
fn good_starts_are_made() -> Result<(), Fail> {
    let plain = atlas::new(Global, size2(9, 7))?;
    assert_eq!(frame(&plain), (size2(9, 7), 1, 16777216));
    let aligned = atlas::with_options(Global, size2(9, 7), &ALIGNED_TO_8)?;
    assert_eq!(frame(&aligned), (size2(9, 7), 8, 16777216));
    let limited = atlas::with_slot_limit(Global, size2(9, 7), &ALIGNED_TO_8, 1)?;
    assert_eq!(frame(&limited), (size2(9, 7), 8, 1));
    let most = atlas::with_slot_limit(Global, size2(9, 7), &ALIGNED_TO_8, 16777216)?;
    assert_eq!(frame(&most), (size2(9, 7), 8, 16777216));
    Ok(())
}

#[test]
fn only_growths_are_made() -> Result<(), Fail> {
    let mut made = atlas::new(Global, size2(9, 7))?;
    assert_eq!(
        atlas::grow(&mut made, size2(8, 99)),
        Err(CallError::Shrinks)
    );
    assert_eq!(
        atlas::grow(&mut made, size2(99, 6)),
        Err(CallError::Shrinks)
    );
    assert_eq!(made.size(), size2(9, 7));
    assert_eq!(atlas::grow(&mut made, size2(9, 8)), Ok(()));
    assert_eq!(made.size(), size2(9, 8));
    Ok(())
}

#[test]
fn a_growth_wants_slots() -> Result<(), Fail> {
    let mut made = atlas::with_slot_limit(Global, size2(9, 7), &DEFAULT_OPTIONS, 1)?;
    assert!(made.allocate(size2(9, 7))?.is_some());
    let refused = Err(CallError::Refused(AtlasError::Slots));
    assert_eq!(atlas::grow(&mut made, size2(9, 8)), refused);
    assert_eq!(made.size(), size2(9, 7));
    Ok(())
}

fn counts(list: &ChangeList) -> (usize, usize) {
    (list.changes.len(), list.failures.len())
}

#[test]
fn a_rearranging_wants_a_size() -> Result<(), Fail> {
    let mut made = atlas::new(Global, size2(9, 7))?;
    let refused = atlas::resize_and_rearrange(&mut made, size2(9, 0)).err();
    assert_eq!(refused, Some(CallError::EmptySize));
    assert!(made.allocate(size2(5, 5))?.is_some());
    assert!(made.allocate(size2(4, 7))?.is_some());
    let list = atlas::resize_and_rearrange(&mut made, size2(4, 7))?;
    assert_eq!(counts(&list), (1, 1));
    assert_eq!(made.size(), size2(4, 7));
    Ok(())
}

fn reset_by(made: &mut AtlasAllocator, row: Start) -> Option<CallError> {
    let options = options(row.1, row.2);
    atlas::reset(made, size(row.0), &options).err()
}

#[test]
fn a_reset_wants_what_a_start_wants() -> Result<(), Fail> {
    for row in BAD_STARTS {
        let mut made = atlas::new(Global, size2(9, 7))?;
        let kept = if row.4 == CallError::SlotLimit {
            size2(1, 1)
        } else {
            size2(9, 7)
        };
        assert_eq!(reset_by(&mut made, row), without_limit(row.4));
        assert_eq!(made.size(), kept);
    }
    Ok(())
}

fn start_refused(number: u32) -> Option<CallError> {
    let heap = Refusing::new(Global);
    heap.refuse_nth(number);
    let error = atlas::new(&heap, size2(9, 7)).err();
    assert!(heap.is_done());
    error
}

#[test]
fn memory_may_be_refused() {
    let refused = Some(CallError::Refused(AtlasError::Memory));
    assert_eq!(start_refused(1), refused);
    assert_eq!(start_refused(0), None);
}
