//! Calls of a simple allocator.

use super::tables::{options, Start, BAD_STARTS};
use guillotiere_tests::tables::{size, ALIGNED_TO_8};
use test_memory::Refusing;
use wollemigo_core::guillotiere::{size2, AtlasError, SimpleAtlasAllocator, Size};
use wollemigo_core::guillotiere_total::{simple, CallError};
use wollemigo_support::alloc::Global;
use wollemigo_support::test::Fail;

fn started(row: Start) -> Option<CallError> {
    let options = options(row.1, row.2);
    simple::with_options(Global, size(row.0), &options).err()
}

fn reset_by(made: &mut SimpleAtlasAllocator, row: Start) -> Option<CallError> {
    let options = options(row.1, row.2);
    simple::reset(made, size(row.0), &options).err()
}

// The error of a row and the size after it, where no limit is asked.
fn expected(error: CallError) -> (Option<CallError>, Size) {
    if error == CallError::SlotLimit {
        (None, size2(1, 1))
    } else {
        (Some(error), size2(9, 7))
    }
}

#[test]
fn bad_starts_have_the_error_of_the_first_condition() -> Result<(), Fail> {
    for row in BAD_STARTS {
        assert_eq!(started(row), expected(row.4).0);
        let mut made = simple::new(Global, size2(9, 7))?;
        let refused = reset_by(&mut made, row);
        assert_eq!((refused, made.size()), expected(row.4));
    }
    assert_eq!(
        simple::new(Global, size2(9, 0)).err(),
        Some(CallError::EmptySize)
    );
    Ok(())
}

#[test]
fn good_starts_are_made() -> Result<(), Fail> {
    let plain = simple::new(Global, size2(9, 7))?;
    assert_eq!(
        (plain.size(), plain.options().alignment),
        (size2(9, 7), size2(1, 1))
    );
    let aligned = simple::with_options(Global, size2(9, 7), &ALIGNED_TO_8)?;
    assert_eq!(
        (aligned.size(), aligned.options().alignment),
        (size2(9, 7), size2(8, 8))
    );
    Ok(())
}

#[test]
fn only_growths_are_made() -> Result<(), Fail> {
    let mut made = simple::new(Global, size2(9, 7))?;
    assert_eq!(
        simple::grow(&mut made, size2(8, 99)),
        Err(CallError::Shrinks)
    );
    assert_eq!(
        simple::grow(&mut made, size2(99, 6)),
        Err(CallError::Shrinks)
    );
    assert_eq!(made.size(), size2(9, 7));
    assert_eq!(simple::grow(&mut made, size2(9, 8)), Ok(()));
    assert_eq!(made.size(), size2(9, 8));
    Ok(())
}

fn start_refused(number: u32) -> Option<CallError> {
    let heap = Refusing::new(Global);
    heap.refuse_nth(number);
    let error = simple::new(&heap, size2(9, 7)).err();
    assert!(heap.is_done());
    error
}

#[test]
fn memory_may_be_refused() {
    let refused = Some(CallError::Refused(AtlasError::Memory));
    assert_eq!(start_refused(1), refused);
    assert_eq!(start_refused(0), None);
}
