//! Calls of a recording allocator and of a recorder.

use super::tables::{options, Start, BAD_STARTS};
use guillotiere_tests::tables::{size, ALIGNED_TO_8};
use test_memory::Refusing;
use wollemigo_core::guillotiere::{size2, AllocId, AtlasError, ChangeList, Size, DEFAULT_OPTIONS};
use wollemigo_core::guillotiere_recording::{Event, RecordingAllocator};
use wollemigo_core::guillotiere_total::{recording, CallError};
use wollemigo_support::alloc::Global;
use wollemigo_support::test::Fail;

fn begun(row: Start) -> Option<CallError> {
    let options = options(row.1, row.2);
    recording::with_options(Global, size(row.0), &options).err()
}

fn recorder(row: Start) -> Option<CallError> {
    let options = options(row.1, row.2);
    recording::recorder(Global, size(row.0), &options).err()
}

// No start here has a limit.
#[test]
fn bad_starts_have_the_error_of_the_first_condition() {
    for row in BAD_STARTS {
        if row.4 != CallError::SlotLimit {
            assert_eq!(begun(row), Some(row.4));
            assert_eq!(recorder(row), Some(row.4));
        }
    }
}

fn frame(session: &RecordingAllocator) -> (Size, i32) {
    (session.size(), session.options().alignment.width)
}

#[test]
fn good_starts_are_made() -> Result<(), Fail> {
    let session = recording::with_options(Global, size2(9, 7), &ALIGNED_TO_8)?;
    assert_eq!(frame(&session), (size2(9, 7), 8));
    assert!(session.finish().events().is_empty());
    let mut recorder = recording::recorder(Global, size2(9, 7), &ALIGNED_TO_8)?;
    recorder.record(Event::Deallocate(AllocId::deserialize(3)))?;
    let made = recorder.finish();
    assert_eq!(made.size(), size2(9, 7));
    assert_eq!(made.options().alignment.width, 8);
    assert_eq!(made.events(), [Event::Deallocate(AllocId::deserialize(3))]);
    Ok(())
}

fn plain() -> Result<RecordingAllocator, CallError> {
    recording::with_options(Global, size2(9, 7), &DEFAULT_OPTIONS)
}

#[test]
fn only_growths_are_made() -> Result<(), Fail> {
    let mut session = plain()?;
    let shrinks = Err(CallError::Shrinks);
    assert_eq!(recording::grow(&mut session, size2(8, 99)), shrinks);
    assert_eq!(recording::grow(&mut session, size2(99, 6)), shrinks);
    assert_eq!(session.size(), size2(9, 7));
    assert_eq!(recording::grow(&mut session, size2(9, 8)), Ok(()));
    assert_eq!(session.size(), size2(9, 8));
    assert_eq!(session.finish().events(), [Event::Grow(size2(9, 8))]);
    Ok(())
}

fn counts(list: &ChangeList) -> (usize, usize) {
    (list.changes.len(), list.failures.len())
}

#[test]
fn a_rearranging_wants_a_size() -> Result<(), Fail> {
    let mut session = plain()?;
    let refused = recording::resize_and_rearrange(&mut session, size2(9, 0)).err();
    assert_eq!(refused, Some(CallError::EmptySize));
    assert!(session.allocate(size2(5, 5))?.is_some());
    assert!(session.allocate(size2(4, 7))?.is_some());
    let list = recording::resize_and_rearrange(&mut session, size2(4, 7))?;
    assert_eq!(counts(&list), (1, 1));
    assert_eq!(session.size(), size2(4, 7));
    assert_eq!(session.finish().events().len(), 3);
    Ok(())
}

fn start_refused(number: u32) -> Option<CallError> {
    let heap = Refusing::new(Global);
    heap.refuse_nth(number);
    let error = recording::with_options(&heap, size2(9, 7), &DEFAULT_OPTIONS).err();
    assert!(heap.is_done());
    error
}

fn growth_refused() -> Result<Option<CallError>, CallError> {
    let heap = Refusing::new(Global);
    let mut session = recording::with_options(&heap, size2(9, 7), &DEFAULT_OPTIONS)?;
    heap.refuse_nth(1);
    let error = recording::grow(&mut session, size2(9, 8)).err();
    assert!(heap.is_done() && session.size() == size2(9, 7));
    Ok(error)
}

#[test]
fn memory_may_be_refused() -> Result<(), Fail> {
    let refused = Some(CallError::Refused(AtlasError::Memory));
    assert_eq!(start_refused(1), refused);
    assert_eq!(start_refused(0), None);
    assert_eq!(growth_refused()?, refused);
    Ok(())
}
