//! Recordings that are resumed: what goes on from their end, and what can't be carried out.

use super::replay::{allocation, are_equal, box_of_seven, column, remove, request, MOVED};
use guillotiere_tests::tables::Corners;
use test_memory::Refusing;
use wollemigo_core::guillotiere::{
    size2, AllocId, Allocation, AtlasAllocator, ChangeList, DEFAULT_OPTIONS,
};
use wollemigo_core::guillotiere_recording::{
    Event, Recorder, RecordingAllocator, RecordingError, ReplayFault,
};
use wollemigo_support::alloc::Global;
use wollemigo_support::test::Fail;

fn are_live(shown: &[Allocation], live: &[(u32, Corners)]) -> bool {
    let same = shown
        .iter()
        .zip(live)
        .all(|(shown, expected)| *shown == allocation(*expected));
    same && shown.len() == live.len()
}

#[test]
fn a_column_goes_on() -> Result<(), Fail> {
    let recording = column(Global)?;
    let mut session = recording.resume()?;
    assert!(are_live(session.allocations()?.as_slice(), MOVED));
    let granted = request(&mut session, (100, 100))?;
    assert_eq!(granted, Some(allocation((3, (0, 200, 100, 300)))));
    let mut after = session.finish();
    assert_eq!(after.events().len(), 7);
    remove(&mut after, 6);
    assert_eq!(after.events(), recording.events());
    Ok(())
}

// Why these events, in an atlas of 10 by 10, aren't resumed.
fn fault_of(events: &[Event<Global>]) -> Result<Option<ReplayFault>, RecordingError> {
    let mut recorder = Recorder::new(Global, size2(10, 10), &DEFAULT_OPTIONS);
    for event in events {
        recorder.record(event.clone()?)?;
    }
    Ok(recorder.finish().resume().err())
}

fn box_of(name: u32, corners: Corners) -> Event<Global> {
    Event::Allocate(size2(4, 4), Some(allocation((name, corners))))
}

#[test]
fn events_that_no_session_has() -> Result<(), Fail> {
    let at = (0, 0, 4, 4);
    let bad = |number| Some(ReplayFault::BadEvent(number));
    let resize = Event::ResizeAndRearrange(size2(0, 5), ChangeList::empty(Global));
    let freed = Event::Deallocate(AllocId::deserialize(0));
    assert_eq!(fault_of(&[box_of_seven(at)])?, bad(0));
    assert_eq!(
        fault_of(&[Event::Deallocate(AllocId::deserialize(0))])?,
        bad(0)
    );
    assert_eq!(fault_of(&[Event::Grow(size2(9, 10))])?, bad(0));
    assert_eq!(fault_of(&[resize])?, bad(0));
    assert_eq!(fault_of(&[box_of(0, at), freed, box_of(0, at)])?, bad(2));
    Ok(())
}

#[test]
fn answers_of_no_session() -> Result<(), Fail> {
    let other = Some(ReplayFault::Differs(0));
    assert_eq!(fault_of(&[box_of(0, (0, 0, 4, 5))])?, other);
    assert_eq!(fault_of(&[box_of(0, (1, 0, 5, 4))])?, other);
    assert_eq!(fault_of(&[Event::Allocate(size2(4, 4), None)])?, other);
    assert!(fault_of(&[box_of(0, (0, 0, 4, 4))])?.is_none());
    let mut cut = column(Global)?;
    remove(&mut cut, 4);
    assert_eq!(cut.resume().err(), Some(ReplayFault::Differs(4)));
    Ok(())
}

#[test]
fn memory_refused_in_turn() -> Result<(), Fail> {
    let heap = Refusing::new(Global);
    let recording = column(&heap)?;
    let mut refusals = 0u32;
    for number in 1..1000u32 {
        heap.refuse_nth(number);
        let answer = recording.resume();
        if !heap.is_done() {
            assert!(are_equal(&answer?.finish(), &recording));
            break;
        }
        assert_eq!(answer.err(), Some(ReplayFault::Memory));
        refusals = number;
    }
    assert!(refusals > 5, "too few requests for memory");
    Ok(())
}

// The copy of a session that goes on.
#[test]
fn a_copy_is_what_finish_answers() -> Result<(), Fail> {
    let whole = column(Global)?;
    let mut session = whole.resume()?;
    let copy = session.recording()?;
    assert_eq!(copy.events(), whole.events());
    assert!(copy.size() == size2(100, 300) && copy.options() == DEFAULT_OPTIONS);
    request(&mut session, (100, 100))?;
    let after = session.recording()?;
    assert!(copy.events().len() == 6 && after.events().len() == 7);
    assert_eq!(after.events(), session.finish().events());
    Ok(())
}

#[test]
fn memory_for_a_copy_is_refused_in_turn() -> Result<(), Fail> {
    let heap = Refusing::new(Global);
    let whole = column(&heap)?;
    let session = whole.resume()?;
    let mut refusals = 0u32;
    for number in 1..100u32 {
        heap.refuse_nth(number);
        let answer = session.recording();
        if !heap.is_done() {
            assert_eq!(answer?.events().len(), 6);
            break;
        }
        assert_eq!(answer.err(), Some(RecordingError::Memory));
        refusals = number;
    }
    assert!(refusals >= 2, "too few requests for memory");
    Ok(())
}

// What is asked without being recorded is as the bare atlas answers.
#[test]
fn what_is_not_recorded() -> Result<(), Fail> {
    let mut session = RecordingAllocator::new(Global, size2(100, 40))?;
    let mut bare = AtlasAllocator::new(Global, size2(100, 40))?;
    for width in [60, 30] {
        request(&mut session, (width, 40))?;
        bare.allocate(size2(width, 40))?;
    }
    session.reserve(20)?;
    assert_eq!(session.slots(), bare.slots());
    assert_eq!(session.options(), DEFAULT_OPTIONS);
    assert!(session.can_fit(size2(10, 40)) && !session.can_fit(size2(11, 40)));
    assert!(session.can_grow_to(size2(100, 41)) && !session.can_grow_to(size2(99, 40)));
    assert_eq!(session.reserve(u32::MAX), Err(RecordingError::Slots));
    assert_eq!(session.finish().events().len(), 2);
    Ok(())
}
