//! The events of sessions are their calls with their answers, also with each request for memory refused in turn. What a
//! session shows and answers is compared in `recorded_tests`.

use super::replay::allocation;
use guillotiere_tests::tables::{size, Corners, Sides};
use test_memory::Refusing;
use wollemigo_core::guillotiere::{
    size2, AllocId, Allocation, Change, ChangeList, Size, DEFAULT_OPTIONS,
};
use wollemigo_core::guillotiere_recording::{
    Event, Recorder, Recording, RecordingAllocator, RecordingError,
};
use wollemigo_support::alloc::Global;
use wollemigo_support::test::Fail;

type Session<'a> = RecordingAllocator<&'a Refusing<Global>>;

/// A name, its old box and its new one.
type Moved = (u32, Corners, Corners);

/// A call and its answer, which is compared in its event; names are numbers.
enum Call {
    /// `allocate`: the name and the box, or none.
    Allocate(Sides, Option<(u32, Corners)>),
    Deallocate(u32),
    /// `deallocate` of a name that is not live: refused, and not recorded.
    DeallocateDead(u32),
    Grow(Sides),
    /// `rearrange`: the names that were moved, with their old and their new boxes, and the names that found no room.
    Rearrange(&'static [Moved], &'static [(u32, Corners)]),
    /// `resize_and_rearrange`: the new size, then as of `rearrange`.
    Resize(Sides, &'static [Moved], &'static [(u32, Corners)]),
}

// A name is given anew, and never a second time.
static NAMES: [Call; 4] = [
    Call::Allocate((20, 60), Some((0, (0, 0, 20, 60)))),
    Call::Deallocate(0),
    Call::DeallocateDead(0),
    Call::Allocate((20, 60), Some((1, (0, 0, 20, 60)))),
];

// Three boxes one below another, and no room for a fourth; what is live is listed by rising name.
static COLUMN: [Call; 11] = [
    Call::Allocate((100, 100), Some((0, (0, 0, 100, 100)))),
    Call::Allocate((100, 100), Some((1, (0, 100, 100, 200)))),
    Call::Allocate((100, 100), Some((2, (0, 200, 100, 300)))),
    Call::Allocate((1, 1), None),
    Call::Deallocate(1),
    Call::Allocate((0, 5), None),
    Call::Allocate((100, 100), Some((3, (0, 100, 100, 200)))),
    Call::Grow((100, 400)),
    Call::Allocate((100, 100), Some((4, (0, 300, 100, 400)))),
    Call::DeallocateDead(1),
    Call::DeallocateDead(4294967295),
];

// Two boxes are placed anew, the one below first; then neither has room.
static REARRANGED: [Call; 10] = [
    Call::Allocate((100, 100), Some((0, (0, 0, 100, 100)))),
    Call::Allocate((100, 100), Some((1, (0, 100, 100, 200)))),
    Call::Allocate((100, 100), Some((2, (0, 200, 100, 300)))),
    Call::Allocate((1, 1), None),
    Call::Deallocate(1),
    Call::Rearrange(
        &[
            (2, (0, 200, 100, 300), (0, 0, 100, 100)),
            (0, (0, 0, 100, 100), (0, 100, 100, 200)),
        ],
        &[],
    ),
    Call::DeallocateDead(1),
    Call::Resize(
        (50, 50),
        &[],
        &[(0, (0, 100, 100, 200)), (2, (0, 0, 100, 100))],
    ),
    Call::DeallocateDead(0),
    Call::Allocate((50, 50), Some((3, (0, 0, 50, 50)))),
];

// Each of these makes a call; false where memory was refused.

fn granted(session: &mut Session<'_>, sides: Sides) -> bool {
    session.allocate(size(sides)) != Err(RecordingError::Memory)
}

fn freed(session: &mut Session<'_>, name: u32) -> bool {
    session.deallocate(AllocId::deserialize(name)) != Err(RecordingError::Memory)
}

fn grew(session: &mut Session<'_>, new_size: Size) -> bool {
    assert!(session.size().width <= new_size.width);
    assert!(session.size().height <= new_size.height);
    session.grow(new_size).is_ok()
}

fn rearranged(session: &mut Session<'_>) -> bool {
    session.rearrange().is_ok()
}

fn resized(session: &mut Session<'_>, new_size: Size) -> bool {
    assert!(!new_size.is_empty());
    session.resize_and_rearrange(new_size).is_ok()
}

fn made(session: &mut Session<'_>, call: &Call) -> bool {
    match call {
        Call::Allocate(sides, _) => granted(session, *sides),
        Call::Deallocate(name) | Call::DeallocateDead(name) => freed(session, *name),
        Call::Grow(sides) => grew(session, size(*sides)),
        Call::Rearrange(_, _) => rearranged(session),
        Call::Resize(sides, _, _) => resized(session, size(*sides)),
    }
}

fn are_changes(found: &[Change], want: &[Moved]) -> bool {
    let are_equal = found.iter().zip(want).all(|(change, moved)| {
        change.old == allocation((moved.0, moved.1)) && change.new == allocation((moved.0, moved.2))
    });
    are_equal && found.len() == want.len()
}

fn are_boxes(found: &[Allocation], want: &[(u32, Corners)]) -> bool {
    let are_equal = found
        .iter()
        .zip(want)
        .all(|(shown, expected)| *shown == allocation(*expected));
    are_equal && found.len() == want.len()
}

fn is_list(
    list: &ChangeList<&Refusing<Global>>,
    changes: &[Moved],
    failures: &[(u32, Corners)],
) -> bool {
    are_changes(list.changes.as_slice(), changes) && are_boxes(list.failures.as_slice(), failures)
}

// Whether an event is that of a call.
fn is_event(event: &Event<&Refusing<Global>>, call: &Call) -> bool {
    match (event, call) {
        (Event::Allocate(request, answer), Call::Allocate(sides, expected)) => {
            *request == size(*sides) && *answer == expected.map(allocation)
        }
        (Event::Deallocate(name), Call::Deallocate(expected)) => name.serialize() == *expected,
        (Event::Grow(new_size), Call::Grow(sides)) => *new_size == size(*sides),
        (Event::Rearrange(list), Call::Rearrange(changes, failures)) => {
            is_list(list, changes, failures)
        }
        (Event::ResizeAndRearrange(new_size, list), Call::Resize(sides, changes, failures)) => {
            *new_size == size(*sides) && is_list(list, changes, failures)
        }
        _ => false,
    }
}

fn begun<'a>(heap: &'a Refusing<Global>, sides: Sides) -> Result<Session<'a>, RecordingError> {
    let whole = size(sides);
    assert!(!whole.is_empty());
    RecordingAllocator::new(heap, whole)
}

// Whether the events are those of the calls that are recorded, and no others.
fn are_events(events: &[Event<&Refusing<Global>>], calls: &[Call]) -> bool {
    let mut rest = events.iter();
    for call in calls {
        if !matches!(call, Call::DeallocateDead(_)) {
            let event = match rest.next() {
                Some(event) => event,
                None => return false,
            };
            if !is_event(event, call) {
                return false;
            }
        }
    }
    rest.next().is_none()
}

// Plays a row.
fn play(heap: &Refusing<Global>, sides: Sides, calls: &[Call]) -> Result<(), Fail> {
    let created = match begun(heap, sides) {
        Err(RecordingError::Memory) => begun(heap, sides),
        first => first,
    };
    let mut session = created?;
    for call in calls {
        if !made(&mut session, call) {
            assert!(heap.is_done());
            assert!(made(&mut session, call), "a second refusal");
        }
    }
    heap.refuse_every();
    let recording = session.finish();
    assert!(are_events(recording.events(), calls), "{sides:?}");
    Ok(())
}

// Plays a row with ample memory, and with each request for memory refused in turn.
fn play_in_turn(heap: &Refusing<Global>, sides: Sides, calls: &[Call]) -> Result<(), Fail> {
    heap.refuse_nth(0);
    play(heap, sides, calls)?;
    let mut refusals = 0u32;
    for number in 1..1000u32 {
        let first = heap.requests();
        heap.refuse_nth(number);
        play(heap, sides, calls)?;
        if heap.requests().wrapping_sub(first) < u64::from(number) {
            break;
        }
        refusals = number;
    }
    assert!(refusals > 2, "too few requests for memory");
    Ok(())
}

#[test]
fn rows() -> Result<(), Fail> {
    let heap = Refusing::new(Global);
    play_in_turn(&heap, (100, 100), &NAMES)?;
    play_in_turn(&heap, (100, 300), &COLUMN)?;
    play_in_turn(&heap, (100, 300), &REARRANGED)?;
    Ok(())
}

type Events<'a> = Recorder<&'a Refusing<Global>>;

fn note_growth(recorder: &mut Events<'_>) -> Result<(), RecordingError> {
    recorder.record(Event::Grow(size((9, 10))))
}

fn note_freeing(recorder: &mut Events<'_>) -> Result<(), RecordingError> {
    recorder.record(Event::Deallocate(AllocId::deserialize(7)))
}

// Whether a recording has these two events alone.
fn has_both(recording: &Recording<&Refusing<Global>>) -> bool {
    match recording.events() {
        [growth, freeing] => {
            is_event(growth, &Call::Grow((9, 10))) && is_event(freeing, &Call::Deallocate(7))
        }
        _ => false,
    }
}

fn empty_recorder(heap: &Refusing<Global>) -> Events<'_> {
    Recorder::new(heap, size2(10, 10), &DEFAULT_OPTIONS)
}

#[test]
fn a_refused_event_is_not_recorded() {
    let heap = Refusing::new(Global);
    heap.refuse_every();
    let mut recorder = empty_recorder(&heap);
    assert_eq!(note_growth(&mut recorder), Err(RecordingError::Memory));
    assert!(recorder.finish().events().is_empty());
}

// What is recorded is taken out without memory, once.
fn finished_without_memory(
    heap: &Refusing<Global>,
) -> Result<Recording<&Refusing<Global>>, RecordingError> {
    let mut recorder = empty_recorder(heap);
    note_growth(&mut recorder)?;
    note_freeing(&mut recorder)?;
    heap.refuse_every();
    let recording = recorder.finish();
    assert!(recorder.finish().events().is_empty());
    Ok(recording)
}

#[test]
fn recorder_takes_no_memory_but_for_events() -> Result<(), Fail> {
    let heap = Refusing::new(Global);
    let recording = finished_without_memory(&heap)?;
    assert!(has_both(&recording));
    assert!(recording.clone().is_err());
    heap.refuse_nth(0);
    assert!(has_both(&recording.clone()?));
    Ok(())
}
