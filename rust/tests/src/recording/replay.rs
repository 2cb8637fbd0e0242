//! Replays: rows of recordings that are whole, cut or made up, and a long session.

use crate::random::{below, side};
use guillotiere_tests::tables::{rectangle, Corners};
use test_memory::Refusing;
use wollemigo_core::guillotiere::{size2, AllocId, Allocation, ChangeList, Size, DEFAULT_OPTIONS};
use wollemigo_core::guillotiere_recording::{
    Event, Recorder, Recording, RecordingAllocator, RecordingError, ReplayFault,
};
use wollemigo_support::alloc::{Allocator, Global};
use wollemigo_support::test::Fail;

pub fn allocation((name, corners): (u32, Corners)) -> Allocation {
    Allocation {
        id: AllocId::deserialize(name),
        rectangle: rectangle(corners),
    }
}

// A session of an atlas; each side is at least 1 pixel.
fn begun<A: Allocator + Copy>(
    alloc: A,
    (width, height): (u16, u16),
) -> Result<RecordingAllocator<A>, RecordingError> {
    let whole = size2(i32::from(width).max(1), i32::from(height).max(1));
    RecordingAllocator::new(alloc, whole)
}

pub fn request<A: Allocator + Copy>(
    session: &mut RecordingAllocator<A>,
    (width, height): (i32, i32),
) -> Result<Option<Allocation>, RecordingError> {
    session.allocate(size2(width, height))
}

fn free<A: Allocator + Copy>(
    session: &mut RecordingAllocator<A>,
    name: u32,
) -> Result<(), RecordingError> {
    session.deallocate(AllocId::deserialize(name))
}

// Three boxes one below another that fill an atlas.
fn filled<A: Allocator + Copy>(alloc: A) -> Result<RecordingAllocator<A>, RecordingError> {
    let mut session = begun(alloc, (100, 300))?;
    for _ in 0..3u32 {
        request(&mut session, (100, 100))?;
    }
    Ok(session)
}

// The same; then no room for a fourth, the middle one freed, and the others placed anew.
pub fn column<A: Allocator + Copy>(alloc: A) -> Result<Recording<A>, RecordingError> {
    let mut session = filled(alloc)?;
    request(&mut session, (1, 1))?;
    free(&mut session, 1)?;
    session.rearrange()?;
    Ok(session.finish())
}

// Whether a replay answers these counts of grants, freeings and failed requests, and these live boxes.
fn ends<A: Allocator + Copy>(
    recording: &Recording<A>,
    counts: (u64, u64, u64),
    live: &[(u32, Corners)],
) -> Result<bool, ReplayFault> {
    let stats = recording.replay()?;
    let same = stats
        .live
        .iter()
        .zip(live)
        .all(|(shown, expected)| *shown == allocation(*expected));
    let counted = (
        stats.allocations,
        stats.deallocations,
        stats.failed_allocations,
    ) == counts;
    Ok(counted && same && stats.live.len() == live.len())
}

// Removes an event that is there.
pub fn remove<A: Allocator + Copy>(recording: &mut Recording<A>, at: usize) {
    assert!(at < recording.events().len());
    recording.remove_event(at);
}

pub fn are_equal<A: Allocator + Copy>(one: &Recording<A>, other: &Recording<A>) -> bool {
    one.events() == other.events()
}

pub const MOVED: &[(u32, Corners)] = &[(0, (0, 100, 100, 200)), (2, (0, 0, 100, 100))];

// The whole atlas is granted and freed; and, where it is asked for, granted again.
fn granted(again: bool) -> Result<Recording<Global>, RecordingError> {
    let mut session = begun(Global, (100, 100))?;
    request(&mut session, (100, 100))?;
    free(&mut session, 0)?;
    if again {
        request(&mut session, (100, 100))?;
    }
    Ok(session.finish())
}

#[test]
fn a_second_grant_has_a_name_of_its_own() -> Result<(), Fail> {
    let mut recording = granted(true)?;
    let live = [(1, (0, 0, 100, 100))];
    assert_eq!(ends(&recording, (2, 1, 0), &live), Ok(true));
    remove(&mut recording, 1);
    assert_eq!(
        ends(&recording, (2, 0, 0), &[]),
        Err(ReplayFault::Differs(1))
    );
    Ok(())
}

#[test]
fn a_request_without_room_is_replayed() -> Result<(), Fail> {
    let mut session = begun(Global, (10, 10))?;
    assert_eq!(request(&mut session, (11, 1)), Ok(None));
    let mut recording = session.finish();
    assert_eq!(ends(&recording, (0, 0, 1), &[]), Ok(true));
    remove(&mut recording, 0);
    assert_eq!(ends(&recording, (0, 0, 0), &[]), Ok(true));
    Ok(())
}

// What a recording answers without one of its events.
fn fault_without(mut recording: Recording<Global>, at: usize) -> Option<ReplayFault> {
    remove(&mut recording, at);
    recording.replay().err()
}

#[test]
fn cut_recordings() -> Result<(), Fail> {
    let recording = filled(Global)?.finish();
    assert_eq!(fault_without(recording, 0), Some(ReplayFault::Differs(0)));
    let recording = granted(false)?;
    assert_eq!(fault_without(recording, 0), Some(ReplayFault::BadEvent(0)));
    Ok(())
}

// Without the third grant the last request has room; without the freeing another list is the answer.
#[test]
fn cut_columns() -> Result<(), Fail> {
    let recording = column(Global)?;
    assert_eq!(fault_without(recording, 2), Some(ReplayFault::Differs(2)));
    let recording = column(Global)?;
    assert_eq!(fault_without(recording, 4), Some(ReplayFault::Differs(4)));
    Ok(())
}

// What two made up events, or the first alone, are answered; finished again, their recorder has none.
fn fault_of(
    first: Event<Global>,
    second: Option<Event<Global>>,
) -> Result<Option<ReplayFault>, RecordingError> {
    let mut recorder = Recorder::new(Global, size2(10, 10), &DEFAULT_OPTIONS);
    recorder.record(first)?;
    if let Some(event) = second {
        recorder.record(event)?;
    }
    let fault = recorder.finish().replay().err();
    assert!(recorder.finish().events().is_empty());
    Ok(fault)
}

pub fn box_of_seven(corners: Corners) -> Event<Global> {
    Event::Allocate(size2(4, 4), Some(allocation((7, corners))))
}

#[test]
fn made_up_events_that_no_call_has() -> Result<(), Fail> {
    let resize = Event::ResizeAndRearrange(size2(0, 5), ChangeList::empty(Global));
    let first = Some(ReplayFault::BadEvent(0));
    assert_eq!(fault_of(Event::Grow(size2(9, 10)), None)?, first);
    assert_eq!(fault_of(resize, None)?, first);
    let twice = Some(box_of_seven((0, 0, 4, 4)));
    let fault = fault_of(box_of_seven((0, 0, 4, 4)), twice)?;
    assert_eq!(fault, Some(ReplayFault::BadEvent(1)));
    Ok(())
}

#[test]
fn made_up_answers() -> Result<(), Fail> {
    let first = Some(ReplayFault::Differs(0));
    assert_eq!(fault_of(box_of_seven((0, 0, 4, 5)), None)?, first);
    assert_eq!(fault_of(Event::Allocate(size2(4, 4), None), None)?, first);
    assert_eq!(fault_of(box_of_seven((1, 0, 5, 4)), None)?, first);
    Ok(())
}

#[test]
fn a_made_up_name_is_that_of_its_box() -> Result<(), Fail> {
    let mut made = Recorder::new(Global, size2(10, 10), &DEFAULT_OPTIONS);
    made.record(box_of_seven((0, 0, 4, 4)))?;
    let recording = made.finish();
    assert_eq!(ends(&recording, (1, 0, 0), &[(7, (0, 0, 4, 4))]), Ok(true));
    Ok(())
}

#[test]
fn refused_replays() -> Result<(), Fail> {
    let heap = Refusing::new(Global);
    let recording = column(&heap)?;
    let copy = recording.clone()?;
    let mut refusals = 0u32;
    for number in 1..1000u32 {
        heap.refuse_nth(number);
        let answer = ends(&recording, (3, 1, 1), MOVED);
        assert!(are_equal(&recording, &copy));
        if !heap.is_done() {
            assert_eq!(answer, Ok(true));
            break;
        }
        assert_eq!(answer, Err(ReplayFault::Memory));
        refusals = number;
    }
    assert!(refusals > 5, "too few requests for memory");
    Ok(())
}

#[test]
fn an_event_is_removed_without_memory() -> Result<(), Fail> {
    let heap = Refusing::new(Global);
    let mut recording = column(&heap)?;
    heap.refuse_every();
    remove(&mut recording, 5);
    assert_eq!(recording.events().len(), 5);
    Ok(())
}

// Makes the atlas larger by up to 7 pixels a side.
fn grow(session: &mut RecordingAllocator<Global>, state: &mut u64) -> Result<(), RecordingError> {
    let before = session.size();
    let larger = Size {
        width: before.width.saturating_add(side(state, 8)),
        height: before.height.saturating_add(side(state, 8)),
    };
    assert!(session.size().width <= larger.width);
    assert!(session.size().height <= larger.height);
    session.grow(larger)
}

// Asks for a box of up to 59 pixels a side.
fn ask(
    session: &mut RecordingAllocator<Global>,
    live: &mut Vec<AllocId>,
    state: &mut u64,
) -> Result<(), RecordingError> {
    let sides = (side(state, 60), side(state, 60));
    if let Some(granted) = request(session, sides)? {
        live.push(granted.id);
    }
    Ok(())
}

// Frees one of the live boxes, if there is one.
fn give_back(
    session: &mut RecordingAllocator<Global>,
    live: &mut Vec<AllocId>,
    state: &mut u64,
) -> Result<(), RecordingError> {
    let count = u16::try_from(live.len()).unwrap_or(u16::MAX);
    let at = usize::from(below(state, count));
    if at < live.len() {
        session.deallocate(live.swap_remove(at))?;
    }
    Ok(())
}

// A random session of 20000 calls: requests, freeings and a few growths.
fn long_session() -> Result<RecordingAllocator<Global>, Fail> {
    let mut session = begun(Global, (512, 512))?;
    let mut live = Vec::new();
    let mut state = 7u64;
    for _ in 0..20000u32 {
        match below(&mut state, 200) {
            0 => grow(&mut session, &mut state)?,
            1..=110 => ask(&mut session, &mut live, &mut state)?,
            _ => give_back(&mut session, &mut live, &mut state)?,
        }
    }
    Ok(session)
}

#[test]
fn long_recording() -> Result<(), Fail> {
    let session = long_session()?;
    let live = session.allocations()?;
    let recording = session.finish();
    let stats = recording.replay()?;
    assert!(live.len() > 10, "too few live boxes");
    assert_eq!(stats.live.as_slice(), live.as_slice());
    let copy = stats.clone()?;
    assert_eq!(copy, stats);
    Ok(())
}

// The same event with names counted down from the greatest.
fn turned(event: &Event<Global>) -> Result<Event<Global>, RecordingError> {
    Ok(match event {
        Event::Allocate(size, Some(granted)) => {
            let name = AllocId::deserialize(u32::MAX - granted.id.serialize());
            Event::Allocate(
                *size,
                Some(Allocation {
                    id: name,
                    rectangle: granted.rectangle,
                }),
            )
        }
        Event::Deallocate(name) => {
            Event::Deallocate(AllocId::deserialize(u32::MAX - name.serialize()))
        }
        other => other.clone()?,
    })
}

// The same recording, its names counted down from the greatest.
fn turned_recording(recording: &Recording<Global>) -> Result<Recording<Global>, RecordingError> {
    let mut recorder = Recorder::new(Global, size2(512, 512), &DEFAULT_OPTIONS);
    for event in recording.events() {
        recorder.record(turned(event)?)?;
    }
    Ok(recorder.finish())
}

fn are_turned(shown: &[Allocation], live: &[Allocation]) -> bool {
    let same = shown.iter().zip(live.iter().rev()).all(|(one, other)| {
        one.rectangle == other.rectangle && one.id.serialize() == u32::MAX - other.id.serialize()
    });
    same && shown.len() == live.len()
}

#[test]
fn falling_names() -> Result<(), Fail> {
    let session = long_session()?;
    let live = session.allocations()?;
    let recording = turned_recording(&session.finish())?;
    let stats = recording.replay()?;
    assert!(are_turned(stats.live.as_slice(), live.as_slice()));
    Ok(())
}
