//! Recording allocators and their recordings: names, events, and what isn't resumed.
#![cfg(feature = "recording")]
use guillotiere::recording::{Event, Recording, RecordingAllocator, ResumeError};
use guillotiere::*;

fn area(left: i32, top: i32, right: i32, bottom: i32) -> Rectangle {
    Rectangle {
        min: point2(left, top),
        max: point2(right, bottom),
    }
}

fn named(name: u32, rectangle: Rectangle) -> Allocation {
    Allocation {
        id: AllocId::deserialize(name),
        rectangle,
    }
}

fn moved(name: u32, from: Rectangle, to: Rectangle) -> Change {
    Change {
        old: named(name, from),
        new: named(name, to),
    }
}

// Three boxes one below another that fill an atlas of 100 by 300; then no room for a fourth, the middle one freed, the
// atlas grown, and the others placed anew, once more in an atlas that has room for one.
fn column() -> RecordingAllocator {
    let mut atlas = RecordingAllocator::new(size2(100, 300));
    for height in [90, 110, 100] {
        atlas.allocate(size2(100, height)).unwrap();
    }
    assert_eq!(atlas.allocate(size2(1, 1)), None);
    atlas.deallocate(AllocId::deserialize(1));
    atlas.grow(size2(100, 400));
    let _ = atlas.rearrange();
    let _ = atlas.resize_and_rearrange(size2(100, 100));
    atlas
}

// The higher one is placed first, at the top.
fn events_of_column() -> Vec<Event> {
    let (first, third) = (area(0, 0, 100, 90), area(0, 200, 100, 300));
    let (top, below) = (area(0, 0, 100, 100), area(0, 100, 100, 190));
    let grant =
        |height, name, rectangle| Event::Allocate(size2(100, height), Some(named(name, rectangle)));
    let swapped = ChangeList {
        changes: vec![moved(2, third, top), moved(0, first, below)],
        failures: vec![],
    };
    let cut = ChangeList {
        changes: vec![moved(2, top, top)],
        failures: vec![named(0, below)],
    };
    vec![
        grant(90, 0, first),
        grant(110, 1, area(0, 90, 100, 200)),
        grant(100, 2, third),
        Event::Allocate(size2(1, 1), None),
        Event::Deallocate(AllocId::deserialize(1)),
        Event::Grow(size2(100, 400)),
        Event::Rearrange(swapped),
        Event::ResizeAndRearrange(size2(100, 100), cut),
    ]
}

#[test]
fn each_call_is_an_event() {
    let recording = column().recording();
    assert_eq!(
        (recording.size, recording.options),
        (size2(100, 300), DEFAULT_OPTIONS)
    );
    assert_eq!(recording.events, events_of_column());
}

#[test]
fn a_recording_goes_on() {
    let atlas = column();
    let recording = atlas.recording();
    let mut resumed = recording.resume().unwrap();
    assert_eq!(resumed.recording(), recording);
    assert_eq!(resumed.allocations(), atlas.allocations());
    assert_eq!(resumed.allocations().len(), 1);
    assert_eq!(
        (resumed.size(), resumed.slots()),
        (size2(100, 100), atlas.slots())
    );
    resumed.deallocate(resumed.allocations()[0].id);
    let next = resumed.allocate(size2(100, 100)).unwrap();
    assert_eq!(next, named(3, area(0, 0, 100, 100)));
    assert_eq!(resumed.recording().events.len(), recording.events.len() + 2);
}

#[test]
fn errors_are_not_recorded() {
    let mut atlas = RecordingAllocator::new(size2(9, 7));
    let shrinks = atlas.try_grow(size2(9, 6));
    assert_eq!(shrinks, Err(AtlasError::Shrinks));
    let not_live = atlas.try_deallocate(AllocId::deserialize(0));
    assert_eq!(not_live, Err(AtlasError::NotLive));
    let empty = atlas.try_resize_and_rearrange(size2(0, 7));
    assert_eq!(empty, Err(AtlasError::EmptySize));
    assert_eq!(atlas.try_reserve(MOST_SLOTS), Err(AtlasError::Slots));
    assert_eq!(atlas.recording().events, []);
    assert_eq!(atlas.size(), size2(9, 7));
    let start = RecordingAllocator::try_new(size2(0, 7)).err();
    assert_eq!(start, Some(AtlasError::EmptySize));
}

#[test]
fn what_only_looks_is_not_recorded() {
    let options = AllocatorOptions {
        alignment: size2(4, 2),
        ..DEFAULT_OPTIONS
    };
    let mut atlas = RecordingAllocator::with_options(size2(16, 8), &options);
    assert_eq!(atlas.options(), options);
    let one = atlas.allocate(size2(5, 3)).unwrap();
    assert_eq!(one.rectangle.size(), size2(8, 4));
    atlas.try_reserve(20).unwrap();
    assert!(atlas.can_fit(size2(8, 8)) || atlas.can_fit(size2(16, 4)));
    assert!(!atlas.can_fit(size2(17, 1)));
    assert!(atlas.can_grow_to(size2(16, 9)) && !atlas.can_grow_to(size2(15, 9)));
    let (mut live, mut free) = (Vec::new(), 0);
    atlas.for_each_allocated_rectangle(|name, area| live.push((name, *area)));
    atlas.for_each_free_rectangle(|area| free += area.area());
    assert_eq!(live, [(AllocId::deserialize(0), one.rectangle)]);
    assert_eq!(free, 16 * 8 - 8 * 4);
    assert_eq!(atlas.recording().events.len(), 1);
}

// A recording of an atlas of 10 by 10 with these events.
fn recorded(events: &[Event]) -> Recording {
    Recording {
        size: size2(10, 10),
        options: DEFAULT_OPTIONS,
        events: events.to_vec(),
    }
}

fn grant(name: u32, rectangle: Rectangle) -> Event {
    Event::Allocate(size2(4, 4), Some(named(name, rectangle)))
}

#[test]
fn events_that_no_allocator_has() {
    let at = area(0, 0, 4, 4);
    let freed = Event::Deallocate(AllocId::deserialize(0));
    let rows = [
        (vec![grant(7, at)], ResumeError::BadEvent(0)),
        (vec![freed.clone()], ResumeError::BadEvent(0)),
        (vec![Event::Grow(size2(9, 10))], ResumeError::BadEvent(0)),
        (
            vec![Event::ResizeAndRearrange(size2(0, 5), ChangeList::empty())],
            ResumeError::BadEvent(0),
        ),
        (
            vec![grant(0, at), freed.clone(), grant(0, at)],
            ResumeError::BadEvent(2),
        ),
        (vec![grant(0, area(0, 0, 4, 5))], ResumeError::Differs(0)),
        (vec![grant(0, at), grant(1, at)], ResumeError::Differs(1)),
        (
            vec![Event::Allocate(size2(4, 4), None)],
            ResumeError::Differs(0),
        ),
        (
            vec![
                grant(0, at),
                freed,
                Event::Rearrange(ChangeList {
                    changes: vec![moved(0, at, at)],
                    failures: vec![],
                }),
            ],
            ResumeError::Differs(2),
        ),
    ];
    for (events, error) in rows {
        assert_eq!(recorded(&events).resume().err(), Some(error));
    }
    assert!(recorded(&[grant(0, at)]).resume().is_ok());
}

#[test]
fn starts_that_no_allocator_has() {
    let mut recording = recorded(&[]);
    recording.options.small_size_threshold = 257;
    let error = ResumeError::Start(AtlasError::Thresholds);
    assert_eq!(recording.resume().err(), Some(error));
    recording.options.alignment.height = 0;
    let error = ResumeError::Start(AtlasError::Alignment);
    assert_eq!(recording.resume().err(), Some(error));
    recording.size.width = 0;
    let error = ResumeError::Start(AtlasError::EmptySize);
    assert_eq!(recording.resume().err(), Some(error));
    assert_eq!(error.to_string(), "a side of the size is below 1");
}

#[test]
fn errors_name_the_event() {
    assert_eq!(ResumeError::Differs(3).to_string(), "event 3 differs");
    assert_eq!(ResumeError::BadEvent(0).to_string(), "event 0 is bad");
    assert_eq!(ResumeError::Slots.to_string(), "no slot is left");
    assert_eq!(ResumeError::Memory.to_string(), "memory was refused");
    assert_eq!(AtlasError::Names.to_string(), "no name is left");
}

// A copy has the names and the recording, gives the next name by itself, and frees its own.
#[test]
fn a_copy_goes_on_by_itself() {
    let mut atlas = RecordingAllocator::new(size2(100, 300));
    let first = atlas.allocate(size2(100, 100)).unwrap();
    let copy = atlas.clone();
    assert_eq!(copy.recording(), atlas.recording());
    atlas.deallocate(first.id);
    assert_eq!(copy.allocations(), [first]);
    let mut copies = [copy.try_clone().unwrap(), copy];
    for each in &mut copies {
        let second = each.allocate(size2(100, 200)).unwrap();
        assert_eq!(second, named(1, area(0, 100, 100, 300)));
        assert_eq!(each.allocations(), [first, second]);
        assert_eq!(each.recording().events.len(), 2);
    }
    assert_eq!(atlas.recording().events.len(), 2);
    assert!(atlas.allocations().is_empty());
}
