//! serde of recordings, and of allocators by them: the form, and what is read but not taken.
#![cfg(all(feature = "serialization", feature = "recording"))]

mod tree;

use guillotiere::recording::{Event, Recording, RecordingAllocator};
use guillotiere::serde::de::Deserialize;
use guillotiere::*;
use tree::Tree::{self, List, Map, Nothing, Number};
use tree::{written, Fault};

fn numbers(numbers: &[i64]) -> Tree {
    List(numbers.iter().map(|it| Number(*it)).collect())
}

fn list<const N: usize>(items: [Tree; N]) -> Tree {
    List(items.to_vec())
}

fn event(name: &'static str, value: Tree) -> Tree {
    Map(vec![(name, value)])
}

fn named(name: i64, corners: &[i64]) -> Tree {
    list([Number(name), numbers(corners)])
}

fn request(sides: &[i64], granted: Tree) -> Tree {
    event("Allocate", list([numbers(sides), granted]))
}

fn options() -> Tree {
    Map(vec![
        ("alignment", numbers(&[1, 1])),
        ("small_size_threshold", Number(32)),
        ("large_size_threshold", Number(256)),
    ])
}

fn recording(size: &[i64], options: Tree, events: &[Tree]) -> Tree {
    Map(vec![
        ("size", numbers(size)),
        ("options", options),
        ("events", List(events.to_vec())),
    ])
}

// An atlas of 10 by 10 with these events.
fn of_ten(events: &[Tree]) -> Tree {
    recording(&[10, 10], options(), events)
}

fn read<T: for<'de> Deserialize<'de>>(tree: &Tree) -> Result<T, Fault> {
    T::deserialize(tree.clone())
}

// Why it isn't read as an allocator.
fn fault(tree: &Tree) -> String {
    read::<RecordingAllocator>(tree).unwrap_err().0
}

// Two boxes one below the other, no room, the atlas grown, the first one freed, the other one placed anew twice.
fn session() -> RecordingAllocator {
    let mut atlas = RecordingAllocator::new(size2(10, 20));
    let first = atlas.allocate(size2(10, 8)).unwrap();
    atlas.allocate(size2(10, 12)).unwrap();
    assert_eq!(atlas.allocate(size2(1, 1)), None);
    atlas.grow(size2(10, 25));
    atlas.deallocate(first.id);
    let _ = atlas.rearrange();
    let _ = atlas.resize_and_rearrange(size2(9, 9));
    atlas
}

fn form_of_session() -> Tree {
    let (second, top) = (named(1, &[0, 8, 10, 20]), named(1, &[0, 0, 10, 12]));
    let moved = list([list([list([second.clone(), top.clone()])]), list([])]);
    let gone = list([list([]), list([top])]);
    let events = [
        request(&[10, 8], named(0, &[0, 0, 10, 8])),
        request(&[10, 12], second),
        request(&[1, 1], Nothing),
        event("Grow", numbers(&[10, 25])),
        event("Deallocate", Number(0)),
        event("Rearrange", moved),
        event("ResizeAndRearrange", list([numbers(&[9, 9]), gone])),
    ];
    recording(&[10, 20], options(), &events)
}

#[test]
fn an_allocator_is_written_as_its_recording() {
    assert_eq!(written(&session()), form_of_session());
    assert_eq!(written(&session().recording()), form_of_session());
}

#[test]
fn an_allocator_that_is_read_goes_on() {
    let mut atlas: RecordingAllocator = read(&form_of_session()).unwrap();
    assert_eq!(atlas.recording(), session().recording());
    assert_eq!(atlas.allocations(), []);
    assert_eq!(atlas.size(), size2(9, 9));
    let next = atlas.allocate(size2(9, 9)).unwrap();
    assert_eq!(next.id, AllocId::deserialize(2));
    assert_eq!(
        written(&read::<Recording>(&form_of_session()).unwrap()),
        form_of_session()
    );
}

// As formats without names write it: structs as lists, and variants as numbers.
fn without_names(tree: &Tree) -> Tree {
    const EVENTS: [&str; 5] = [
        "Allocate",
        "Deallocate",
        "Grow",
        "Rearrange",
        "ResizeAndRearrange",
    ];
    match tree {
        List(items) => List(items.iter().map(without_names).collect()),
        Map(fields) => match EVENTS.iter().position(|it| *it == fields[0].0) {
            Some(number) => list([Number(number as i64), without_names(&fields[0].1)]),
            None => List(fields.iter().map(|it| without_names(&it.1)).collect()),
        },
        other => other.clone(),
    }
}

#[test]
fn formats_without_names() {
    let tree = without_names(&form_of_session());
    let atlas: RecordingAllocator = read(&tree).unwrap();
    assert_eq!(atlas.recording(), session().recording());
    assert!(read::<Recording>(&list([numbers(&[10, 10])])).is_err());
    assert!(read::<Event>(&list([Number(5), Number(0)])).is_err());
}

#[test]
fn answers_are_compared_before_an_allocator_is_taken() {
    let first = request(&[4, 4], named(0, &[0, 0, 4, 4]));
    assert!(read::<RecordingAllocator>(&of_ten(std::slice::from_ref(&first))).is_ok());
    let idle = list([list([]), list([])]);
    let rows = [
        (request(&[4, 4], named(1, &[4, 0, 8, 5])), "event 1 differs"),
        (request(&[4, 4], named(1, &[0, 0, 4, 4])), "event 1 differs"),
        (request(&[4, 4], Nothing), "event 1 differs"),
        (
            request(&[11, 4], named(1, &[0, 0, 11, 4])),
            "event 1 differs",
        ),
        (request(&[4, 4], named(0, &[4, 0, 8, 4])), "event 1 is bad"),
        (event("Deallocate", Number(1)), "event 1 is bad"),
        (event("Grow", numbers(&[10, 9])), "event 1 is bad"),
        (event("Rearrange", idle.clone()), "event 1 differs"),
        (
            event(
                "ResizeAndRearrange",
                list([numbers(&[10, 0]), idle.clone()]),
            ),
            "event 1 is bad",
        ),
        (
            event("ResizeAndRearrange", list([numbers(&[10, 10]), idle])),
            "event 1 differs",
        ),
    ];
    for (second, text) in rows {
        let tree = of_ten(&[first.clone(), second]);
        assert_eq!(fault(&tree), text);
        // As data alone it is read.
        assert_eq!(written(&read::<Recording>(&tree).unwrap()), tree);
    }
}

#[test]
fn starts_are_tested() {
    let tree = recording(&[0, 10], options(), &[]);
    assert_eq!(fault(&tree), "a side of the size is below 1");
    let with = |alignment: &[i64], small| {
        let options = Map(vec![
            ("alignment", numbers(alignment)),
            ("small_size_threshold", Number(small)),
            ("large_size_threshold", Number(256)),
        ]);
        fault(&recording(&[10, 10], options, &[]))
    };
    assert_eq!(with(&[1, 0], 32), "a side of the alignment is below 1");
    assert_eq!(
        with(&[1, 1], 257),
        "the small threshold is above the large one"
    );
}

#[test]
fn forms_that_are_no_recording() {
    let size = ("size", numbers(&[10, 10]));
    let options = ("options", options());
    let events = ("events", list([]));
    let other = ("other", list([Nothing]));
    let of = |fields: &[&(&'static str, Tree)]| fields.iter().map(|it| (*it).clone()).collect();
    assert!(read::<RecordingAllocator>(&Map(of(&[&events, &other, &size, &options]))).is_ok());
    let rows = [
        (of(&[&options, &events]), "missing field `size`"),
        (of(&[&size, &events]), "missing field `options`"),
        (of(&[&size, &options]), "missing field `events`"),
        (
            of(&[&size, &options, &size, &events]),
            "duplicate field `size`",
        ),
    ];
    for (fields, text) in rows {
        assert_eq!(fault(&Map(fields)), text);
    }
    for tree in [Nothing, Number(3), list([]), numbers(&[10, 10])] {
        assert!(read::<RecordingAllocator>(&tree).is_err());
    }
    for size in [&[10][..], &[10, 10, 10], &[10, 1 << 31]] {
        assert!(read::<RecordingAllocator>(&recording(size, options.1.clone(), &[])).is_err());
    }
}

#[test]
fn forms_that_are_no_event() {
    let none = "there is no event of this kind";
    assert_eq!(fault(&of_ten(&[event("Clear", Nothing)])), none);
    let idle = list([list([]), list([])]);
    let trees = [
        Nothing,
        Number(0),
        numbers(&[10, 10]),
        Map(vec![]),
        event("Allocate", numbers(&[4, 4])),
        request(&[4, 4], Number(0)),
        request(&[4, 4], named(-1, &[0, 0, 4, 4])),
        request(&[4, 4], named(1 << 32, &[0, 0, 4, 4])),
        request(&[4, 4], named(0, &[0, 0, 4])),
        request(&[4, 4], named(0, &[0, 0, 4, 4, 4])),
        event("Deallocate", Nothing),
        event("Deallocate", Number(-1)),
        event("Grow", Number(10)),
        event("Rearrange", list([list([])])),
        event(
            "Rearrange",
            list([list([named(0, &[0, 0, 4, 4])]), list([])]),
        ),
        event("ResizeAndRearrange", idle),
    ];
    for tree in trees {
        assert!(read::<Event>(&tree).is_err(), "{:?}", tree);
        assert!(read::<RecordingAllocator>(&of_ten(&[tree])).is_err());
    }
}
