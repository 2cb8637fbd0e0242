//! Atlases that are written and read: the form, later answers, and what is read but not taken.
#![cfg(feature = "serialization")]

#[allow(dead_code)]
mod tree;

use guillotiere::serde::de::Deserialize;
use guillotiere::*;
use tree::Tree::{self, List, Map, Nothing, Number};
use tree::{written, Fault};

fn read(tree: &Tree) -> Result<AtlasAllocator, Fault> {
    AtlasAllocator::deserialize(tree.clone())
}

fn numbers(numbers: &[i64]) -> Tree {
    List(numbers.iter().map(|it| Number(*it)).collect())
}

const NONE: i64 = 4294967295;

fn slot(
    kind: &'static str,
    runs_down: bool,
    generation: i64,
    links: [i64; 3],
    corners: [i64; 4],
) -> Tree {
    List(vec![
        Map(vec![(kind, Nothing)]),
        Number(i64::from(runs_down)),
        Number(generation),
        numbers(&links),
        numbers(&corners),
    ])
}

fn atlas(unused: i64, slots: &[Tree]) -> Tree {
    Map(vec![
        ("size", numbers(&[100, 100])),
        (
            "options",
            Map(vec![
                ("alignment", numbers(&[1, 1])),
                ("small_size_threshold", Number(32)),
                ("large_size_threshold", Number(256)),
            ]),
        ),
        (
            "slots",
            List(vec![Number(16777216), Number(unused), List(slots.to_vec())]),
        ),
    ])
}

// docs/SLOTS.md, "Slots of an atlas": what a grant of 20x60 leaves in an atlas of 100x100.
fn granted() -> [Tree; 5] {
    [
        slot("Container", true, 0, [NONE, NONE, NONE], [0, 0, 100, 100]),
        slot("Free", false, 0, [0, 2, NONE], [20, 0, 100, 100]),
        slot("Container", false, 0, [0, NONE, 1], [0, 0, 20, 100]),
        slot("Alloc", true, 0, [2, NONE, 4], [0, 0, 20, 60]),
        slot("Free", true, 0, [2, 3, NONE], [0, 60, 20, 100]),
    ]
}

#[test]
fn the_form_is_as_described() {
    let mut it = AtlasAllocator::new(size2(100, 100));
    let whole = slot("Free", true, 0, [NONE, NONE, NONE], [0, 0, 100, 100]);
    assert_eq!(written(&it), atlas(NONE, &[whole]));
    let id = it.allocate(size2(20, 60)).unwrap().id;
    assert_eq!(written(&it), atlas(NONE, &granted()));
    it.deallocate(id);
    // The slots 4, 3, 1 and 2 were given back in this order.
    let again = written(&read(&written(&it)).unwrap());
    assert_eq!(again, written(&it));
    let mut other = read(&again).unwrap();
    assert_eq!(
        other.allocate(size2(20, 60)).unwrap().id.serialize(),
        3 + 16777216
    );
}

#[test]
fn ids_live_on() {
    let mut it = AtlasAllocator::new(size2(100, 100));
    let one = it.allocate(size2(20, 60)).unwrap();
    let mut other = read(&written(&it)).unwrap();
    assert_eq!(other[one.id], one.rectangle);
    assert_eq!(other.get(one.id), Some(one.rectangle));
    other.deallocate(one.id);
    assert!(other.is_empty());
    assert_eq!(it[one.id], one.rectangle);
}

fn fault(tree: &Tree) -> String {
    read(tree).map(|_| ()).unwrap_err().0
}

#[test]
fn what_describes_no_atlas_is_refused() {
    let no_atlas = "the slots are not those of an atlas";
    let mut slots = granted();
    slots[4] = slot("Free", true, 0, [2, 3, NONE], [0, 61, 20, 100]);
    assert_eq!(fault(&atlas(NONE, &slots)), no_atlas);
    slots[4] = slot("Unused", true, 0, [2, 3, NONE], [0, 60, 20, 100]);
    assert_eq!(fault(&atlas(4, &slots)), no_atlas);
    assert_eq!(fault(&atlas(NONE, &[])), no_atlas);
    // The unused slot is in no list.
    let mut more = granted().to_vec();
    more.push(slot("Unused", true, 7, [NONE, NONE, NONE], [0, 0, 0, 0]));
    assert_eq!(fault(&atlas(NONE, &more)), no_atlas);
    assert!(read(&atlas(5, &more)).is_ok());
}

fn simple(free: &[[i64; 4]]) -> Tree {
    let free = free.iter().map(|corners| numbers(corners)).collect();
    let (size, options) = match atlas(NONE, &[]) {
        Map(fields) => (fields[0].1.clone(), fields[1].1.clone()),
        _ => unreachable!(),
    };
    Map(vec![
        ("size", size),
        ("options", options),
        ("free", List(free)),
    ])
}

#[test]
fn a_simple_allocator_is_its_free_rectangles() {
    let mut it = SimpleAtlasAllocator::new(size2(100, 100));
    assert_eq!(written(&it), simple(&[[0, 0, 100, 100]]));
    // As in an atlas, the larger part is split off on the right.
    it.allocate(size2(20, 60)).unwrap();
    let read: SimpleAtlasAllocator = Deserialize::deserialize(written(&it)).unwrap();
    let mut both = [it, read];
    for size in [size2(20, 40), size2(20, 40), size2(60, 100), size2(1, 1)] {
        let answers = both.iter_mut().map(|it| it.allocate(size));
        let answers: Vec<_> = answers.collect();
        assert_eq!(answers[0], answers[1]);
    }
}

#[test]
fn free_rectangles_that_overlap_are_refused() {
    let read = |tree: Tree| SimpleAtlasAllocator::deserialize(tree);
    assert!(read(simple(&[[0, 0, 20, 40], [20, 0, 100, 100]])).is_ok());
    assert!(read(simple(&[])).is_ok());
    let no_allocator = "the free rectangles are not those of an allocator";
    for free in [
        &[[0, 0, 20, 40], [19, 39, 100, 100]][..],
        &[[0, 0, 101, 40]][..],
        &[[5, 5, 5, 40]][..],
        &[[-1, 0, 5, 40]][..],
    ] {
        assert_eq!(read(simple(free)).map(|_| ()).unwrap_err().0, no_allocator);
    }
}
