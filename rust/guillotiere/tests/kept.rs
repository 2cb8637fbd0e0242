//! Allocators that are written and read: after random sessions, and from what was spoilt.
#![cfg(all(feature = "serialization", feature = "recording"))]

#[allow(dead_code)]
mod tree;

use guillotiere::recording::{Recording, RecordingAllocator};
use guillotiere::serde::de::Deserialize;
use guillotiere::*;
use tree::{written, Tree};

struct Random(u64);

impl Random {
    fn below(&mut self, bound: usize) -> usize {
        self.0 = self
            .0
            .wrapping_mul(6_364_136_223_846_793_005)
            .wrapping_add(1_442_695_040_888_963_407);
        (self.0 >> 33) as usize % bound
    }

    fn size(&mut self, most: usize) -> Size {
        size2(1 + self.below(most) as i32, 1 + self.below(most) as i32)
    }
}

/// A call, which is drawn, and its answer in words.
fn step(atlas: &mut RecordingAllocator, random: &mut Random) -> String {
    let live = atlas.allocations();
    match random.below(20) {
        0..=10 => format!("{:?}", atlas.allocate(random.size(20))),
        11..=16 if !live.is_empty() => {
            atlas.deallocate(live[random.below(live.len())].id);
            "freed".into()
        }
        17 => {
            let size = atlas.size();
            atlas.grow(size2(size.width + random.below(9) as i32, size.height));
            "grown".into()
        }
        18 => format!("{:?}", atlas.rearrange()),
        19 => format!("{:?}", atlas.resize_and_rearrange(random.size(60))),
        _ => "none".into(),
    }
}

fn played(calls: usize, random: &mut Random) -> RecordingAllocator {
    let mut options = DEFAULT_OPTIONS;
    options.alignment = size2(1 + random.below(3) as i32, 1 + random.below(3) as i32);
    let mut atlas = RecordingAllocator::with_options(random.size(60), &options);
    for _ in 0..calls {
        step(&mut atlas, random);
    }
    atlas
}

fn are_apart(a: &Rectangle, b: &Rectangle) -> bool {
    a.max.x <= b.min.x || b.max.x <= a.min.x || a.max.y <= b.min.y || b.max.y <= a.min.y
}

/// Live and free rectangles tile the atlas, and once nothing is live one free rectangle is left.
fn check(mut atlas: RecordingAllocator) {
    let live = atlas.allocations();
    let mut all: Vec<Rectangle> = live.iter().map(|it| it.rectangle).collect();
    atlas.for_each_free_rectangle(|free| all.push(*free));
    let whole = Rectangle {
        min: point2(0, 0),
        max: point2(atlas.size().width, atlas.size().height),
    };
    let area = |it: &Rectangle| i64::from(it.size().width) * i64::from(it.size().height);
    assert_eq!(all.iter().map(area).sum::<i64>(), area(&whole));
    for (number, one) in all.iter().enumerate() {
        assert!(all[..number].iter().all(|other| are_apart(one, other)));
    }
    live.iter().for_each(|it| atlas.deallocate(it.id));
    let mut free = Vec::new();
    atlas.for_each_free_rectangle(|it| free.push(*it));
    assert_eq!(free, [whole]);
}

#[test]
fn answers_are_those_of_an_allocator_that_was_not_written() {
    let mut random = Random(8);
    for number in 0..2000 {
        let mut atlas = played(number % 40, &mut random);
        let mut read = RecordingAllocator::deserialize(written(&atlas)).unwrap();
        let mut same = Random(random.0);
        for _ in 0..20 {
            let told = step(&mut atlas, &mut random);
            assert_eq!(step(&mut read, &mut same), told);
        }
        assert_eq!(read.recording(), atlas.recording());
        assert_eq!(read.allocations(), atlas.allocations());
        check(read);
    }
}

fn count(tree: &Tree) -> usize {
    1 + match tree {
        Tree::List(items) => items.iter().map(count).sum(),
        Tree::Map(fields) => fields.iter().map(|(_, value)| count(value)).sum(),
        _ => 0,
    }
}

/// The part with this number, counted from the whole on.
fn part(tree: &mut Tree, number: usize) -> &mut Tree {
    if number == 0 {
        return tree;
    }
    let mut left = number - 1;
    let below: Vec<&mut Tree> = match tree {
        Tree::List(items) => items.iter_mut().collect(),
        Tree::Map(fields) => fields.iter_mut().map(|(_, value)| value).collect(),
        _ => Vec::new(),
    };
    for each in below {
        let size = count(each);
        if left < size {
            return part(each, left);
        }
        left -= size;
    }
    panic!("there is no part {}", number)
}

fn spoil(tree: &mut Tree, random: &mut Random) {
    let number = random.below(count(tree));
    let spoilt = part(tree, number);
    match (random.below(4), &mut *spoilt) {
        (0, Tree::Number(number)) => *number += 1,
        (1, Tree::Number(number)) => *number -= 1,
        (2, Tree::Number(number)) => *number = random.below(70) as i64,
        (0, Tree::List(items)) if !items.is_empty() => {
            drop(items.remove(random.below(items.len())))
        }
        (1, Tree::List(items)) if !items.is_empty() => {
            let at = random.below(items.len());
            items.insert(at, items[at].clone());
        }
        (2, Tree::List(items)) if !items.is_empty() => {
            let last = items.len() - 1;
            items.swap(random.below(last + 1), last);
        }
        (0, Tree::Map(fields)) => drop(fields.pop()),
        (1, Tree::Map(fields)) => {
            let at = random.below(fields.len());
            fields[at].0 = ["size", "events", "Grow", "Deallocate"][random.below(4)];
        }
        _ => {
            *spoilt = [
                Tree::Nothing,
                Tree::Number(i64::MAX),
                Tree::List(Vec::new()),
            ][random.below(3)]
            .clone()
        }
    }
}

#[test]
fn nothing_is_taken_that_no_session_leads_to() {
    let (mut random, mut refused, mut taken) = (Random(9), 0, 0);
    for number in 0..10_000 {
        let mut tree = written(&played(1 + number % 12, &mut random));
        spoil(&mut tree, &mut random);
        match RecordingAllocator::deserialize(tree.clone()) {
            Ok(atlas) => {
                assert_eq!(Recording::deserialize(tree), Ok(atlas.recording()));
                check(atlas);
                taken += 1;
            }
            Err(fault) => {
                assert!(!fault.0.is_empty());
                refused += 1;
            }
        }
    }
    assert!(refused > 5000 && taken > 100, "{} and {}", refused, taken);
}
