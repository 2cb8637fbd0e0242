//! Allocators that were written and read answer as those that weren't, and what is spoilt is refused or an allocator.
#![cfg(feature = "serialization")]

#[allow(dead_code)]
mod tree;

use guillotiere::serde::de::Deserialize;
use guillotiere::*;
use tree::Tree::{self, List, Map, Nothing, Number};
use tree::{written, Fault};

const SESSIONS: u32 = 100_000;
const SPOILT: u32 = 10_000;
const LARGEST: i64 = 2147483647;

struct Random(u64);

impl Random {
    fn below(&mut self, end: u64) -> u64 {
        self.0 ^= self.0 << 13;
        self.0 ^= self.0 >> 7;
        self.0 ^= self.0 << 17;
        (self.0 >> 16) % end
    }

    fn side(&mut self, most: u64) -> i32 {
        1 + self.below(most) as i32
    }

    fn options(&mut self) -> AllocatorOptions {
        let small = self.below(40) as i32;
        AllocatorOptions {
            alignment: size2(self.side(3), self.side(3)),
            small_size_threshold: small,
            large_size_threshold: small + self.below(80) as i32,
        }
    }
}

fn grown(size: Size, random: &mut Random) -> Size {
    let (more, higher) = (random.below(9) as i32, random.below(9) as i32);
    size2(size.width + more, size.height + higher)
}

// One call of an atlas, and what it answers.
fn call(it: &mut AtlasAllocator, random: &mut Random) -> String {
    match random.below(16) {
        0..=8 => {
            let size = size2(random.side(40), random.side(40));
            format!("{:?}", it.allocate(size))
        }
        9..=13 => {
            let live: Vec<_> = it.iter().collect();
            if live.is_empty() {
                return format!("{:?}", it.areas());
            }
            let one = live[random.below(live.len() as u64) as usize];
            it.deallocate(one.id);
            format!("{:?}", one)
        }
        14 => {
            it.grow(grown(it.size(), random));
            format!("{:?}", it.areas())
        }
        _ => format!("{:?}", it.rearrange()),
    }
}

fn session(random: &mut Random) -> AtlasAllocator {
    let size = size2(8 + random.side(120), 8 + random.side(120));
    let mut it = AtlasAllocator::with_options(size, &random.options());
    for _ in 0..random.below(24) {
        call(&mut it, random);
    }
    it
}

#[test]
fn an_atlas_goes_on_as_if_it_had_never_been_written() {
    let mut random = Random(20261130);
    for number in 0..SESSIONS {
        let mut it = session(&mut random);
        let mut other = AtlasAllocator::deserialize(written(&it)).unwrap();
        assert_eq!(written(&it), written(&other), "session {}", number);
        let mut again = Random(random.0);
        for _ in 0..8 {
            let answer = call(&mut it, &mut random);
            assert_eq!(answer, call(&mut other, &mut again), "session {}", number);
        }
    }
}

// One call of a simple allocator, and what it answers.
fn simple_call(it: &mut SimpleAtlasAllocator, random: &mut Random) -> String {
    if random.below(16) == 0 {
        it.grow(grown(it.size(), random));
    }
    format!("{:?}", it.allocate(size2(random.side(40), random.side(40))))
}

#[test]
fn a_simple_allocator_goes_on_as_if_it_had_never_been_written() {
    let mut random = Random(20261130);
    for number in 0..SESSIONS {
        let size = size2(8 + random.side(120), 8 + random.side(120));
        let mut it = SimpleAtlasAllocator::with_options(size, &random.options());
        for _ in 0..random.below(24) {
            simple_call(&mut it, &mut random);
        }
        let mut other = SimpleAtlasAllocator::deserialize(written(&it)).unwrap();
        let mut again = Random(random.0);
        for _ in 0..8 {
            let answer = simple_call(&mut it, &mut random);
            assert_eq!(answer, simple_call(&mut other, &mut again), "session {}", number);
        }
    }
}

// Changes one thing in a tree, the nth of those that it has.
fn spoil(tree: &mut Tree, left: &mut u64, random: &mut Random) {
    match tree {
        Nothing => {}
        Number(number) if *left == 0 => {
            *number = match random.below(6) {
                0 => LARGEST,
                1 => 4294967295,
                2 => -1,
                3 => *number + 1,
                4 => *number - 1,
                _ => random.below(12) as i64,
            }
        }
        List(items) if *left == 0 && !items.is_empty() => {
            let at = random.below(items.len() as u64) as usize;
            match random.below(3) {
                0 => {
                    items.remove(at);
                }
                1 => items.push(items[at].clone()),
                _ => items.swap(0, at),
            }
        }
        Map(fields) if *left == 0 && fields.len() == 1 => {
            let kinds = ["Container", "Alloc", "Free", "Unused", "Nonsense"];
            fields[0].0 = kinds[random.below(5) as usize];
        }
        _ => {}
    }
    *left = left.wrapping_sub(1);
    match tree {
        List(items) => items.iter_mut().for_each(|it| spoil(it, left, random)),
        Map(fields) => fields.iter_mut().for_each(|it| spoil(&mut it.1, left, random)),
        _ => {}
    }
}

fn parts(tree: &Tree) -> u64 {
    1 + match tree {
        List(items) => items.iter().map(parts).sum(),
        Map(fields) => fields.iter().map(|it| parts(&it.1)).sum(),
        _ => 0,
    }
}

fn spoilt(tree: &Tree, random: &mut Random) -> Tree {
    let mut tree = tree.clone();
    for _ in 0..1 + random.below(2) {
        let mut at = random.below(parts(&tree));
        spoil(&mut tree, &mut at, random);
    }
    tree
}

fn area(width: i32, height: i32) -> i64 {
    i64::from(width) * i64::from(height)
}

fn lie_apart(one: &Rectangle, other: &Rectangle) -> bool {
    one.max.x <= other.min.x
        || other.max.x <= one.min.x
        || one.max.y <= other.min.y
        || other.max.y <= one.min.y
}

// That live and free rectangles lie within, apart from one another, and cover all.
fn assert_tiles(it: &AtlasAllocator) {
    let mut all: Vec<Rectangle> = it.iter().map(|live| live.rectangle).collect();
    all.extend(it.free_iter());
    let mut covered = 0;
    for (i, one) in all.iter().enumerate() {
        assert!(one.min.x >= 0 && one.max.x <= it.size().width);
        assert!(one.min.y >= 0 && one.max.y <= it.size().height);
        assert!(all[i + 1..].iter().all(|other| lie_apart(one, other)));
        covered += area(one.max.x - one.min.x, one.max.y - one.min.y);
    }
    assert_eq!(covered, area(it.size().width, it.size().height));
}

#[test]
fn a_spoilt_atlas_is_refused_or_an_atlas() {
    let mut random = Random(7);
    let mut taken = 0;
    for _ in 0..SPOILT {
        let tree = spoilt(&written(&session(&mut random)), &mut random);
        let read: Result<AtlasAllocator, Fault> = Deserialize::deserialize(tree);
        if let Ok(mut it) = read {
            assert_tiles(&it);
            for id in it.iter().map(|live| live.id).collect::<Vec<_>>() {
                it.deallocate(id);
            }
            assert!(it.is_empty());
            taken += 1;
        }
    }
    assert!(taken > SPOILT / 100 && taken < SPOILT / 2, "{}", taken);
}
