//! Walks along what is live and what is free, without a list, compared with what the test holds and with the calls that take a callback.
use guillotiere::*;
use std::collections::BTreeMap;

struct Random(u64);

impl Random {
    fn below(&mut self, bound: u32) -> u32 {
        self.0 = self
            .0
            .wrapping_mul(6_364_136_223_846_793_005)
            .wrapping_add(1_442_695_040_888_963_407);
        (self.0 >> 33) as u32 % bound
    }
}

/// What is live, by the number of the slot, which is the low 24 bits of an id.
type Held = BTreeMap<u32, Allocation>;

fn slot_of(id: AllocId) -> u32 {
    id.serialize() & (MOST_SLOTS - 1)
}

fn hold(held: &mut Held, granted: Allocation) {
    assert_eq!(held.insert(slot_of(granted.id), granted), None);
}

fn check(atlas: &AtlasAllocator, held: &Held) {
    assert!(atlas.iter().eq(held.values().copied()));
    assert!(atlas.iter().rev().eq(held.values().rev().copied()));
    assert!(atlas.into_iter().eq(atlas.iter()));
    let mut free = Vec::new();
    atlas.for_each_free_rectangle(|rectangle| free.push(*rectangle));
    let mut walked: Vec<Rectangle> = atlas.free_iter().collect();
    walked.sort_by_key(|it| (it.min.y, it.min.x));
    free.sort_by_key(|it| (it.min.y, it.min.x));
    assert_eq!(walked, free);
    let area: i64 = (atlas.iter().map(|it| it.rectangle))
        .chain(atlas.free_iter())
        .map(|it| i64::from(it.area()))
        .sum();
    let size = atlas.size();
    assert_eq!(area, i64::from(size.width) * i64::from(size.height));
    let (least, most) = atlas.iter().size_hint();
    assert!(least <= held.len() && held.len() <= most.unwrap());
}

fn step(atlas: &mut AtlasAllocator, held: &mut Held, random: &mut Random) {
    match random.below(40) {
        0..=19 => {
            let size = size2(1 + random.below(30) as i32, 1 + random.below(30) as i32);
            if let Some(granted) = atlas.allocate(size) {
                hold(held, granted);
            }
        }
        20..=36 => {
            let at = random.below(held.len().max(1) as u32) as usize;
            if let Some(slot) = held.keys().nth(at).copied() {
                atlas.deallocate(held.remove(&slot).unwrap().id);
            }
        }
        37 => {
            let size = atlas.size();
            atlas.grow(size2(size.width + random.below(9) as i32, size.height));
        }
        38 => {
            let list = atlas.rearrange();
            held.clear();
            list.changes.iter().for_each(|it| hold(held, it.new));
        }
        _ => {
            atlas.clear();
            held.clear();
        }
    }
}

#[test]
fn walks_show_what_is_there() {
    let mut random = Random(6);
    let (mut atlas, mut held) = (AtlasAllocator::new(size2(100, 80)), Held::new());
    check(&atlas, &held);
    for _ in 0..20_000 {
        step(&mut atlas, &mut held, &mut random);
        check(&atlas, &held);
    }
}

#[test]
fn walks_go_from_both_ends_and_are_copied() {
    let mut atlas = AtlasAllocator::new(size2(100, 100));
    let mut granted: Vec<Allocation> = (1..10)
        .map(|side| atlas.allocate(size2(side, 100)).unwrap())
        .collect();
    granted.sort_by_key(|it| slot_of(it.id));
    let mut walk = atlas.iter();
    assert_eq!(
        (walk.next(), walk.next_back()),
        (Some(granted[0]), granted.last().copied())
    );
    let copy = walk.clone();
    assert_eq!(walk.by_ref().count(), 7);
    assert_eq!(
        (walk.next(), walk.next_back(), walk.next()),
        (None, None, None)
    );
    assert!(copy.eq(granted[1..8].iter().copied()));
    assert_eq!(atlas.free_iter().count(), 1);
    assert_eq!(
        format!("{:?}", atlas.free_iter()).matches("Box2D").count(),
        1
    );
    let mut free = atlas.free_iter();
    assert_eq!(
        (free.next_back().map(|it| it.size()), free.next()),
        (Some(size2(55, 100)), None)
    );
}
