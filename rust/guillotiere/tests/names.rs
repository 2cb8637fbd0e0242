//! Tests through the names of the Rust crate alone. All but `freed_ids_have_no_rectangle` pass over the crate's own
//! code too; there a freed id of unchanged generation has its old rectangle.
use guillotiere::*;
use std::panic::{catch_unwind, AssertUnwindSafe};

struct Random(u64);

impl Random {
    fn below(&mut self, bound: u32) -> u32 {
        self.0 = self
            .0
            .wrapping_mul(6_364_136_223_846_793_005)
            .wrapping_add(1_442_695_040_888_963_407);
        (self.0 >> 33) as u32 % bound
    }

    fn size(&mut self, least: i32, most: i32) -> Size {
        let bound = (most - least + 1) as u32;
        size2(
            least + self.below(bound) as i32,
            least + self.below(bound) as i32,
        )
    }
}

fn panics<T>(call: impl FnOnce() -> T) -> bool {
    catch_unwind(AssertUnwindSafe(call)).is_err()
}

fn free_boxes(atlas: &AtlasAllocator) -> Vec<Rectangle> {
    let mut found = Vec::new();
    atlas.for_each_free_rectangle(|rectangle| found.push(*rectangle));
    found
}

fn live(atlas: &AtlasAllocator) -> Vec<(AllocId, Rectangle)> {
    let mut found = Vec::new();
    atlas.for_each_allocated_rectangle(|id, rectangle| found.push((id, *rectangle)));
    found
}

fn area(r: &Rectangle) -> i64 {
    i64::from(r.max.x - r.min.x) * i64::from(r.max.y - r.min.y)
}

fn are_apart(a: &Rectangle, b: &Rectangle) -> bool {
    a.max.x <= b.min.x || b.max.x <= a.min.x || a.max.y <= b.min.y || b.max.y <= a.min.y
}

#[track_caller]
fn check_tiled(atlas: &AtlasAllocator) {
    let mut boxes = free_boxes(atlas);
    boxes.extend(live(atlas).iter().map(|x| x.1));
    let size = atlas.size();
    assert_eq!(
        boxes.iter().map(area).sum::<i64>(),
        i64::from(size.width) * i64::from(size.height)
    );
    for (i, a) in boxes.iter().enumerate() {
        assert!(boxes[..i].iter().all(|b| are_apart(a, b)));
    }
}

#[test]
fn fills_and_empties() {
    let mut atlas = AtlasAllocator::new(size2(1000, 1000));
    assert!(atlas.is_empty());
    let full = atlas.allocate(size2(1000, 1000)).unwrap().id;
    assert!(atlas.allocate(size2(1, 1)).is_none());
    atlas.deallocate(full);
    let sizes = [(100, 1000), (900, 200), (300, 200), (200, 300), (100, 300)];
    let ids = sizes.map(|(width, height)| atlas.allocate(size2(width, height)).unwrap().id);
    for at in [1, 0, 2, 4, 3] {
        atlas.deallocate(ids[at]);
        check_tiled(&atlas);
    }
    assert!(atlas.is_empty() && atlas.allocate(size2(1000, 1000)).is_some());
}

#[test]
fn grants_at_the_first_corner() {
    let mut atlas = AtlasAllocator::new(size2(200, 200));
    let granted = atlas.allocate(size2(100, 90)).unwrap().rectangle;
    assert_eq!((granted.min, granted.max), (point2(0, 0), point2(100, 90)));
}

#[test]
fn random_calls() {
    let mut atlas = AtlasAllocator::new(size2(1000, 1000));
    let mut random = Random(7);
    let mut held = Vec::new();
    for turn in 0..20_000 {
        if held.is_empty() || random.below(2) == 0 {
            let size = random.size(1, 150);
            if let Some(granted) = atlas.allocate(size) {
                assert_eq!(granted.rectangle.size(), size);
                held.push(granted);
            }
        } else {
            let granted: Allocation = held.swap_remove(random.below(held.len() as u32) as usize);
            assert_eq!(atlas[granted.id], granted.rectangle);
            atlas.deallocate(granted.id);
        }
        if turn % 1000 == 0 {
            check_tiled(&atlas);
            assert_eq!(live(&atlas).len(), held.len());
        }
    }
    for granted in held {
        atlas.deallocate(granted.id);
    }
    assert!(atlas.is_empty());
    assert_eq!(free_boxes(&atlas).len(), 1);
}

#[test]
fn indexed_rectangles_stay_while_the_atlas_does() {
    let mut atlas = AtlasAllocator::new(size2(1000, 1000));
    let granted: Vec<Allocation> = (1..100)
        .map(|side| atlas.allocate(size2(side, 9)).unwrap())
        .collect();
    let shown: Vec<&Rectangle> = granted.iter().map(|x| &atlas[x.id]).collect();
    let again: Vec<&Rectangle> = granted.iter().rev().map(|x| &atlas[x.id]).collect();
    assert!(granted
        .iter()
        .zip(&shown)
        .all(|(x, rectangle)| x.rectangle == **rectangle));
    assert!(granted
        .iter()
        .rev()
        .zip(&again)
        .all(|(x, rectangle)| x.rectangle == **rectangle));
    atlas.reset(size2(500, 500), &DEFAULT_OPTIONS);
    let other = atlas.allocate(size2(77, 88)).unwrap();
    assert_eq!(atlas[other.id], other.rectangle);
}

#[test]
fn empty_and_great_requests_have_no_room() {
    let mut atlas = AtlasAllocator::new(size2(100, 100));
    for (width, height) in [
        (0, 0),
        (0, 5),
        (5, 0),
        (-1, 5),
        (i32::MIN, 5),
        (101, 1),
        (i32::MAX, i32::MAX),
    ] {
        assert!(atlas.allocate(size2(width, height)).is_none());
    }
}

#[test]
fn sides_are_aligned() {
    let options = AllocatorOptions {
        alignment: size2(16, 8),
        ..DEFAULT_OPTIONS
    };
    let mut atlas = AtlasAllocator::with_options(size2(128, 128), &options);
    assert_eq!(
        atlas.allocate(size2(1, 1)).unwrap().rectangle.size(),
        size2(16, 8)
    );
    assert_eq!(AllocatorOptions::default(), DEFAULT_OPTIONS);
}

#[test]
fn constructors_panic() {
    for (width, height) in [(0, 1), (1, 0), (-5, 5), (5, -5)] {
        assert!(panics(|| AtlasAllocator::new(size2(width, height))));
    }
    for alignment in [size2(0, 1), size2(1, 0), size2(-1, 1)] {
        let options = AllocatorOptions {
            alignment,
            ..DEFAULT_OPTIONS
        };
        assert!(panics(|| AtlasAllocator::with_options(
            size2(9, 9),
            &options
        )));
    }
    let options = AllocatorOptions {
        small_size_threshold: 9,
        large_size_threshold: 8,
        ..DEFAULT_OPTIONS
    };
    assert!(panics(|| AtlasAllocator::with_options(
        size2(9, 9),
        &options
    )));
}

#[test]
fn freeings_panic() {
    let mut atlas = AtlasAllocator::new(size2(100, 100));
    let freed = atlas.allocate(size2(10, 10)).unwrap().id;
    atlas.deallocate(freed);
    for id in [
        freed,
        AllocId::deserialize(77),
        AllocId::deserialize(u32::MAX),
    ] {
        assert!(panics(|| atlas.deallocate(id)));
    }
}

#[test]
fn stale_ids_have_no_rectangle() {
    let mut atlas = AtlasAllocator::new(size2(100, 100));
    let stale = atlas.allocate(size2(10, 10)).unwrap().id;
    atlas.deallocate(stale);
    let fresh = atlas.allocate(size2(20, 20)).unwrap().id;
    assert_ne!(stale, fresh);
    assert!(panics(|| atlas[stale]));
    assert_eq!(AllocId::deserialize(fresh.serialize()), fresh);
}

#[test]
fn freed_ids_have_no_rectangle() {
    let mut atlas = AtlasAllocator::new(size2(100, 100));
    let freed = atlas.allocate(size2(100, 100)).unwrap().id;
    atlas.deallocate(freed);
    assert!(panics(|| atlas[freed]));
}

#[test]
fn grows() {
    let mut atlas = AtlasAllocator::new(size2(1000, 1000));
    atlas.grow(size2(2000, 2000));
    let full = atlas.allocate(size2(2000, 2000)).unwrap().id;
    assert!(atlas.allocate(size2(1, 1)).is_none());
    atlas.deallocate(full);
    let kept = atlas.allocate(size2(100, 100)).unwrap();
    atlas.grow(size2(3000, 2000));
    atlas.grow(size2(3000, 4000));
    assert_eq!(atlas[kept.id], kept.rectangle);
    assert_eq!(atlas.size(), size2(3000, 4000));
    check_tiled(&atlas);
    assert!(panics(|| atlas.grow(size2(2999, 9000))));
}

#[test]
fn clears_resets_and_clones() {
    let mut atlas = AtlasAllocator::new(size2(500, 500));
    for _ in 0..10 {
        atlas.allocate(size2(100, 100)).unwrap();
    }
    let copy = atlas.clone();
    atlas.clear();
    assert!(atlas.is_empty() && live(&copy).len() == 10);
    assert!(atlas.allocate(size2(500, 500)).is_some());
    atlas.reset(size2(64, 32), &DEFAULT_OPTIONS);
    assert!(atlas.is_empty() && atlas.size() == size2(64, 32));
}

#[test]
fn rearranges() {
    let mut atlas = AtlasAllocator::new(size2(1000, 1000));
    let mut random = Random(3);
    while atlas.allocate(random.size(20, 170)).is_some() {}
    for (id, _) in live(&atlas).into_iter().step_by(3) {
        atlas.deallocate(id);
    }
    let before = live(&atlas);
    let list = atlas.rearrange();
    assert_eq!(list.changes.len() + list.failures.len(), before.len());
    for change in &list.changes {
        assert!(before.contains(&(change.old.id, change.old.rectangle)));
        assert_eq!(atlas[change.new.id], change.new.rectangle);
        assert_eq!(change.old.rectangle.size(), change.new.rectangle.size());
    }
    check_tiled(&atlas);
    let list = atlas.resize_and_rearrange(size2(200, 200));
    assert!(!list.failures.is_empty() && list != ChangeList::empty());
    assert_eq!(atlas.size(), size2(200, 200));
    assert_eq!(
        AtlasAllocator::new(size2(10, 10)).rearrange(),
        ChangeList::empty()
    );
}

#[test]
fn a_simple_allocator_grants_beside_what_is_live() {
    let mut atlas = AtlasAllocator::new(size2(1000, 1000));
    let held =
        [size2(100, 1000), size2(900, 200)].map(|size| atlas.allocate(size).unwrap().rectangle);
    let mut simple = SimpleAtlasAllocator::new(size2(10, 10));
    assert!(simple.is_empty());
    simple.init_from_allocator(&atlas);
    assert!(!simple.is_empty() && simple.size() == size2(1000, 1000));
    let mut granted = Vec::new();
    while let Some(rectangle) = simple.allocate(size2(90, 70)) {
        assert!(granted
            .iter()
            .chain(&held)
            .all(|other| are_apart(&rectangle, other)));
        granted.push(rectangle);
    }
    assert!(granted.len() > 50);
    simple.grow(size2(1000, 1100));
    assert!(simple.allocate(size2(90, 70)).is_some());
    simple.clear();
    assert!(simple.is_empty());
    simple.reset(size2(50, 60), &DEFAULT_OPTIONS);
    assert_eq!(simple.size(), size2(50, 60));
}
