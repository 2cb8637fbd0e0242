//! A simple allocator as plain data and back: what comes back answers as the first does; boxes that overlap, or go beyond the size, give
//! none. Whether boxes overlap is found here by comparing each with each.

use crate::random::{below, next, side};
use test_memory::Refusing;
use wollemigo_core::guillotiere::{
    point2, size2, AllocatorOptions, AtlasAllocator, AtlasError, Rectangle, SimpleAtlasAllocator,
    SimpleImage, Size, DEFAULT_OPTIONS,
};
use wollemigo_support::alloc::{Allocator, Global};
use wollemigo_support::vec::Vec as LibraryVec;

type Simple = SimpleAtlasAllocator<Global>;

fn call(simple: &mut Simple, state: &mut u64, most: u16) -> String {
    match below(state, 30) {
        0..=26 => {
            let size = size2(side(state, most), side(state, most));
            format!("{:?}", simple.allocate(size))
        }
        27 | 28 => {
            let size = simple.size();
            let larger = size2(size.width + side(state, 30), size.height + side(state, 30));
            format!("{:?}", simple.grow(larger))
        }
        _ => format!("{:?} {}", simple.options(), simple.is_empty()),
    }
}

fn options(state: &mut u64) -> AllocatorOptions {
    let small = side(state, 40);
    AllocatorOptions {
        alignment: size2(1 + side(state, 4), 1 + side(state, 4)),
        small_size_threshold: small,
        large_size_threshold: small + side(state, 60),
    }
}

fn session(state: &mut u64) -> Simple {
    let size = size2(1 + side(state, 200), 1 + side(state, 200));
    let mut simple = Simple::with_options(Global, size, &options(state)).unwrap();
    if below(state, 4) == 0 {
        let mut atlas = AtlasAllocator::with_options(Global, size, &options(state)).unwrap();
        for _ in 0..below(state, 40) {
            let _ = atlas.allocate(size2(side(state, 30), side(state, 30)));
        }
        simple.init_from_allocator(&atlas).unwrap();
    }
    let most = 2 + below(state, 60);
    for _ in 0..below(state, 60) {
        call(&mut simple, state, most);
    }
    simple
}

#[test]
fn later_answers_are_the_same() {
    let mut state = 1;
    for _ in 0..500 {
        let mut simple = session(&mut state);
        let image = simple.image().unwrap();
        let mut other = Simple::from_image(Global, &image).unwrap().unwrap();
        assert_eq!(simple.size(), other.size());
        assert_eq!(simple.slots().used, other.slots().used);
        for _ in 0..60 {
            let mut twin = state;
            assert_eq!(
                call(&mut simple, &mut state, 40),
                call(&mut other, &mut twin, 40)
            );
            assert_eq!(state, twin);
        }
    }
}

fn image_of<A: Allocator + Copy>(alloc: A, size: Size, boxes: &[Rectangle]) -> SimpleImage<A> {
    let mut free = LibraryVec::new(alloc);
    for area in boxes {
        free.push(*area).unwrap();
    }
    SimpleImage {
        size,
        options: DEFAULT_OPTIONS,
        free,
    }
}

fn area(left: i32, top: i32, right: i32, bottom: i32) -> Rectangle {
    Rectangle {
        min: point2(left, top),
        max: point2(right, bottom),
    }
}

fn overlap(one: &Rectangle, other: &Rectangle) -> bool {
    one.min.x < other.max.x
        && other.min.x < one.max.x
        && one.min.y < other.max.y
        && other.min.y < one.max.y
}

fn is_right(size: Size, boxes: &[Rectangle]) -> bool {
    let each = boxes.iter().enumerate().all(|(number, one)| {
        one.min.x >= 0
            && one.min.y >= 0
            && one.min.x < one.max.x
            && one.min.y < one.max.y
            && one.max.x <= size.width
            && one.max.y <= size.height
            && boxes[..number].iter().all(|other| !overlap(one, other))
    });
    size.width > 0 && size.height > 0 && each
}

#[test]
fn boxes_that_overlap_give_none() {
    let mut state = 2;
    let mut counts = [0, 0];
    for _ in 0..20000 {
        let bound = 2 + below(&mut state, 30);
        let size = size2(side(&mut state, bound), side(&mut state, bound));
        let mut boxes = Vec::new();
        for _ in 0..below(&mut state, 6) {
            let (x, y) = (side(&mut state, bound), side(&mut state, bound));
            let (width, height) = (
                side(&mut state, 1 + bound / 3),
                side(&mut state, 1 + bound / 3),
            );
            boxes.push(area(x, y, x + width, y + height));
        }
        let found = Simple::from_image(Global, &image_of(Global, size, &boxes)).unwrap();
        assert_eq!(
            found.is_some(),
            is_right(size, &boxes),
            "{:?} {:?}",
            size,
            boxes
        );
        counts[usize::from(found.is_some())] += 1;
    }
    assert!(counts[0] > 1000 && counts[1] > 1000, "{:?}", counts);
}

#[test]
fn one_spoilt_box_of_a_session() {
    let mut state = 3;
    for _ in 0..3000 {
        let image = session(&mut state).image().unwrap();
        let mut boxes: Vec<Rectangle> = image.free[..].to_vec();
        if boxes.is_empty() {
            continue;
        }
        let at = usize::from(below(&mut state, boxes.len() as u16));
        match below(&mut state, 5) {
            0 => boxes[at].min.x += side(&mut state, 5) - 2,
            1 => boxes[at].min.y += side(&mut state, 5) - 2,
            2 => boxes[at].max.x += side(&mut state, 5) - 2,
            3 => boxes[at].max.y = next(&mut state) as i32,
            _ => boxes.push(image.free[at]),
        }
        let found = Simple::from_image(Global, &image_of(Global, image.size, &boxes)).unwrap();
        assert_eq!(found.is_some(), is_right(image.size, &boxes));
    }
}

// Many boxes, as a row, as a column and as stairs: in time that doesn't grow by their square.
#[test]
fn many_boxes() {
    let n = 20_000;
    let size = size2(i32::MAX, i32::MAX);
    let shapes: [fn(i32) -> Rectangle; 4] = [
        |i| area(3 * i, 0, 3 * i + 3, i32::MAX),
        |i| area(0, 3 * i, i32::MAX, 3 * i + 3),
        |i| area(3 * i, 3 * i, 3 * i + 3, i32::MAX),
        |i| area(i, 100_000 * i, i32::MAX - i, 100_000 * i + 100_000),
    ];
    for shape in shapes {
        let boxes: Vec<Rectangle> = (0..n).map(shape).collect();
        let found = Simple::from_image(Global, &image_of(Global, size, &boxes)).unwrap();
        assert_eq!(found.unwrap().slots().used, n as u32);
    }
}

#[test]
fn each_refused_request_for_memory_is_an_error_and_leaks_nothing() {
    let mut state = 4;
    for _ in 0..20 {
        let plain = session(&mut state).image().unwrap();
        let memory = Refusing::new(Global);
        let image = image_of(&memory, plain.size, &plain.free);
        for n in 1.. {
            let before = memory.requests() - memory.returned();
            memory.refuse_nth(n);
            match SimpleAtlasAllocator::from_image(&memory, &image) {
                Err(error) => assert_eq!(error, AtlasError::Memory),
                Ok(found) => {
                    assert!(found.is_some());
                    break;
                }
            }
            // The refused request isn't given back.
            assert_eq!(memory.requests() - memory.returned(), before + 1);
        }
    }
}
