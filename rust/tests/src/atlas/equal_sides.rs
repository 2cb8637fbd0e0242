//! Many free boxes with a side as it is asked for: the first of them is taken, by `min.y` and then `min.x`.

use crate::random::{below, next};
use wollemigo_core::guillotiere::{
    size2, AllocId, AllocatorOptions, AtlasAllocator, AtlasError, Rectangle, SimpleAtlasAllocator,
    Size,
};
use wollemigo_support::alloc::Global;
use wollemigo_support::test::Fail;

// All boxes are of one class.
fn options() -> AllocatorOptions {
    AllocatorOptions {
        alignment: size2(1, 1),
        small_size_threshold: 4096,
        large_size_threshold: 4096,
    }
}

// The first of the free boxes that fit a size and have a side of it.
fn first_with_side(free: &[Rectangle], size: Size) -> Option<Rectangle> {
    let fits = |area: &&Rectangle| {
        let (width, height) = (area.max.x - area.min.x, area.max.y - area.min.y);
        let is_equal = width == size.width || height == size.height;
        width >= size.width && height >= size.height && is_equal
    };
    free.iter()
        .filter(fits)
        .min_by_key(|area| (area.min.y, area.min.x))
        .copied()
}

// A request is granted at the corner of that box.
fn is_first(atlas: &mut AtlasAllocator, size: Size) -> Result<Option<AllocId>, Fail> {
    let first = first_with_side(&atlas.free_rectangles()?, size);
    let granted = atlas.allocate(size)?;
    if let Some(area) = first {
        assert_eq!(granted.map(|a| a.rectangle.min), Some(area.min), "{size:?}");
    }
    Ok(granted.map(|a| a.id))
}

// An atlas full of boxes of one size, of which about half were freed, in no order.
fn half_freed(
    side: Size,
    size: Size,
    state: &mut u64,
) -> Result<(AtlasAllocator, Vec<AllocId>), AtlasError> {
    let mut atlas = AtlasAllocator::with_options(Global, side, &options())?;
    let mut live = Vec::new();
    while let Some(granted) = atlas.allocate(size)? {
        live.push(granted.id);
    }
    for _ in 0..live.len() / 2 {
        let at = (next(state) % live.len() as u64) as usize;
        atlas.deallocate(live.swap_remove(at))?;
    }
    Ok((atlas, live))
}

// Tiles, strips, columns and two heights.
const CASES: [((i32, i32), (i32, i32), [(i32, i32); 2]); 4] = [
    ((512, 512), (16, 16), [(16, 16), (16, 16)]),
    ((1024, 512), (64, 2), [(64, 2), (64, 2)]),
    ((512, 512), (2, 64), [(2, 64), (2, 40)]),
    ((512, 512), (12, 20), [(12, 20), (12, 7)]),
];

#[test]
fn first_of_many_is_taken() -> Result<(), Fail> {
    for (number, ((width, height), size, asked)) in CASES.into_iter().enumerate() {
        let mut state = number as u64;
        let (mut atlas, mut live) =
            half_freed(size2(width, height), size2(size.0, size.1), &mut state)?;
        for step in 0..3000 {
            if below(&mut state, 100) < 50 {
                let at = (next(&mut state) % live.len() as u64) as usize;
                atlas.deallocate(live.swap_remove(at))?;
            }
            let (wide, high) = asked[usize::from(below(&mut state, 2))];
            if let Some(id) = is_first(&mut atlas, size2(wide, high))? {
                live.push(id);
            } else if step % 2 == 0 {
                atlas.deallocate(live.pop().unwrap())?;
            }
        }
    }
    Ok(())
}

#[test]
fn a_clone_takes_the_same() -> Result<(), Fail> {
    let mut state = 7;
    let (mut atlas, mut live) = half_freed(size2(512, 512), size2(16, 16), &mut state)?;
    for _ in 0..200 {
        live.extend(atlas.allocate(size2(16, 16))?.map(|a| a.id));
    }
    let mut copy = atlas.clone()?;
    for _ in 0..1000 {
        let id = live.swap_remove((next(&mut state) % live.len() as u64) as usize);
        atlas.deallocate(id)?;
        copy.deallocate(id)?;
        let granted = atlas.allocate(size2(16, 16))?;
        assert_eq!(granted, copy.allocate(size2(16, 16))?);
        live.extend(granted.map(|a| a.id));
    }
    Ok(())
}

#[test]
fn begun_anew_it_is_as_new() -> Result<(), Fail> {
    let mut state = 3;
    let (mut atlas, _) = half_freed(size2(512, 512), size2(16, 16), &mut state)?;
    for _ in 0..300 {
        atlas.allocate(size2(16, 16))?;
    }
    atlas.clear()?;
    let mut fresh = AtlasAllocator::with_options(Global, size2(512, 512), &options())?;
    for _ in 0..1000 {
        let size = size2(
            1 + i32::from(below(&mut state, 30)),
            1 + i32::from(below(&mut state, 30)),
        );
        let (granted, wanted) = (atlas.allocate(size)?, fresh.allocate(size)?);
        assert_eq!(granted.map(|a| a.rectangle), wanted.map(|a| a.rectangle));
    }
    Ok(())
}

#[test]
fn a_simple_allocator_takes_over_all_of_them() -> Result<(), Fail> {
    let mut state = 5;
    let (mut atlas, _) = half_freed(size2(512, 512), size2(16, 16), &mut state)?;
    for _ in 0..300 {
        atlas.allocate(size2(16, 16))?;
    }
    let mut free = atlas.free_rectangles()?.as_slice().to_vec();
    let mut simple = SimpleAtlasAllocator::new(Global, size2(1, 1))?;
    simple.init_from_allocator(&atlas)?;
    while let Some(first) = first_with_side(&free, size2(16, 16)) {
        let granted = simple.allocate(size2(16, 16))?;
        assert_eq!(granted.map(|area| area.min), Some(first.min));
        free.retain(|area| *area != first);
        // What is left of it lies along the other side.
        let mut rest = first;
        if first.max.x - first.min.x > 16 {
            rest.min.x += 16;
        } else {
            rest.min.y += 16;
        }
        if rest.min.x < rest.max.x && rest.min.y < rest.max.y {
            free.push(rest);
        }
    }
    Ok(())
}
