//! Thresholds that lie between two sides of one step of the table, or beyond all steps: what is granted is compared with the rule,
//! read over the list of free boxes.

use crate::random::{below, next};
use wollemigo_core::guillotiere::{
    size2, AllocId, AllocatorOptions, AtlasAllocator, Rectangle, Size,
};
use wollemigo_support::alloc::Global;
use wollemigo_support::test::Fail;

// A number from one on and before another.
fn drawn(state: &mut u64, from: i32, end: i32) -> i32 {
    from + (next(state) % (end - from) as u64) as i32
}

// Both thresholds in one step, each in one, or both beyond 256.
fn options(state: &mut u64) -> AllocatorOptions {
    let (small, large) = match below(state, 4) {
        0 => (drawn(state, 65, 72), drawn(state, 129, 192)),
        1 => (drawn(state, 65, 68), drawn(state, 68, 72)),
        2 => (drawn(state, 129, 160), drawn(state, 257, 5001)),
        _ => (drawn(state, 257, 1000), drawn(state, 1000, 5001)),
    };
    AllocatorOptions {
        alignment: size2(1, 1),
        small_size_threshold: small,
        large_size_threshold: large,
    }
}

fn class(options: &AllocatorOptions, size: Size) -> u8 {
    let side = size.width.max(size.height);
    u8::from(side >= options.small_size_threshold) + u8::from(side >= options.large_size_threshold)
}

// Of the free boxes of the lowest class that fit, the one with the best rank, and of these the first.
fn picked(free: &[Rectangle], options: &AllocatorOptions, size: Size) -> Option<Rectangle> {
    let is_large = class(options, size) == 2;
    let fits = |area: &&Rectangle| {
        area.size().width >= size.width && area.size().height >= size.height
    };
    let rank = |area: &&Rectangle| {
        let own = area.size();
        let margin = (own.width - size.width).min(own.height - size.height);
        let rank = if is_large && margin > 0 {
            i32::MAX - margin
        } else {
            margin
        };
        (class(options, own), rank, area.min.y, area.min.x)
    };
    free.iter().filter(fits).min_by_key(rank).copied()
}

// A side near a threshold, near a power of two, or any.
fn side(state: &mut u64, options: &AllocatorOptions, most: i32) -> i32 {
    let near = match below(state, 5) {
        0 => options.small_size_threshold,
        1 => options.large_size_threshold,
        2 => 64,
        3 => 128 << below(state, 4),
        _ => return drawn(state, 1, most),
    };
    drawn(state, (near - 12).max(1), near + 12).min(most)
}

const LENGTHS: [i32; 3] = [700, 2000, 6000];

#[test]
fn thresholds_within_steps() -> Result<(), Fail> {
    for session in 0..60_u64 {
        let mut state = session;
        let options = options(&mut state);
        let length = LENGTHS[usize::from(below(&mut state, 3))];
        let mut atlas = AtlasAllocator::with_options(Global, size2(length, length), &options)?;
        let mut live: Vec<AllocId> = Vec::new();
        for _ in 0..600 {
            if below(&mut state, 100) < 40 && !live.is_empty() {
                let at = (next(&mut state) % live.len() as u64) as usize;
                atlas.deallocate(live.swap_remove(at))?;
                continue;
            }
            let most = length / 3;
            let size = size2(
                side(&mut state, &options, most),
                side(&mut state, &options, most),
            );
            let expected = picked(&atlas.free_rectangles()?, &options, size);
            let granted = atlas.allocate(size)?;
            assert_eq!(
                granted.map(|a| a.rectangle.min),
                expected.map(|area| area.min),
                "{session}: {size:?} with {options:?}"
            );
            live.extend(granted.map(|a| a.id));
        }
    }
    Ok(())
}
