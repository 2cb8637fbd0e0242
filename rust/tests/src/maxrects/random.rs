//! Random boxes, each looked for position by position.

use wollemigo_core::atlas_maxrects::TopmostPacker;
use wollemigo_core::atlas_model::{point2, size2, Point, Rectangle, Size};
use wollemigo_support::alloc::Global;
use wollemigo_support::test::Fail;

const SIDE: i32 = 14;

// Whether a box lies in the sheet and on no other.
fn is_free(placed: &[Rectangle], at: Point, size: Size) -> bool {
    let right = at.x + size.width;
    let bottom = at.y + size.height;
    right <= SIDE
        && bottom <= SIDE
        && placed.iter().all(|other| {
            right <= other.min.x
                || other.max.x <= at.x
                || bottom <= other.min.y
                || other.max.y <= at.y
        })
}

// The first free position, row by row.
fn first_free(placed: &[Rectangle], size: Size) -> Option<Point> {
    let mut positions = (0..SIDE).flat_map(|y| (0..SIDE).map(move |x| point2(x, y)));
    positions.find(|at| is_free(placed, *at, size))
}

// Side lengths from 1 to 6.
fn next_side(state: &mut u32) -> i32 {
    *state = state.wrapping_mul(1664525).wrapping_add(1013904223);
    ((*state >> 16) % 6) as i32 + 1
}

#[test]
fn as_row_by_row() -> Result<(), Fail> {
    for seed in 0..25 {
        let mut state = seed;
        let mut packer = TopmostPacker::new(Global, size2(SIDE, SIDE))?;
        for _ in 0..24 {
            let size = size2(next_side(&mut state), next_side(&mut state));
            let wanted = first_free(packer.placed(), size);
            let place = packer.place(size)?;
            assert_eq!(place.map(|place| place.min), wanted, "seed {seed}");
        }
    }
    Ok(())
}
