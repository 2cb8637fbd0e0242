// Erased from crates/atlas_sheet/src/changes.rt by rust/erase: don't edit.
//! Small changes of the order in which sprites ask.

use crate::atlas_sheet::error::SheetError;
use crate::atlas_sheet::random::Random;
use crate::guillotiere::{size2, Size};
use wollemigo_support::alloc::Allocator;
use wollemigo_support::prelude::Vec;

// Two sprites change places in the order.
#[inline]
fn swap_two(random: &mut Random, order: &mut [(usize, Size)]) {
    let one = random.below(order.len());
    let other = random.below(order.len());
    order.swap(one, other);
}

// A sprite goes to another place in the order.
#[inline]
fn move_one(random: &mut Random, order: &mut [(usize, Size)]) {
    let from = random.below(order.len());
    let to = random.below(order.len());
    if from < to {
        order[from..to + 1].rotate_left(1);
    } else {
        order[to..from + 1].rotate_right(1);
    }
}

// A run of two to four sprites is turned round.
#[inline]
fn turn_run(random: &mut Random, order: &mut [(usize, Size)]) {
    let first = random.below(order.len());
    let end = (first + 2 + random.below(3)).min(order.len());
    order[first..end].reverse();
}

/// The sides of a sprite that is turned.
#[inline]
#[must_use]
pub fn flipped(size: Size) -> Size {
    size2(size.height, size.width)
}

// The sprite with this number lies so from now on.
#[inline]
fn lie_so(lying: &mut [Size], number: usize, size: Size) {
    lying[number] = size;
}

// A sprite is turned by 90 degrees.
#[inline]
fn turn_one(random: &mut Random, order: &mut [(usize, Size)], lying: &mut [Size]) {
    let at = random.below(order.len());
    let sprite = order[at];
    let turned = flipped(sprite.1);
    order[at] = (sprite.0, turned);
    lie_so(lying, sprite.0, turned);
}

// One change of the order: two sprites swapped, one moved, a run turned round, or one sprite turned by 90 degrees.
#[inline]
fn change(random: &mut Random, turn: bool, order: &mut [(usize, Size)], lying: &mut [Size]) {
    if order.is_empty() {
        return;
    }
    let kinds = if turn { 4 } else { 3 };
    match random.below(kinds) {
        0 => swap_two(random, order),
        1 => move_one(random, order),
        2 => turn_run(random, order),
        _ => {
            if turn {
                turn_one(random, order, lying);
            }
        }
    }
}

/// Sprites as they lie, and an order of them.
pub struct Asking<A: Allocator> {
    pub lying: Vec<Size, A>,
    pub order: Vec<(usize, Size), A>,
}

/// Sprites as these lie, and their order, with one change.
#[inline]
pub fn change_of<A: Allocator + Copy>(
    alloc: A,
    random: &mut Random,
    turn: bool,
    from_lying: &[Size],
    from_order: &[(usize, Size)],
) -> Result<Asking<A>, SheetError> {
    let mut lying = Vec::from_slice(alloc, from_lying)?;
    let mut order = Vec::from_slice(alloc, from_order)?;
    change(random, turn, &mut order, &mut lying);
    Ok(Asking { lying, order })
}
