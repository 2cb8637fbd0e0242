//! Granted rectangles as values of euclid, for `Index`, which gives a reference.
use crate::{AllocId, Allocation, AtlasError, Point, Rectangle, MOST_SLOTS};
use alloc::boxed::Box;
use alloc::vec::Vec;
use core::convert::TryFrom;

/// How many rectangles a block has: 1 KB.
const IN_A_BLOCK: usize = 64;

type Block = [Rectangle; IN_A_BLOCK];

/// The rectangle of each live id, at the number of its slot: the low 24 bits of the id. At other numbers it has what
/// stood there last, so whoever reads asks the library first whether the id is live.
///
/// Blocks stay where they are, and only the list of them grows: a single list would be copied to fresh memory each time
/// that it grows.
pub(crate) struct Shown {
    // In boxes, so that a longer list moves none of them.
    #[allow(clippy::vec_box)]
    blocks: Vec<Box<Block>>,
}

/// The block of an id, and where in it.
#[inline]
fn place_of(id: AllocId) -> (usize, usize) {
    let slot = (id.0 & (MOST_SLOTS - 1)) as usize;
    (slot / IN_A_BLOCK, slot % IN_A_BLOCK)
}

fn empty_block() -> Result<Box<Block>, AtlasError> {
    let corner = Point::new(0, 0);
    let empty = Rectangle {
        min: corner,
        max: corner,
    };
    let mut list = Vec::new();
    list.try_reserve_exact(IN_A_BLOCK)
        .map_err(|_| AtlasError::Memory)?;
    // In one piece: `resize` would write them one after another.
    list.extend_from_slice(&[empty; IN_A_BLOCK]);
    Ok(Box::try_from(list.into_boxed_slice()).expect("a block is as long as its list"))
}

impl Shown {
    pub(crate) fn new() -> Shown {
        Shown { blocks: Vec::new() }
    }

    /// Takes memory for the slots with the numbers below this one.
    #[inline]
    pub(crate) fn reserve(&mut self, slots: usize) -> Result<(), AtlasError> {
        if slots <= self.blocks.len() * IN_A_BLOCK {
            return Ok(());
        }
        self.take(slots)
    }

    #[cold]
    #[inline(never)]
    fn take(&mut self, slots: usize) -> Result<(), AtlasError> {
        let wanted = (slots + IN_A_BLOCK - 1) / IN_A_BLOCK;
        self.blocks
            .try_reserve(wanted - self.blocks.len())
            .map_err(|_| AtlasError::Memory)?;
        while self.blocks.len() < wanted {
            self.blocks.push(empty_block()?);
        }
        Ok(())
    }

    /// Keeps a rectangle for which memory was taken.
    #[inline]
    pub(crate) fn put(&mut self, granted: &Allocation) {
        let (block, at) = place_of(granted.id);
        self.blocks[block][at] = granted.rectangle;
    }

    /// The rectangle of a live id.
    #[inline]
    pub(crate) fn of(&self, id: AllocId) -> &Rectangle {
        let (block, at) = place_of(id);
        &self.blocks[block][at]
    }

    pub(crate) fn try_clone(&self) -> Result<Shown, AtlasError> {
        let mut copy = Shown::new();
        copy.reserve(self.blocks.len() * IN_A_BLOCK)?;
        for (new, old) in copy.blocks.iter_mut().zip(&self.blocks) {
            new.copy_from_slice(&old[..]);
        }
        Ok(copy)
    }
}
