// Erased from crates/atlas_sheet/src/options.rt by rust/erase: don't edit.
//! What a sheet keeps to.

use crate::atlas_sheet::allowed::Allowed;
use crate::guillotiere::{size2, Size};

/// How far apart sprites lie, and where their places may begin.
#[derive(Clone, Copy, Debug, PartialEq, Eq)]
pub struct Spacing {
    /// The least number of pixels between two sprites, and between a sprite and the border.
    pub padding: u16,
    /// Each place, with the padding at its left and above, begins on multiples of these sides, and with them takes
    /// multiples of these. The padding at its right and below comes after that.
    pub alignment: Size,
}

/// The rules for a sheet, and how long better places are looked for.
#[derive(Clone, Copy, Debug, PartialEq, Eq)]
pub struct SheetOptions {
    /// Which sheets are allowed. `fill` takes the greatest of them.
    pub allowed: Allowed,
    /// The least number of pixels between two sprites, and between a sprite and the border.
    pub padding: u16,
    /// Each sprite's place, with the padding at its left and above, begins on multiples of these sides, in pixels, and what
    /// it takes with that padding is rounded up to multiples of them. The padding at its right and below comes after that:
    /// it is the next sprite's, or the border's. Each side is at least 1.
    pub alignment: Size,
    /// Whether a sprite may lie turned by 90 degrees. The ways are then tried with each `Turning`.
    pub turn: bool,
    /// How many changes of the order are tried.
    pub effort: u32,
    /// The seed of the random changes. The same input gives the same sheet on every machine.
    pub seed: u64,
}

impl SheetOptions {
    /// These sheets, no padding, alignment 1 in both directions, no turning, no changes of the order.
    #[inline]
    #[must_use]
    pub fn new(allowed: Allowed) -> SheetOptions {
        SheetOptions {
            allowed,
            padding: 0,
            alignment: size2(1, 1),
            turn: false,
            effort: 0,
            seed: 0,
        }
    }

    /// The padding and the alignment.
    #[inline]
    #[must_use]
    pub fn spacing(&self) -> Spacing {
        Spacing {
            padding: self.padding,
            alignment: self.alignment,
        }
    }
}
