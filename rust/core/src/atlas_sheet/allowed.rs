// Erased from crates/atlas_sheet/src/allowed.rt by rust/erase: don't edit.
//! The sheets that are allowed.

use crate::atlas_sheet::error::SheetError;
use crate::guillotiere::{size2, Size};

/// Which sheets are allowed, in pixels.
#[derive(Clone, Copy, Debug, PartialEq, Eq)]
pub enum Allowed {
    /// This size alone.
    One(Size),
    /// Squares with a side from `least` to `greatest`.
    Squares { least: i32, greatest: i32 },
    /// Each side a power of two, up to `greatest`. The sides may differ.
    Powers { greatest: i32 },
    /// This width, and a height from 1 to `greatest`.
    Heights { width: i32, greatest: i32 },
}

impl Allowed {
    /// A size whose sides are at most those of every allowed sheet.
    #[inline]
    #[must_use]
    pub fn least(self) -> Size {
        match self {
            Allowed::One(size) => size,
            Allowed::Squares { least, .. } => size2(least, least),
            Allowed::Powers { .. } => size2(1, 1),
            Allowed::Heights { width, .. } => size2(width, 1),
        }
    }

    /// A size whose sides are at least those of every allowed sheet.
    #[inline]
    #[must_use]
    pub fn greatest(self) -> Size {
        match self {
            Allowed::One(size) => size,
            Allowed::Squares { greatest, .. } => size2(greatest, greatest),
            Allowed::Powers { greatest } => size2(greatest, greatest),
            Allowed::Heights { width, greatest } => size2(width, greatest),
        }
    }

    // How many sizes there are, each a pixel higher than the one before it. Not of powers of two.
    #[inline]
    #[must_use]
    pub fn count(self) -> u32 {
        (self.greatest().height - self.least().height) as u32 + 1
    }

    // The size that is this much higher than the least.
    #[inline]
    #[must_use]
    pub fn nth(self, number: u32) -> Size {
        let least = self.least();
        let height = (least.height as u32 + number) as i32;
        match self {
            Allowed::Squares { .. } => size2(height, height),
            _ => size2(least.width, height),
        }
    }
}

// Whether a sheet is allowed at all, and none that is empty.
#[inline]
pub fn check_allowed(allowed: Allowed) -> Result<(), SheetError> {
    let least = allowed.least();
    if !least.is_positive() {
        return Err(SheetError::EmptySheet);
    }
    let greatest = allowed.greatest();
    if greatest.width < least.width || greatest.height < least.height {
        return Err(SheetError::EmptyRange);
    }
    Ok(())
}
