// Erased from crates/atlas_search/src/bands.rt by rust/erase: don't edit.
//! The lists of free slots by the bands of both sides.

use crate::atlas_model::{AllocatorOptions, Size};
use crate::atlas_search::link::{Link, TAG};

/// How many bands a side may have: the lists have as many rows, and as many columns.
pub const BANDS: usize = 52;

/// The row and the column of a list.
#[derive(Clone, Copy, Debug, PartialEq, Eq)]
pub struct Place {
    pub row: usize,
    pub column: usize,
}

impl Place {
    /// What stands above the first entry of the list.
    #[inline]
    #[must_use]
    pub fn tag(self) -> Link {
        Link {
            number: TAG + (BANDS * self.row + self.column) as u32,
        }
    }
}

// The step of each side up to 256.
static STEPS: [u8; 257] = [
    0, 0, 1, 2, 3, 4, 5, 6, 7, 8, 9, 10, 11, 12, 13, 14, 15, 15, 16, 16, 17, 17, 18, 18, 19, 19,
    20, 20, 21, 21, 22, 22, 23, 23, 24, 24, 25, 25, 26, 26, 27, 27, 28, 28, 29, 29, 30, 30, 31, 31,
    32, 32, 33, 33, 34, 34, 35, 35, 36, 36, 37, 37, 38, 38, 39, 39, 39, 39, 39, 39, 39, 39, 40, 40,
    40, 40, 40, 40, 40, 40, 41, 41, 41, 41, 41, 41, 41, 41, 42, 42, 42, 42, 42, 42, 42, 42, 43, 43,
    43, 43, 43, 43, 43, 43, 44, 44, 44, 44, 44, 44, 44, 44, 45, 45, 45, 45, 45, 45, 45, 45, 46, 46,
    46, 46, 46, 46, 46, 46, 47, 47, 47, 47, 47, 47, 47, 47, 47, 47, 47, 47, 47, 47, 47, 47, 47, 47,
    47, 47, 47, 47, 47, 47, 47, 47, 47, 47, 47, 47, 47, 47, 47, 47, 47, 47, 47, 47, 47, 47, 47, 47,
    47, 47, 47, 47, 47, 47, 47, 47, 47, 47, 47, 47, 47, 47, 47, 47, 47, 47, 47, 47, 47, 47, 48, 48,
    48, 48, 48, 48, 48, 48, 48, 48, 48, 48, 48, 48, 48, 48, 48, 48, 48, 48, 48, 48, 48, 48, 48, 48,
    48, 48, 48, 48, 48, 48, 48, 48, 48, 48, 48, 48, 48, 48, 48, 48, 48, 48, 48, 48, 48, 48, 48, 48,
    48, 48, 48, 48, 48, 48, 48, 48, 48, 48, 48, 48, 48, 48, 49,
];

// The step of a side.
#[inline]
fn step(side: u32) -> usize {
    STEPS[side.min(256) as usize] as usize
}

// The band of each side up to 256 with the usual thresholds, 32 and 256.
static USUAL_BANDS: [u8; 257] = [
    0, 0, 1, 2, 3, 4, 5, 6, 7, 8, 9, 10, 11, 12, 13, 14, 15, 15, 16, 16, 17, 17, 18, 18, 19, 19,
    20, 20, 21, 21, 22, 22, 24, 24, 25, 25, 26, 26, 27, 27, 28, 28, 29, 29, 30, 30, 31, 31, 32, 32,
    33, 33, 34, 34, 35, 35, 36, 36, 37, 37, 38, 38, 39, 39, 40, 40, 40, 40, 40, 40, 40, 40, 41, 41,
    41, 41, 41, 41, 41, 41, 42, 42, 42, 42, 42, 42, 42, 42, 43, 43, 43, 43, 43, 43, 43, 43, 44, 44,
    44, 44, 44, 44, 44, 44, 45, 45, 45, 45, 45, 45, 45, 45, 46, 46, 46, 46, 46, 46, 46, 46, 47, 47,
    47, 47, 47, 47, 47, 47, 48, 48, 48, 48, 48, 48, 48, 48, 48, 48, 48, 48, 48, 48, 48, 48, 48, 48,
    48, 48, 48, 48, 48, 48, 48, 48, 48, 48, 48, 48, 48, 48, 48, 48, 48, 48, 48, 48, 48, 48, 48, 48,
    48, 48, 48, 48, 48, 48, 48, 48, 48, 48, 48, 48, 48, 48, 48, 48, 48, 48, 48, 48, 48, 48, 49, 49,
    49, 49, 49, 49, 49, 49, 49, 49, 49, 49, 49, 49, 49, 49, 49, 49, 49, 49, 49, 49, 49, 49, 49, 49,
    49, 49, 49, 49, 49, 49, 49, 49, 49, 49, 49, 49, 49, 49, 49, 49, 49, 49, 49, 49, 49, 49, 49, 49,
    49, 49, 49, 49, 49, 49, 49, 49, 49, 49, 49, 49, 49, 49, 51,
];

// The band of a side with the usual thresholds.
#[inline]
fn usual_band(side: u32) -> usize {
    USUAL_BANDS[side.min(256) as usize] as usize
}

// Whether the thresholds are the usual ones.
#[inline]
fn are_usual(options: &AllocatorOptions) -> bool {
    options.small_size_threshold == 32 && options.large_size_threshold == 256
}

// 1 if a side is at least a threshold.
#[inline]
fn passed(side: i32, threshold: i32) -> usize {
    if side >= threshold {
        1
    } else {
        0
    }
}

// The band of a side.
#[inline]
fn band(side: i32, options: &AllocatorOptions) -> usize {
    step(side as u32)
        + passed(side, options.small_size_threshold)
        + passed(side, options.large_size_threshold)
}

// The first band of the sides from a threshold on.
#[inline]
fn border(threshold: i32, options: &AllocatorOptions) -> usize {
    if threshold <= 1 {
        0
    } else {
        band(threshold, options)
    }
}

// The first band of the sides that reach the small threshold, and that of those that reach the large one.
#[derive(Clone, Copy)]
struct Borders {
    small: usize,
    large: usize,
}

// The borders of the classes.
#[inline]
fn borders_for(options: &AllocatorOptions) -> Borders {
    Borders {
        small: border(options.small_size_threshold, options),
        large: border(options.large_size_threshold, options),
    }
}

/// Options, with what the lists take of them: the borders of the classes, and whether the bands of sides are the usual
/// ones. Contracts see the options alone.
pub struct Scale {
    options: AllocatorOptions,
    borders: Borders,
    are_usual: bool,
}

impl Scale {
    /// That of these options.
    #[inline]
    #[must_use]
    pub fn new(options: &AllocatorOptions) -> Scale {
        Scale {
            options: *options,
            borders: borders_for(options),
            are_usual: are_usual(options),
        }
    }

    /// That of these options from now on.
    #[inline]
    pub fn set(&mut self, options: &AllocatorOptions) {
        if self.options != *options {
            *self = Scale::new(options);
        }
    }

    /// A scale of these options too.
    #[inline]
    #[must_use]
    pub fn copy(&self) -> Scale {
        Scale {
            options: self.options,
            borders: self.borders,
            are_usual: self.are_usual,
        }
    }

    /// The options.
    #[inline]
    #[must_use]
    pub fn plain(&self) -> AllocatorOptions {
        self.options
    }

    /// The first row and column of large sizes.
    #[inline]
    #[must_use]
    pub fn large(&self) -> usize {
        self.borders.large
    }

    /// The border of a class after a row or a column.
    #[inline]
    #[must_use]
    pub fn end_after(&self, first: usize) -> usize {
        if first < self.borders.small {
            self.borders.small
        } else if first < self.borders.large {
            self.borders.large
        } else {
            BANDS
        }
    }

    /// The list of a size.
    #[inline]
    #[must_use]
    pub fn place_for(&self, size: Size) -> Place {
        if self.are_usual {
            return Place {
                row: usual_band(size.width as u32),
                column: usual_band(size.height as u32),
            };
        }
        Place {
            row: band(size.width, &self.options),
            column: band(size.height, &self.options),
        }
    }
}
