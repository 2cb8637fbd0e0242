//! Starts that are refused, with the first condition that fails.

use guillotiere_tests::tables::Sides;
use wollemigo_core::guillotiere::{size2, AllocatorOptions};
use wollemigo_core::guillotiere_total::CallError;

/// A size, an alignment, both thresholds, a limit, and the error.
pub type Start = (Sides, Sides, (i32, i32), u32, CallError);

/// Where several conditions fail, the error is that of the first: size, alignment, thresholds, limit.
pub const BAD_STARTS: [Start; 9] = [
    ((0, 9), (1, 1), (8, 8), 1, CallError::EmptySize),
    ((9, 0), (1, 1), (8, 8), 1, CallError::EmptySize),
    ((9, -1), (0, 1), (9, 8), 0, CallError::EmptySize),
    ((1, 1), (0, 1), (8, 8), 1, CallError::Alignment),
    ((1, 1), (1, -1), (9, 8), 0, CallError::Alignment),
    ((1, 1), (1, 1), (9, 8), 0, CallError::Thresholds),
    ((1, 1), (1, 1), (-3, -4), 1, CallError::Thresholds),
    ((1, 1), (1, 1), (8, 8), 0, CallError::SlotLimit),
    ((1, 1), (1, 1), (-4, -3), 16777217, CallError::SlotLimit),
];

/// Options with this alignment and these thresholds.
pub fn options(alignment: Sides, thresholds: (i32, i32)) -> AllocatorOptions {
    AllocatorOptions {
        alignment: size2(alignment.0, alignment.1),
        small_size_threshold: thresholds.0,
        large_size_threshold: thresholds.1,
    }
}
