//! Steps of the simple allocator with their answers: worked rows of growths and starts.

use guillotiere_tests::tables::{Corners, Sides, ALIGNED_TO_2, ALIGNED_TO_8};
use wollemigo_core::guillotiere::{AllocatorOptions, Size, DEFAULT_OPTIONS};

/// A call of the simple allocator with its answer.
#[derive(Clone, Copy)]
pub enum Step {
    Grant(Sides, Corners),
    NoRoom(Sides),
    Grow(Sides),
    Clear,
    Reset(Sides, AllocatorOptions),
    Start,
    /// Its answer is `BadCall`.
    Shrink(Sides),
    /// Its answer is `BadCall`.
    BadReset(Sides, AllocatorOptions),
    /// Not a call: what `size` answers.
    SizeIs(Sides),
    /// Not a call: what `is_empty` answers.
    EmptyIs(bool),
}

/// An atlas that was granted some sizes and freed some ids.
pub struct Source {
    pub size: Sides,
    pub options: AllocatorOptions,
    pub granted: &'static [Sides],
    pub freed: &'static [u32],
}

/// An allocator of a size, the atlas that it may start from, and steps.
pub struct Row {
    pub size: Sides,
    pub options: AllocatorOptions,
    pub source: Source,
    pub steps: &'static [Step],
}

// No row starts from it.
const NO_SOURCE: Source = Source {
    size: (1, 1),
    options: DEFAULT_OPTIONS,
    granted: &[],
    freed: &[],
};

// An alignment that isn't above 0.
const NO_HEIGHT: AllocatorOptions = AllocatorOptions {
    alignment: Size {
        width: 0,
        height: 1,
    },
    small_size_threshold: 32,
    large_size_threshold: 256,
};

pub static ROWS: [Row; 12] = [
    Row {
        size: (1, 1),
        options: DEFAULT_OPTIONS,
        source: Source {
            size: (100, 300),
            options: DEFAULT_OPTIONS,
            granted: &[(100, 100), (100, 100), (100, 100)],
            freed: &[0, 1],
        },
        steps: &[
            Step::Start,
            Step::SizeIs((100, 300)),
            Step::Grant((100, 100), (0, 0, 100, 100)),
            Step::Grant((100, 100), (0, 100, 100, 200)),
            Step::NoRoom((100, 100)),
        ],
    },
    Row {
        size: (10, 10),
        options: DEFAULT_OPTIONS,
        source: NO_SOURCE,
        steps: &[
            Step::EmptyIs(true),
            Step::Grow((20, 30)),
            Step::SizeIs((20, 30)),
            Step::EmptyIs(false),
            Step::Grant((20, 20), (0, 10, 20, 30)),
            Step::Grant((10, 10), (0, 0, 10, 10)),
            Step::Grant((10, 10), (10, 0, 20, 10)),
            Step::NoRoom((1, 1)),
        ],
    },
    Row {
        size: (10, 10),
        options: DEFAULT_OPTIONS,
        source: NO_SOURCE,
        steps: &[
            Step::Grant((10, 10), (0, 0, 10, 10)),
            Step::Grow((20, 30)),
            Step::Grant((20, 20), (0, 10, 20, 30)),
            Step::Grant((10, 10), (10, 0, 20, 10)),
            Step::NoRoom((1, 1)),
        ],
    },
    Row {
        size: (1, 1),
        options: DEFAULT_OPTIONS,
        source: Source {
            size: (20, 20),
            options: ALIGNED_TO_8,
            granted: &[(16, 16)],
            freed: &[],
        },
        steps: &[
            Step::Start,
            Step::SizeIs((20, 20)),
            Step::NoRoom((1, 1)),
            Step::EmptyIs(false),
        ],
    },
    Row {
        size: (1, 1),
        options: DEFAULT_OPTIONS,
        source: Source {
            size: (30, 40),
            options: DEFAULT_OPTIONS,
            granted: &[],
            freed: &[],
        },
        steps: &[Step::Start, Step::EmptyIs(true), Step::SizeIs((30, 40))],
    },
    Row {
        size: (10, 10),
        options: DEFAULT_OPTIONS,
        source: Source {
            size: (100, 300),
            options: DEFAULT_OPTIONS,
            granted: &[(100, 100), (100, 100), (100, 100)],
            freed: &[1],
        },
        steps: &[
            Step::Grant((10, 10), (0, 0, 10, 10)),
            Step::Start,
            Step::Grant((100, 100), (0, 100, 100, 200)),
            Step::NoRoom((1, 1)),
            Step::Shrink((99, 300)),
            Step::BadReset((5, 5), NO_HEIGHT),
            Step::Clear,
            Step::Grant((100, 300), (0, 0, 100, 300)),
        ],
    },
    // Parts beside a request and beside a growth, with an alignment.
    Row {
        size: (1, 1),
        options: DEFAULT_OPTIONS,
        source: NO_SOURCE,
        steps: &[
            Step::Reset((20, 20), ALIGNED_TO_8),
            Step::EmptyIs(true),
            Step::Grant((9, 1), (0, 0, 16, 8)),
            Step::EmptyIs(false),
            // Both parts of the new size are just as wide or as high as the alignment.
            Step::Grow((28, 28)),
            Step::Grant((24, 8), (0, 20, 24, 28)),
            Step::Grant((8, 16), (20, 0, 28, 16)),
            Step::Clear,
            Step::SizeIs((28, 28)),
            Step::EmptyIs(true),
            // Both parts of the new size are lower or narrower than the alignment.
            Step::Grow((35, 35)),
            Step::EmptyIs(false),
            Step::NoRoom((25, 1)),
            Step::Grant((24, 24), (0, 0, 24, 24)),
            Step::NoRoom((1, 1)),
        ],
    },
    // At an equal size nothing changes; an empty size is a bad reset.
    Row {
        size: (10, 10),
        options: DEFAULT_OPTIONS,
        source: NO_SOURCE,
        steps: &[
            Step::Grow((10, 10)),
            Step::EmptyIs(true),
            Step::Shrink((10, 9)),
            Step::BadReset((0, 5), DEFAULT_OPTIONS),
            Step::BadReset((5, -2147483648), DEFAULT_OPTIONS),
            Step::Grant((10, 10), (0, 0, 10, 10)),
            Step::Grow((10, 10)),
            Step::NoRoom((1, 1)),
            Step::NoRoom((-2147483648, -2147483648)),
        ],
    },
    // The greatest size.
    Row {
        size: (1, 1),
        options: DEFAULT_OPTIONS,
        source: NO_SOURCE,
        steps: &[
            Step::Grow((2147483647, 2147483647)),
            Step::Grant((2147483647, 2147483646), (0, 1, 2147483647, 2147483647)),
            Step::Grant((2147483646, 1), (1, 0, 2147483647, 1)),
            Step::Grant((1, 1), (0, 0, 1, 1)),
            Step::NoRoom((1, 1)),
        ],
    },
    // With options of its own.
    Row {
        size: (20, 20),
        options: ALIGNED_TO_8,
        source: NO_SOURCE,
        steps: &[
            Step::EmptyIs(true),
            Step::Grant((16, 16), (0, 0, 16, 16)),
            Step::NoRoom((1, 1)),
            Step::EmptyIs(false),
            Step::SizeIs((20, 20)),
        ],
    },
    Row {
        size: (4, 4),
        options: ALIGNED_TO_8,
        source: NO_SOURCE,
        steps: &[
            Step::NoRoom((1, 1)),
            Step::EmptyIs(true),
            Step::SizeIs((4, 4)),
        ],
    },
    Row {
        size: (2147483647, 10),
        options: ALIGNED_TO_2,
        source: NO_SOURCE,
        steps: &[
            Step::NoRoom((2147483647, 1)),
            Step::NoRoom((-2147483648, -2147483648)),
            Step::EmptyIs(true),
            Step::SizeIs((2147483647, 10)),
        ],
    },
];
