// Erased from crates/atlas_sheet/src/ways.rt by rust/erase: don't edit.
//! The ways to place sprites that are tried.

use crate::atlas_sheet::options::Spacing;
use crate::atlas_sheet::orders::Key;
use crate::guillotiere::AllocatorOptions;

/// Which free box a sprite takes.
#[derive(Clone, Copy, Debug, PartialEq, Eq)]
pub enum Choice {
    /// The box whose smaller margin is the greatest: every size counts as large.
    Roomiest,
    /// The box whose smaller margin is the smallest: every size counts as medium.
    Tightest,
}

impl Choice {
    /// The options of an allocator that chooses so.
    #[inline]
    #[must_use]
    pub fn options(self, spacing: Spacing) -> AllocatorOptions {
        let large_size_threshold = match self {
            Choice::Roomiest => 0,
            Choice::Tightest => i32::MAX,
        };
        AllocatorOptions {
            alignment: spacing.alignment,
            small_size_threshold: 0,
            large_size_threshold,
        }
    }
}

/// One way to place sprites.
#[derive(Clone, Copy, Debug, PartialEq, Eq)]
pub struct Way {
    /// Sprites come by this, the greatest first.
    pub key: Key,
    /// Each takes a free box by this.
    pub choice: Choice,
}

/// The ways that are tried: sprites by each key, with each choice.
pub const WAYS: [Way; 10] = [
    Way {
        key: Key::Area,
        choice: Choice::Roomiest,
    },
    Way {
        key: Key::Area,
        choice: Choice::Tightest,
    },
    Way {
        key: Key::Height,
        choice: Choice::Tightest,
    },
    Way {
        key: Key::LesserSide,
        choice: Choice::Tightest,
    },
    Way {
        key: Key::GreaterSide,
        choice: Choice::Tightest,
    },
    Way {
        key: Key::HeightTimesGreaterSide,
        choice: Choice::Tightest,
    },
    Way {
        key: Key::Height,
        choice: Choice::Roomiest,
    },
    Way {
        key: Key::LesserSide,
        choice: Choice::Roomiest,
    },
    Way {
        key: Key::GreaterSide,
        choice: Choice::Roomiest,
    },
    Way {
        key: Key::HeightTimesGreaterSide,
        choice: Choice::Roomiest,
    },
];

/// How many of `WAYS` a sheet with so many sprites is filled by: all ten up to 1,200 sprites, fewer for more, so that
/// they ask for some 12,000 places together; at least the first.
#[inline]
#[must_use]
pub fn ways_tried(sprites: usize) -> usize {
    (12000 / sprites.max(1)).clamp(1, 10)
}
