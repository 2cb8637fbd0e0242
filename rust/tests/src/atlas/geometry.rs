//! Sizes, boxes and options.

use guillotiere_tests::tables::{rectangle, size};
use wollemigo_core::guillotiere::{point2, size2, AllocatorOptions, Rectangle, DEFAULT_OPTIONS};

#[test]
fn boxes_are_measured() {
    let too_wide = rectangle((-1, 0, 2147483647, 5));
    assert!(!too_wide.is_measurable());
    let backward = rectangle((0, 0, -5, -5));
    assert!(backward.is_measurable());
    assert!(backward.width() == -5 && backward.height() == -5);
    assert!(backward.size() == size2(-5, -5) && backward.is_empty());
}

#[test]
fn boxes_have_corners() {
    assert!(!rectangle((0, 0, 1, 1)).is_empty());
    assert_eq!(Rectangle::from(size2(3, 4)), rectangle((0, 0, 3, 4)));
    assert_eq!(rectangle((1, 2, 3, 4)).max, point2(3, 4));
}

#[test]
fn sizes_are_empty_at_zero_and_below() {
    for (sides, want) in [
        ((1, 1), false),
        ((0, 5), true),
        ((5, 0), true),
        ((-3, 5), true),
    ] {
        assert_eq!(size(sides).is_empty(), want, "{sides:?}");
    }
}

#[test]
fn sizes_are_positive_above_zero() {
    for (sides, want) in [
        ((1, 1), true),
        ((0, 5), false),
        ((5, 0), false),
        ((-3, 5), false),
    ] {
        assert_eq!(size(sides).is_positive(), want, "{sides:?}");
    }
}

#[test]
fn options_have_defaults() {
    let default = AllocatorOptions::default();
    assert!(default == DEFAULT_OPTIONS && default.alignment == size2(1, 1));
    assert!(default.small_size_threshold == 32 && default.large_size_threshold == 256);
}

#[test]
fn options_are_tested() {
    let table = [
        ((1, 1), -2147483648, 2147483647, true),
        ((1, 1), 33, 32, false),
        ((1, 0), 32, 256, false),
        ((0, 1), 32, 256, false),
        ((8, 8), -1, -1, true),
    ];
    for (alignment, small, large, want) in table {
        let options = AllocatorOptions {
            alignment: size(alignment),
            small_size_threshold: small,
            large_size_threshold: large,
        };
        assert_eq!(options.is_valid(), want, "{alignment:?} {small} {large}");
    }
}
