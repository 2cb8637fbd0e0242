//! The bands of sides: those of the usual thresholds, which a table has, and those of others.

use wollemigo_core::atlas_search::bands::Scale;
use wollemigo_core::guillotiere::{size2, AllocatorOptions, DEFAULT_OPTIONS};

fn scale(small: i32, large: i32) -> AllocatorOptions {
    AllocatorOptions {
        small_size_threshold: small,
        large_size_threshold: large,
        ..DEFAULT_OPTIONS
    }
}

// The rule of docs/SLOTS.md: a band for each pixel below 16, for 2 below 64, for 8 below 128, for 64 below 256 and for all
// above; and one more from each threshold on.
fn band(side: i32, small: i32, large: i32) -> usize {
    let steps = (1..=side.min(256)).filter(|&at| match at {
        2..=16 => true,
        17..=64 => at % 2 == 0,
        65..=128 => at % 8 == 0,
        _ => at == 192 || at == 256,
    });
    steps.count() + usize::from(side >= small) + usize::from(side >= large)
}

#[test]
fn usual_bands_begin_where_they_should() {
    let usual = Scale::new(&DEFAULT_OPTIONS);
    for (side, want) in [
        (1, 0),
        (15, 14),
        (16, 15),
        (17, 15),
        (31, 22),
        (32, 24),
        (63, 39),
        (64, 40),
        (127, 47),
        (128, 48),
        (191, 48),
        (192, 49),
        (255, 49),
        (256, 51),
        (i32::MAX, 51),
    ] {
        let place = usual.place_for(size2(side, 1));
        assert_eq!((place.row, place.column), (want, 0), "{side}");
    }
}

#[test]
fn each_side_has_the_band_of_the_rule() {
    let mut kept = Scale::new(&DEFAULT_OPTIONS);
    for (small, large) in [
        (32, 256),
        (31, 256),
        (32, 255),
        (32, 257),
        (30, 250),
        (0, 0),
        (32, 256),
        (256, 256),
        (300, 5000),
    ] {
        kept.set(&scale(small, large));
        for side in 1..600 {
            let place = kept.place_for(size2(side, 600 - side));
            let want = (band(side, small, large), band(600 - side, small, large));
            assert_eq!((place.row, place.column), want, "{side} {small} {large}");
        }
    }
}
