//! What an entry asks for.

use wollemigo_core::atlas_cache::{CacheOptions, Place};
use wollemigo_core::guillotiere::{
    point2, size2, AllocatorOptions, Rectangle, Size, DEFAULT_OPTIONS,
};

fn usual() -> CacheOptions {
    CacheOptions {
        page: size2(64, 32),
        largest_page: size2(128, 128),
        pages: 2,
        padding: 3,
        atlas: DEFAULT_OPTIONS,
    }
}

// With sides rounded up to multiples of 16 pixels.
fn coarse() -> CacheOptions {
    CacheOptions {
        atlas: AllocatorOptions {
            alignment: size2(16, 16),
            small_size_threshold: 32,
            large_size_threshold: 256,
        },
        ..usual()
    }
}

// What options ask for a size; None where they aren't right.
fn asked_by(options: &CacheOptions, size: Size) -> Option<Size> {
    options.check().ok()?;
    options.asked(size)
}

#[test]
fn padding_and_rounding_count() {
    let usual = usual();
    let coarse = coarse();
    assert!(usual.check().is_ok() && coarse.check().is_ok());
    assert_eq!(asked_by(&usual, size2(10, 20)), Some(size2(16, 26)));
    assert_eq!(asked_by(&usual, size2(122, 122)), Some(size2(128, 128)));
    assert_eq!(asked_by(&usual, size2(123, 1)), None);
    assert_eq!(asked_by(&usual, size2(1, 0)), None);
    assert_eq!(asked_by(&coarse, size2(10, 122)), Some(size2(16, 128)));
    let mut odd = coarse;
    odd.largest_page = size2(128, 127);
    assert!(odd.check().is_ok());
    assert_eq!(asked_by(&odd, size2(10, 106)), Some(size2(16, 112)));
    assert_eq!(asked_by(&odd, size2(10, 107)), None);
}

#[test]
fn an_entry_lies_behind_its_padding() {
    let rectangle = Rectangle {
        min: point2(16, 32),
        max: point2(48, 64),
    };
    let place = Place::new(7, 1, rectangle, size2(20, 10), 3);
    assert_eq!(place.number, 7);
    assert_eq!(place.page, 1);
    assert_eq!(place.rectangle, rectangle);
    assert_eq!(place.inner.min, point2(19, 35));
    assert_eq!(place.inner.max, point2(39, 45));
}
