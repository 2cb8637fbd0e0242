//! Sprites on several sheets.

use super::filling::{are_apart, is_good, sheet_options, sprites_of, upright};
use test_memory::Refusing;
use wollemigo_core::atlas_sheet::{pack_pages, Allowed, OnPage, SheetError, SheetOptions};
use wollemigo_core::guillotiere::{size2, Size};
use wollemigo_support::alloc::Global;

// The size of a sheet, if there is one with this number.
fn size_of(sizes: &[Size], page: usize) -> Size {
    sizes.get(page).copied().unwrap_or(size2(0, 0))
}

// Four sprites of 4 pixels fill a square of 8; a fifth lies alone on a square of its own size. Where one size alone is
// allowed, the second sheet has it too.
#[test]
fn one_more_than_fits() {
    let four = size2(4, 4);
    let sprites = [four, four, four, four, four];
    for (least, last) in [(1, 4), (8, 8)] {
        let options = SheetOptions::new(Allowed::Squares { least, greatest: 8 });
        let found = pack_pages(Global, &sprites, &options).expect("memory");
        let pages = found.expect("sheets");
        assert_eq!(pages.sizes.len(), 2);
        assert_eq!(size_of(&pages.sizes, 0), size2(8, 8));
        assert_eq!(size_of(&pages.sizes, 1), size2(last, last));
        assert_eq!(
            pages.places.iter().filter(|place| place.page == 0).count(),
            4
        );
        let fifth = OnPage {
            page: 1,
            placed: upright(0, 0, 4, 4),
        };
        assert_eq!(
            pages.places.iter().filter(|place| **place == fifth).count(),
            1
        );
    }
}

// The places are in the order of the sprites. Several ways fill the first sheet, and the last of them is taken: by height
// times greater side all four count 36, and the first two lie there. The others are packed by area, the great one first.
#[test]
fn order_of_places() {
    let sprites = [size2(2, 6), size2(6, 6), size2(6, 6), size2(2, 6)];
    let options = sheet_options(size2(8, 6), 0);
    let found = pack_pages(Global, &sprites, &options).expect("memory");
    let pages = found.expect("sheets");
    assert!(pages.sizes.len() == 2 && pages.places.len() == 4);
    let rows = [(0, 0, 0, 2), (1, 0, 2, 8), (2, 1, 0, 6), (3, 1, 6, 8)];
    for (number, page, left, right) in rows {
        let place = OnPage {
            page,
            placed: upright(left, 0, right, 6),
        };
        assert_eq!(
            pages.places.get(number).copied(),
            Some(place),
            "sprite {number}"
        );
    }
}

// No sprites have no sheets. A sprite that fits no empty sheet, and nothing is packed. Bad input is told.
#[test]
fn none_and_refused() {
    let options = sheet_options(size2(8, 8), 1);
    let none = pack_pages(Global, &[], &options).expect("memory");
    let pages = none.expect("sheets");
    assert!(pages.sizes.is_empty() && pages.places.is_empty());
    let fits = pack_pages(Global, &[size2(6, 6), size2(6, 1)], &options).expect("memory");
    assert!(fits.is_some());
    let wide = pack_pages(Global, &[size2(6, 6), size2(7, 1)], &options).expect("memory");
    assert!(wide.is_none());
    let empty = pack_pages(Global, &[size2(6, 6), size2(7, 0)], &options);
    assert_eq!(empty.err(), Some(SheetError::EmptySprite(1)));
}

// Where sprites may be turned, None says that one is too large both ways: 8 x 2 fits 2 x 8, and 3 x 3 doesn't.
#[test]
fn too_large_both_ways() {
    for (turn, sprite, found) in [
        (false, size2(8, 2), false),
        (true, size2(8, 2), true),
        (true, size2(3, 3), false),
    ] {
        let options = SheetOptions {
            turn,
            ..sheet_options(size2(2, 8), 0)
        };
        let pages = pack_pages(Global, &[sprite], &options).expect("memory");
        assert_eq!(pages.is_some(), found);
    }
}

// Random sprites: each lies on a sheet, and apart from those on the same one; no sheet is empty.
#[test]
fn random_sprites() {
    for (seed, padding, effort) in [(1, 0, 0), (2, 1, 0), (3, 2, 20)] {
        let sprites = sprites_of(seed, 90, 40);
        let options = SheetOptions {
            effort,
            ..sheet_options(size2(100, 90), padding)
        };
        let found = pack_pages(Global, &sprites, &options).expect("memory");
        let pages = found.expect("sheets");
        assert!(pages.places.len() == sprites.len() && pages.sizes.len() > 1);
        for page in 0..pages.sizes.len() {
            assert!(
                pages.places.iter().any(|place| place.page == page),
                "seed {seed}, sheet {page}"
            );
        }
        for (number, (sprite, place)) in sprites.iter().zip(&pages.places).enumerate() {
            let sheet = size_of(&pages.sizes, place.page);
            assert!(
                is_good(*sprite, place.placed.area, sheet, i32::from(padding)),
                "seed {seed}, sprite {number}"
            );
            for other in pages.places.iter().skip(number + 1) {
                assert!(
                    other.page != place.page
                        || are_apart(place.placed.area, other.placed.area, i32::from(padding)),
                    "seed {seed}, sprite {number}"
                );
            }
        }
    }
}

// Each request for memory refused in turn, until there are no more: the error every time, and then two sheets.
fn refuses(sprites: &[Size], options: &SheetOptions) -> bool {
    let heap = Refusing::new(Global);
    for number in 1..10_000 {
        heap.refuse_nth(number);
        let found = pack_pages(&heap, sprites, options);
        if !heap.is_done() {
            return match &found {
                Ok(Some(pages)) => pages.sizes.len() == 2 && number > 1,
                _ => false,
            };
        }
        if !matches!(&found, Err(SheetError::Memory)) {
            return false;
        }
    }
    false
}

#[test]
fn refused_memory() {
    let sprites = [size2(4, 4), size2(4, 4), size2(4, 4)];
    assert!(refuses(&sprites, &sheet_options(size2(8, 4), 0)));
}
