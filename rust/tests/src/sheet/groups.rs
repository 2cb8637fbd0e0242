//! Sprites in groups on several sheets.

use super::filling::{are_apart, is_good, sheet_options, sprites_of};
use test_memory::Refusing;
use wollemigo_core::atlas_sheet::{pack_groups, Allowed, OnPage, Pages, SheetError, SheetOptions};
use wollemigo_core::guillotiere::{size2, Size};
use wollemigo_support::alloc::Global;

// Squares up to this side.
fn squares(greatest: i32) -> SheetOptions {
    SheetOptions::new(Allowed::Squares { least: 1, greatest })
}

// The sheets of the sprites as digits of a number.
fn digits(pages: &Pages) -> u64 {
    let mut digits: u64 = 0;
    for place in &pages.places {
        digits = digits * 10 + place.page as u64;
    }
    digits
}

// Six squares of 4, of which a square of 8 takes four. Each row: the group of each, 9 for none, and then its sheet.
const ROWS: [([usize; 6], u64); 11] = [
    // A second group of three has no room beside the first.
    ([1, 2, 2, 2, 1, 1], 11100),
    ([1, 2, 1, 2, 1, 2], 10101),
    // A second group of two has, and a third hasn't.
    ([1, 1, 2, 2, 3, 3], 11),
    // The first of three sprites in no group fills the sheet.
    ([9, 1, 1, 1, 9, 9], 11),
    // A group comes before sprites in no group, of which two have room beside it.
    ([9, 9, 9, 9, 1, 1], 1100),
    // No square of 8 takes five: they are placed as sprites in no group.
    ([1, 1, 1, 1, 1, 9], 11),
    // They are given up before the first sheet is begun, so three of them lie beside the other group.
    ([2, 1, 1, 1, 1, 1], 11),
    // A group of three has no room beside one of two, and the next, of one, has.
    ([1, 1, 2, 2, 2, 3], 1110),
    // Beside a group of one there is room for three of five in no group, the first ones.
    ([1, 9, 9, 9, 9, 9], 11),
    ([9, 9, 9, 9, 9, 1], 110),
    ([9, 9, 9, 9, 9, 9], 11),
];

#[test]
fn six_squares() {
    let sprites = [size2(4, 4); 6];
    for (numbers, wanted) in ROWS {
        let groups = numbers.map(|number| if number == 9 { None } else { Some(number) });
        let found = pack_groups(Global, &sprites, &groups, &squares(8)).expect("memory");
        let pages = found.expect("sheets");
        assert!(
            digits(&pages) == wanted && pages.sizes.len() == 2,
            "{numbers:?}"
        );
    }
}

// Sheets of 8 x 1, and sprites of one pixel: so many in no group, and one in a group. It lies on the first sheet, with the first
// seven of the others; eight more lie on each sheet after it.
#[test]
fn as_many_as_there_is_room_for() {
    for many in 0..24 {
        let sprites = vec![size2(1, 1); many + 1];
        let mut groups = vec![None; many];
        groups.push(Some(3));
        let options = sheet_options(size2(8, 1), 0);
        let found = pack_groups(Global, &sprites, &groups, &options).expect("memory");
        let pages = found.expect("sheets");
        for (number, place) in pages.places.iter().enumerate() {
            let wanted = if number == many { 0 } else { (number + 1) / 8 };
            assert_eq!(place.page, wanted, "{number} of {many}");
        }
    }
}

// Squares up to 10 of sprites of 8, 4 and 2: 8 and 4 have no room on one, and each sheet is as small as it can be. The
// list of groups may be shorter than that of the sprites, or longer. Each row: the groups, the sheets and their sides.
#[test]
fn sides_of_sheets() {
    let sprites = [size2(8, 8), size2(4, 4), size2(2, 2)];
    let rows = [
        (&[Some(1)][..], 11, [8, 6]),
        (&[None, Some(0), Some(0), Some(0)][..], 100, [6, 8]),
        (&[Some(3), None, Some(3)][..], 10, [10, 4]),
    ];
    for (groups, wanted, sides) in rows {
        let found = pack_groups(Global, &sprites, groups, &squares(10)).expect("memory");
        let pages = found.expect("sheets");
        let sizes = sides.map(|side| size2(side, side));
        assert!(
            digits(&pages) == wanted && pages.sizes.as_slice() == sizes,
            "{groups:?}"
        );
    }
}

// A group that has room only turned lies on one sheet where that is allowed: 8 x 2 twice in 4 x 8.
#[test]
fn turned_together() {
    let sprites = [size2(8, 2), size2(2, 8)];
    for (turn, found) in [(true, true), (false, false)] {
        let options = SheetOptions {
            turn,
            ..sheet_options(size2(4, 8), 0)
        };
        let groups = [Some(5), Some(5)];
        let pages = pack_groups(Global, &sprites, &groups, &options).expect("memory");
        let is_one = pages.map_or(false, |pages| pages.sizes.len() == 1);
        assert_eq!(is_one, found);
    }
}

// No sprites have no sheets. A sprite that fits no empty sheet, and nothing is packed. Bad input is told.
#[test]
fn none_and_refused() {
    let options = sheet_options(size2(8, 8), 1);
    let groups = [Some(1), Some(1)];
    let none = pack_groups(Global, &[], &groups, &options).expect("memory");
    let pages = none.expect("sheets");
    assert!(pages.sizes.is_empty() && pages.places.is_empty());
    let wide = pack_groups(Global, &[size2(2, 2), size2(7, 1)], &groups, &options);
    assert!(wide.expect("memory").is_none());
    let empty = pack_groups(Global, &[size2(2, 2), size2(7, 0)], &groups, &options);
    assert_eq!(empty.err(), Some(SheetError::EmptySprite(1)));
}

// Whether the two places are apart, or on two sheets; and on one sheet, if the sprites are in one group.
fn fit(one: OnPage, other: OnPage, is_group: bool, padding: i32) -> bool {
    if one.page == other.page {
        are_apart(one.placed.area, other.placed.area, padding)
    } else {
        !is_group
    }
}

// The number of a sprite's group, of seven; a third of the sprites are in none.
fn group_of(number: usize) -> Option<usize> {
    if number % 3 == 0 {
        None
    } else {
        Some(number / 3 % 7)
    }
}

// Random sprites: each lies on a sheet, and apart from those on the same one; those of a group on one sheet.
#[test]
fn random_sprites() {
    for (seed, padding, effort) in [(1, 0, 0), (2, 1, 0), (3, 2, 20)] {
        let sprites = sprites_of(seed, 60, 24);
        let groups: Vec<_> = (0..sprites.len()).map(group_of).collect();
        let options = SheetOptions {
            effort,
            ..sheet_options(size2(90, 80), padding)
        };
        let found = pack_groups(Global, &sprites, &groups, &options).expect("memory");
        let pages = found.expect("sheets");
        assert!(pages.places.len() == sprites.len() && pages.sizes.len() > 1);
        for (number, place) in pages.places.iter().enumerate() {
            let sheet = pages.sizes.get(place.page).copied().unwrap_or(size2(0, 0));
            assert!(is_good(
                sprites[number],
                place.placed.area,
                sheet,
                i32::from(padding)
            ));
            for (other, there) in pages.places.iter().enumerate().skip(number + 1) {
                let is_group = group_of(number).is_some() && group_of(number) == group_of(other);
                assert!(
                    fit(*place, *there, is_group, i32::from(padding)),
                    "seed {seed}"
                );
            }
        }
    }
}

// Each request for memory refused in turn, until there are no more: the error every time, and then two sheets.
fn refuses(sprites: &[Size], groups: &[Option<usize>]) -> bool {
    let heap = Refusing::new(Global);
    for number in 1..10_000 {
        heap.refuse_nth(number);
        let found = pack_groups(&heap, sprites, groups, &squares(8));
        if !heap.is_done() {
            return match &found {
                Ok(Some(pages)) => pages.sizes.len() == 2 && number > 1,
                _ => false,
            };
        }
        if !matches!(&found, Err(SheetError::Memory)) {
            return false;
        }
    }
    false
}

#[test]
fn refused_memory() {
    let sprites = [size2(4, 4); 6];
    let groups = [None, Some(1), Some(2), Some(1), Some(2), Some(2)];
    assert!(refuses(&sprites, &groups));
}
