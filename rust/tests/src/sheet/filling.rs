//! Filled sheets.

use super::sides;
use wollemigo_core::atlas_sheet::{fill, Allowed, Placed, SheetError, SheetOptions};
use wollemigo_core::guillotiere::{point2, size2, Rectangle, Size};
use wollemigo_support::alloc::Global;

pub fn rectangle(left: i32, top: i32, right: i32, bottom: i32) -> Rectangle {
    Rectangle {
        min: point2(left, top),
        max: point2(right, bottom),
    }
}

// A sheet of this size alone.
pub fn sheet_options(size: Size, padding: u16) -> SheetOptions {
    SheetOptions {
        padding,
        ..SheetOptions::new(Allowed::One(size))
    }
}

// A place that isn't turned.
pub fn upright(left: i32, top: i32, right: i32, bottom: i32) -> Placed {
    Placed {
        area: rectangle(left, top, right, bottom),
        turned: false,
    }
}

// One place or none, the border of 1 at each side.
#[test]
fn one_sprite() {
    let sprites = [size2(10, 5)];
    let filled = fill(Global, &sprites, &sheet_options(size2(12, 7), 1)).expect("memory");
    assert_eq!(filled.places[0], Some(upright(1, 1, 11, 6)));
    assert_eq!(filled.used_area, 50);
    let narrow = fill(Global, &sprites, &sheet_options(size2(11, 7), 1)).expect("memory");
    assert_eq!(narrow.places[0], None);
    let low = fill(Global, &sprites, &sheet_options(size2(12, 6), 1)).expect("memory");
    assert!(low.places[0].is_none() && low.used_area == 0);
}

// 1 + 4 + 1 + 4 + 1 pixels hold two sprites of 4, and one pixel less holds one.
#[test]
fn two_sprites() {
    let sprites = [size2(4, 4), size2(4, 4)];
    let both = fill(Global, &sprites, &sheet_options(size2(11, 6), 1)).expect("memory");
    assert_eq!(both.places[0], Some(upright(1, 1, 5, 5)));
    assert_eq!(both.places[1], Some(upright(6, 1, 10, 5)));
    assert_eq!(both.used_area, 32);
    let one = fill(Global, &sprites, &sheet_options(size2(10, 6), 1)).expect("memory");
    assert!(one.places.len() == 2 && one.used_area == 16);
}

// By height the second sprite comes first and takes the sheet: 6 pixels. By area the first does: 8 pixels.
#[test]
fn most_pixels() {
    let sprites = [size2(8, 1), size2(2, 3)];
    let filled = fill(Global, &sprites, &sheet_options(size2(8, 3), 0)).expect("memory");
    assert_eq!(filled.used_area, 8);
    assert_eq!(filled.places[0], Some(upright(0, 0, 8, 1)));
    assert_eq!(filled.places[1], None);
}

// A padding wider than the sheet, and no sprites.
#[test]
fn nothing_placed() {
    let wide = fill(Global, &[size2(1, 1)], &sheet_options(size2(3, 3), 65535)).expect("memory");
    assert!(wide.places[0].is_none() && wide.used_area == 0);
    let none = fill(Global, &[], &sheet_options(size2(3, 3), 0)).expect("memory");
    assert!(none.places.is_empty() && none.used_area == 0);
}

// What `fill` refuses.
const REFUSED: [(&[Size], Size, SheetError); 7] = [
    (&[], sides(0, 9), SheetError::EmptySheet),
    (&[], sides(9, -1), SheetError::EmptySheet),
    (
        &[sides(1, 1), sides(1, 0)],
        sides(9, 9),
        SheetError::EmptySprite(1),
    ),
    (&[sides(-5, 2)], sides(9, 9), SheetError::EmptySprite(0)),
    (
        &[sides(2147483642, 1)],
        sides(9, 9),
        SheetError::GreatSprite(0),
    ),
    (
        &[sides(2147483641, 2147483641), sides(1, 2147483647)],
        sides(9, 9),
        SheetError::GreatSprite(1),
    ),
    (
        &[sides(1, 1), sides(2147483642, 1), sides(0, 1)],
        sides(9, 9),
        SheetError::GreatSprite(1),
    ),
];

#[test]
fn refused() {
    for (row, (sprites, size, error)) in REFUSED.iter().enumerate() {
        let found = fill(Global, sprites, &sheet_options(*size, 3));
        assert_eq!(found.err(), Some(*error), "row {row}");
    }
}

// The next of a row of numbers.
fn next(number: u64) -> u64 {
    number.wrapping_mul(48271) % 2147483647
}

// Sprites with sides from 1 to `most`.
pub fn sprites_of(seed: u32, count: usize, most: u16) -> Vec<Size> {
    let mut sprites = Vec::new();
    let mut number = u64::from(seed);
    for _ in 0..count {
        number = next(number);
        let width = number % u64::from(most) + 1;
        number = next(number);
        let height = number % u64::from(most) + 1;
        sprites.push(size2(width as i32, height as i32));
    }
    sprites
}

// Whether a place has its sprite's sides and keeps to the border.
pub fn is_good(sprite: Size, place: Rectangle, sheet: Size, padding: i32) -> bool {
    place.max.x - place.min.x == sprite.width
        && place.max.y - place.min.y == sprite.height
        && padding <= place.min.x
        && padding <= place.min.y
        && place.max.x <= sheet.width - padding
        && place.max.y <= sheet.height - padding
}

// Whether two places are at least the padding apart in one direction.
pub fn are_apart(a: Rectangle, b: Rectangle, padding: i32) -> bool {
    a.max.x + padding <= b.min.x
        || b.max.x + padding <= a.min.x
        || a.max.y + padding <= b.min.y
        || b.max.y + padding <= a.min.y
}

// Whether each place is good and apart from those after it.
fn are_good(sprites: &[Size], places: &[Option<Placed>], sheet: Size, padding: i32) -> bool {
    for (number, (sprite, found)) in sprites.iter().zip(places).enumerate() {
        let place = match found {
            Some(place) => place,
            None => continue,
        };
        if !is_good(*sprite, place.area, sheet, padding) {
            return false;
        }
        for other in places.iter().skip(number + 1).flatten() {
            if !are_apart(place.area, other.area, padding) {
                return false;
            }
        }
    }
    true
}

// Random sprites: places are good and as many as sprites, and the same a second time.
#[test]
fn random_sprites() {
    for (seed, padding) in [(1, 0), (2, 1), (3, 2), (4, 7)] {
        let sprites = sprites_of(seed, 90, 40);
        let sheet = size2(200, 150);
        let first = fill(Global, &sprites, &sheet_options(sheet, padding)).expect("a sheet");
        assert_eq!(first.places.len(), sprites.len());
        assert!(
            are_good(&sprites, &first.places, sheet, i32::from(padding)),
            "seed {seed}"
        );
        let again = fill(Global, &sprites, &sheet_options(sheet, padding)).expect("a sheet");
        assert!(again.places == first.places && again.used_area == first.used_area);
    }
}

// A sheet of 4 x 2 takes 4 x 1 and 1 x 4 where they may be turned: both lie wide.
#[test]
fn turned_to_fill() {
    for (turn, area) in [(false, 4), (true, 8)] {
        let options = SheetOptions {
            turn,
            ..sheet_options(size2(4, 2), 0)
        };
        let filled = fill(Global, &[size2(4, 1), size2(1, 4)], &options).expect("memory");
        assert_eq!(filled.used_area, area);
    }
}
