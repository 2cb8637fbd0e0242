//! Packed sheets.

use super::filling::{are_apart, is_good, sprites_of, upright};
use super::sides;
use guillotiere_tests::tables::rectangle;
use wollemigo_core::atlas_sheet::{
    pack, pack_dense, pack_pages, Allowed, Placed, SheetError, SheetOptions,
};
use wollemigo_core::guillotiere::{size2, Size};
use wollemigo_support::alloc::Global;

const NO_SIZE: Size = sides(0, 4);

// Four sprites of 5 pixels need 1 + 5 + 1 + 5 + 1 in each direction.
#[test]
fn four_sprites() {
    let sprites = [size2(5, 5), size2(5, 5), size2(5, 5), size2(5, 5)];
    for (least, greatest, side) in [(1, 100, 13), (20, 100, 20), (1, 13, 13), (1, 12, 0)] {
        let options = SheetOptions {
            padding: 1,
            ..SheetOptions::new(Allowed::Squares { least, greatest })
        };
        let found = pack(Global, &sprites, &options).expect("memory");
        let size = found.map(|sheet| sheet.size);
        assert!(
            size == if side == 0 {
                None
            } else {
                Some(size2(side, side))
            }
        );
    }
}

// Each kind of sheets, worked by hand: two sprites of 4 x 3 pixels.
#[test]
fn kinds_of_sheets() {
    let rows = [
        (Allowed::One(size2(9, 9)), Some(size2(9, 9))),
        (Allowed::One(size2(4, 5)), None),
        (Allowed::Powers { greatest: 64 }, Some(size2(8, 4))),
        (Allowed::Powers { greatest: 4 }, None),
        (
            Allowed::Heights {
                width: 8,
                greatest: 50,
            },
            Some(size2(8, 3)),
        ),
        (
            Allowed::Heights {
                width: 7,
                greatest: 50,
            },
            Some(size2(7, 6)),
        ),
        (
            Allowed::Heights {
                width: 3,
                greatest: 50,
            },
            None,
        ),
    ];
    for (row, (allowed, size)) in rows.iter().enumerate() {
        let options = SheetOptions::new(*allowed);
        let found = pack(Global, &[size2(4, 3), size2(4, 3)], &options).expect("memory");
        assert_eq!(found.map(|sheet| sheet.size), *size, "row {row}");
    }
}

// Squares, worked by hand: of a single sprite's greater side; four of 8 x 8 fill one of 16; two of 5 x 8 lie beside each
// other in 10 x 8; and one of 17 x 1 is a pixel too wide.
#[test]
fn squares() {
    let (small, high) = (size2(8, 8), size2(5, 8));
    let rows: [(&[Size], i32, i32, Option<i32>); 6] = [
        (&[size2(5, 3)], 1, 64, Some(5)),
        (&[small; 4], 1, 64, Some(16)),
        (&[high; 2], 1, 64, Some(10)),
        (&[high; 2], 12, 64, Some(12)),
        (&[], 3, 64, Some(3)),
        (&[size2(17, 1)], 1, 16, None),
    ];
    for (row, (sprites, least, greatest, side)) in rows.iter().enumerate() {
        let options = SheetOptions::new(Allowed::Squares {
            least: *least,
            greatest: *greatest,
        });
        let found = pack(Global, sprites, &options).expect("memory");
        let size = side.map(|side| size2(side, side));
        assert_eq!(found.map(|sheet| sheet.size), size, "row {row}");
    }
}

// A single sprite lies in the corner of its square, as it was given.
#[test]
fn one_sprite() {
    let options = SheetOptions::new(Allowed::Squares {
        least: 1,
        greatest: 64,
    });
    let found = pack(Global, &[size2(5, 3)], &options).expect("memory");
    let corner = Placed {
        area: rectangle((0, 0, 5, 3)),
        turned: false,
    };
    assert_eq!(found.expect("a sheet").places, [corner]);
}

// Places stand in the order of the sprites: the great one, which is placed first, is the second.
#[test]
fn order_of_places() {
    let options = SheetOptions::new(Allowed::One(size2(8, 6)));
    let found = pack(Global, &[size2(2, 6), size2(6, 6)], &options).expect("memory");
    let sheet = found.expect("a sheet");
    assert_eq!(sheet.places.len(), 2);
    assert_eq!(sheet.places[0], upright(6, 0, 8, 6));
    assert_eq!(sheet.places[1], upright(0, 0, 6, 6));
}

// Where sprites may be turned one of 2 x 1 has room in 1 x 2, without effort too.
#[test]
fn turned_without_effort() {
    for (turn, found) in [(false, false), (true, true)] {
        let options = SheetOptions {
            turn,
            ..SheetOptions::new(Allowed::One(size2(1, 2)))
        };
        let sheet = pack(Global, &[size2(2, 1)], &options).expect("memory");
        assert_eq!(sheet.is_some(), found);
    }
}

// How many sprites lie turned in the lowest sheet of this width, and how high it is.
fn lowest(width: i32, sprites: &[Size]) -> Option<(i32, usize)> {
    let options = SheetOptions {
        turn: true,
        ..SheetOptions::new(Allowed::Heights { width, greatest: 9 })
    };
    let sheet = pack(Global, sprites, &options).ok()??;
    let turned = sheet.places.iter().filter(|placed| placed.turned).count();
    Some((sheet.size.height, turned))
}

// As they are given two sprites of 4 x 1 and 1 x 4 lie 5 high in a width of 4, both high 4, and both wide 2. Three of 2 x 1,
// 1 x 2 and 1 x 2 lie 3 high in a width of 3, and all high 2.
#[test]
fn all_wide_or_all_high() {
    let wide = lowest(4, &[size2(4, 1), size2(1, 4)]);
    assert_eq!(wide, Some((2, 1)));
    let high = lowest(3, &[size2(2, 1), size2(1, 2), size2(1, 2)]);
    assert_eq!(high, Some((2, 1)));
}

// A place takes multiples of the alignment at the right and the lower border too: 33 pixels take 48 at alignment 16.
#[test]
fn aligned_at_the_border() {
    let options = SheetOptions {
        alignment: size2(16, 16),
        ..SheetOptions::new(Allowed::Squares {
            least: 1,
            greatest: 100,
        })
    };
    let found = pack(Global, &[size2(33, 33)], &options).expect("memory");
    assert_eq!(found.map(|sheet| sheet.size), Some(size2(48, 48)));
}

// The padding at the right and below comes after the rounding: 1 and 1, rounded up to 4, and 1.
#[test]
fn padding_after_the_rounding() {
    let sprite = [size2(1, 1)];
    for (side, has_room) in [(4, false), (5, true)] {
        let options = SheetOptions {
            padding: 1,
            alignment: size2(4, 4),
            ..SheetOptions::new(Allowed::Squares {
                least: 1,
                greatest: side,
            })
        };
        let found = pack(Global, &sprite, &options).expect("memory");
        let wanted = if has_room { Some(size2(5, 5)) } else { None };
        assert_eq!(found.map(|sheet| sheet.size), wanted);
        let dense = pack_dense(Global, &sprite, &options).expect("memory");
        assert_eq!(dense.map(|sheet| sheet.size), wanted);
        let pages = pack_pages(Global, &sprite, &options).expect("memory");
        assert_eq!(pages.is_some(), has_room);
    }
}

// Sprites that count alike by a key keep their order, and may find a sheet in one order only.
#[test]
fn order_of_equal_sprites() {
    let options = SheetOptions::new(Allowed::Heights {
        width: 2,
        greatest: 3,
    });
    let high_first = [size2(1, 2), size2(2, 1)];
    let none = pack(Global, &high_first, &options).expect("memory");
    assert!(none.is_none());
    let wide_first = [size2(2, 1), size2(1, 2)];
    let found = pack(Global, &wide_first, &options).expect("memory");
    assert_eq!(found.map(|sheet| sheet.size), Some(size2(2, 3)));
}

// What `pack` refuses.
#[test]
fn refused_options() {
    let rows = [
        (Allowed::One(NO_SIZE), SheetError::EmptySheet),
        (
            Allowed::Squares {
                least: 0,
                greatest: 9,
            },
            SheetError::EmptySheet,
        ),
        (
            Allowed::Squares {
                least: 10,
                greatest: 9,
            },
            SheetError::EmptyRange,
        ),
        (Allowed::Powers { greatest: 0 }, SheetError::EmptyRange),
        (
            Allowed::Heights {
                width: 0,
                greatest: 9,
            },
            SheetError::EmptySheet,
        ),
        (
            Allowed::Heights {
                width: 9,
                greatest: -1,
            },
            SheetError::EmptyRange,
        ),
        (Allowed::Powers { greatest: 8 }, SheetError::EmptySprite(1)),
    ];
    for (row, (allowed, error)) in rows.iter().enumerate() {
        let options = SheetOptions::new(*allowed);
        let found = pack(Global, &[size2(1, 1), NO_SIZE], &options);
        assert_eq!(found.err(), Some(*error), "row {row}");
    }
}

// The same of squares for no sprites, and for one that is empty.
#[test]
fn refused_squares() {
    let rows: [(&[Size], i32, i32, SheetError); 3] = [
        (&[], 0, 9, SheetError::EmptySheet),
        (&[], 9, 8, SheetError::EmptyRange),
        (&[size2(1, 0)], 1, 8, SheetError::EmptySprite(0)),
    ];
    for (row, (sprites, least, greatest, error)) in rows.iter().enumerate() {
        let options = SheetOptions::new(Allowed::Squares {
            least: *least,
            greatest: *greatest,
        });
        let found = pack(Global, sprites, &options);
        assert_eq!(found.err(), Some(*error), "row {row}");
    }
}

// Whether each place is good and apart from those after it.
fn all_good(sprites: &[Size], places: &[Placed], sheet: Size, padding: i32) -> bool {
    for (number, (sprite, place)) in sprites.iter().zip(places).enumerate() {
        if !is_good(*sprite, place.area, sheet, padding) {
            return false;
        }
        for other in places.iter().skip(number + 1) {
            if !are_apart(place.area, other.area, padding) {
                return false;
            }
        }
    }
    true
}

// Inputs: the seed and the number of random sprites, the padding, and what is allowed.
const INPUTS: [(u32, usize, u16, Allowed); 5] = [
    (
        1,
        60,
        0,
        Allowed::Squares {
            least: 1,
            greatest: 2000,
        },
    ),
    (
        2,
        60,
        1,
        Allowed::Squares {
            least: 1,
            greatest: 2000,
        },
    ),
    (3, 60, 2, Allowed::Powers { greatest: 1024 }),
    (
        4,
        60,
        3,
        Allowed::Heights {
            width: 200,
            greatest: 1000,
        },
    ),
    (5, 60, 0, Allowed::One(sides(300, 260))),
];

// Random sprites: places are good and as many as sprites, and the same a second time.
#[test]
fn random_sprites() {
    for (seed, count, padding, allowed) in INPUTS {
        let sprites = sprites_of(seed, count, 40);
        let options = SheetOptions {
            padding,
            ..SheetOptions::new(allowed)
        };
        let first = pack(Global, &sprites, &options).expect("memory");
        let sheet = first.expect("a sheet");
        assert_eq!(sheet.places.len(), sprites.len());
        assert!(
            all_good(&sprites, &sheet.places, sheet.size, i32::from(padding)),
            "seed {seed}"
        );
        let second = pack(Global, &sprites, &options).expect("memory");
        let again = second.expect("a sheet");
        assert!(again.places == sheet.places && again.size == sheet.size);
    }
}
