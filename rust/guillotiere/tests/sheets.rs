//! Sheets of sprites that are known beforehand.
#![cfg(feature = "sheet")]
use guillotiere::sheet::*;
use guillotiere::*;

fn squares(greatest: i32) -> SheetOptions {
    SheetOptions::new(Allowed::Squares { least: 1, greatest })
}

fn area(x: i32, y: i32, width: i32, height: i32) -> Rectangle {
    Rectangle {
        min: point2(x, y),
        max: point2(x + width, y + height),
    }
}

#[test]
fn one_sprite_with_padding() {
    // With a pixel round it a sprite of 3 by 5 takes a square with sides of 7.
    let options = SheetOptions {
        padding: 1,
        ..squares(64)
    };
    let sheet = pack(&[size2(3, 5)], &options).unwrap().unwrap();
    assert_eq!(sheet.size, size2(7, 7));
    assert_eq!(
        sheet.places,
        [Placed {
            area: area(1, 1, 3, 5),
            turned: false
        }]
    );
}

#[test]
fn kinds_of_sheets() {
    let sprites = [size2(4, 4), size2(4, 4)];
    let size_of = |allowed| {
        pack(&sprites, &SheetOptions::new(allowed))
            .unwrap()
            .map(|sheet| sheet.size)
    };
    assert_eq!(size_of(Allowed::One(size2(20, 10))), Some(size2(20, 10)));
    assert_eq!(size_of(Allowed::One(size2(7, 7))), None);
    assert_eq!(
        size_of(Allowed::Squares {
            least: 1,
            greatest: 64
        }),
        Some(size2(8, 8))
    );
    assert_eq!(
        size_of(Allowed::Squares {
            least: 1,
            greatest: 7
        }),
        None
    );
    assert_eq!(
        size_of(Allowed::Heights {
            width: 8,
            greatest: 64
        }),
        Some(size2(8, 4))
    );
    let size = size_of(Allowed::Powers { greatest: 64 }).unwrap();
    assert_eq!(
        (size.width.max(size.height), size.width.min(size.height)),
        (8, 4)
    );
}

#[test]
fn a_sheet_with_no_whole_cuts() {
    // By height they come as 10 x 6, 6 x 4, 4 x 2 and 4 x 2, and fill 10 x 10.
    let sprites = [size2(4, 2), size2(10, 6), size2(4, 2), size2(6, 4)];
    let sheet = pack_dense(&sprites, &squares(20)).unwrap().unwrap();
    assert_eq!((sheet.size, sheet.used_area), (size2(10, 10), 100));
    assert_eq!(
        sheet.places.iter().map(|it| it.area).collect::<Vec<_>>(),
        [area(6, 6, 4, 2), area(0, 0, 10, 6), area(6, 8, 4, 2), area(0, 6, 6, 4)]
    );
    assert_eq!(pack_dense(&sprites, &squares(9)), Ok(None));
}

#[test]
fn a_turned_sprite() {
    let options = SheetOptions {
        effort: 100,
        ..SheetOptions::new(Allowed::One(size2(8, 4)))
    };
    assert_eq!(pack(&[size2(4, 8)], &options), Ok(None));
    let sheet = pack(
        &[size2(4, 8)],
        &SheetOptions {
            turn: true,
            ..options
        },
    )
    .unwrap()
    .unwrap();
    assert_eq!(
        sheet.places,
        [Placed {
            area: area(0, 0, 8, 4),
            turned: true
        }]
    );
}

#[test]
fn places_are_apart() {
    let sprites: Vec<Size> = (0..100)
        .map(|i| size2(5 + 7 * i % 31, 4 + 11 * i % 23))
        .collect();
    let options = SheetOptions {
        padding: 2,
        alignment: size2(4, 2),
        effort: 200,
        seed: 5,
        ..squares(1024)
    };
    let sheet = pack(&sprites, &options).unwrap().unwrap();
    assert_eq!(sheet.places.len(), 100);
    for (sprite, placed) in sprites.iter().zip(&sheet.places) {
        assert_eq!(
            placed.area,
            area(
                placed.area.min.x,
                placed.area.min.y,
                sprite.width,
                sprite.height
            )
        );
        assert!(placed.area.min.x >= 2 && placed.area.max.x + 2 <= sheet.size.width);
        assert!(placed.area.min.y >= 2 && placed.area.max.y + 2 <= sheet.size.height);
        assert_eq!(
            ((placed.area.min.x - 2) % 4, (placed.area.min.y - 2) % 2),
            (0, 0)
        );
    }
    for (number, one) in sheet.places.iter().enumerate() {
        for other in &sheet.places[..number] {
            let (a, b) = (one.area, other.area);
            assert!(
                a.max.x + 2 <= b.min.x
                    || b.max.x + 2 <= a.min.x
                    || a.max.y + 2 <= b.min.y
                    || b.max.y + 2 <= a.min.y
            );
        }
    }
    assert_eq!(pack(&sprites, &options), Ok(Some(sheet)));
}

#[test]
fn several_sheets_and_a_filled_one() {
    let sprites = [size2(4, 4); 5];
    let pages = pack_pages(&sprites, &squares(8)).unwrap().unwrap();
    assert_eq!(pages.sizes, [size2(8, 8), size2(4, 4)]);
    let on = |page| pages.places.iter().filter(move |place| place.page == page);
    assert_eq!((on(0).count(), on(1).count()), (4, 1));
    assert_eq!(on(1).next().unwrap().placed.area, area(0, 0, 4, 4));
    let mut corners: Vec<_> = on(0).map(|place| place.placed.area.min).collect();
    corners.sort_by_key(|corner| (corner.y, corner.x));
    assert_eq!(
        corners,
        [point2(0, 0), point2(4, 0), point2(0, 4), point2(4, 4)]
    );
    let filled = fill(&sprites, &squares(8)).unwrap();
    assert_eq!((filled.size, filled.used_area), (size2(8, 8), 64));
    assert_eq!(filled.places.iter().flatten().count(), 4);
    let wide = [size2(4, 4), size2(9, 1)];
    assert_eq!(pack_pages(&wide, &squares(8)), Ok(None));
    let none = pack_pages(&[], &squares(8)).unwrap().unwrap();
    assert!(none.sizes.is_empty() && none.places.is_empty());
    let empty = [size2(4, 4), size2(1, 0)];
    assert_eq!(
        pack_pages(&empty, &squares(8)),
        Err(SheetError::EmptySprite(1))
    );
}

#[test]
fn groups_on_several_sheets() {
    // Six squares of 4, of which a square of 8 takes four: the group of each, 9 for none, and then its sheet.
    let rows = [
        ([0, 1, 0, 1, 0, 1], [0, 1, 0, 1, 0, 1]),
        ([7, 7, 0, 0, 3, 3], [0, 0, 0, 0, 1, 1]),
        ([9, 1, 1, 1, 9, 9], [0, 0, 0, 0, 1, 1]),
        ([9, 9, 9, 9, 1, 1], [0, 0, 1, 1, 0, 0]),
        ([1, 1, 1, 1, 1, 9], [0, 0, 0, 0, 1, 1]),
    ];
    let sprites = [size2(4, 4); 6];
    for (numbers, wanted) in rows {
        let groups = numbers.map(|number| Some(number).filter(|number| *number != 9));
        let found = pack_groups(&sprites, &groups, &squares(8));
        let pages = found.unwrap().unwrap();
        assert_eq!(pages.sizes.len(), 2);
        let sheets: Vec<usize> = pages.places.iter().map(|place| place.page).collect();
        assert_eq!(sheets, wanted, "{:?}", numbers);
    }
    let none = pack_groups(&sprites, &[], &squares(8));
    assert_eq!(none, pack_pages(&sprites, &squares(8)));
    let wide = [size2(4, 4), size2(9, 1)];
    assert_eq!(pack_groups(&wide, &[Some(0); 2], &squares(8)), Ok(None));
    let empty = [size2(4, 4), size2(1, 0)];
    assert_eq!(
        pack_groups(&empty, &[Some(0); 3], &squares(8)),
        Err(SheetError::EmptySprite(1))
    );
}

#[test]
fn no_sprites() {
    let sheet = pack(
        &[],
        &SheetOptions::new(Allowed::Squares {
            least: 3,
            greatest: 9,
        }),
    )
    .unwrap()
    .unwrap();
    assert_eq!((sheet.size, sheet.places.len()), (size2(3, 3), 0));
}

#[test]
fn bad_input_has_a_name() {
    let sprites = [size2(3, 5), size2(0, 5)];
    assert_eq!(pack(&sprites, &squares(9)), Err(SheetError::EmptySprite(1)));
    assert_eq!(pack(&sprites, &squares(0)), Err(SheetError::EmptyRange));
    let none = SheetOptions::new(Allowed::One(size2(4, -1)));
    assert_eq!(pack(&sprites, &none), Err(SheetError::EmptySheet));
    assert_eq!(
        pack(
            &sprites,
            &SheetOptions {
                alignment: size2(1, 0),
                ..squares(9)
            }
        ),
        Err(SheetError::EmptyAlignment)
    );
    let padded = SheetOptions {
        padding: 1,
        ..squares(9)
    };
    let error = pack(&[size2(i32::MAX, 1)], &padded).unwrap_err();
    assert_eq!(error, SheetError::GreatSprite(0));
    assert_eq!(error.to_string(), "sprite 0 is too large");
}
