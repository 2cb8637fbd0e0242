//! Sheets packed with no guillotine cuts.

use super::climbing::{all_good, is_order, pixels};
use super::filling::{sprites_of, upright};
use test_memory::Refusing;
use wollemigo_core::atlas_sheet::{pack, pack_dense, Allowed, SheetError, SheetOptions};
use wollemigo_core::guillotiere::size2;
use wollemigo_support::alloc::Global;
use wollemigo_support::test::Fail;

// By height: 10 x 6, 6 x 4, 4 x 2, 4 x 2, which fill 10 x 10.
#[test]
fn by_height() {
    let sprites = [size2(4, 2), size2(10, 6), size2(4, 2), size2(6, 4)];
    let options = SheetOptions::new(Allowed::Squares {
        least: 1,
        greatest: 20,
    });
    let found = pack_dense(Global, &sprites, &options).expect("memory");
    let sheet = found.expect("a sheet");
    assert!(sheet.size == size2(10, 10) && sheet.used_area == 100);
}

// It may find a sheet where no way packs all sprites.
#[test]
fn where_pack_finds_none() {
    let sprites = [size2(1, 1), size2(1, 2), size2(2, 1)];
    let options = SheetOptions::new(Allowed::One(size2(2, 3)));
    let first = pack(Global, &sprites, &options).expect("memory");
    let found = pack_dense(Global, &sprites, &options).expect("memory");
    assert!(first.is_none() && found.is_some());
}

// Whether the sheet of random sprites is good, and no larger than that of `pack`.
fn is_dense(seed: u32, options: &SheetOptions) -> Result<bool, Fail> {
    let sprites = sprites_of(seed, 40, 40);
    let sheet = match pack_dense(Global, &sprites, options)? {
        Some(sheet) => sheet,
        None => return Ok(false),
    };
    let first = match pack(Global, &sprites, options)? {
        Some(first) => first,
        None => return Ok(false),
    };
    Ok(all_good(&sprites, &sheet.places, sheet.size, options)
        && is_order(&sheet.order, sprites.len())
        && pixels(sheet.size) <= pixels(first.size))
}

// Seeds of the sprites, and what is allowed.
const KINDS: [(u32, Allowed); 3] = [
    (
        1,
        Allowed::Squares {
            least: 1,
            greatest: 2000,
        },
    ),
    (2, Allowed::Powers { greatest: 1024 }),
    (
        3,
        Allowed::Heights {
            width: 120,
            greatest: 2000,
        },
    ),
];

#[test]
fn random_sprites() -> Result<(), Fail> {
    for (seed, allowed) in KINDS {
        let options = SheetOptions {
            padding: 2,
            alignment: size2(3, 4),
            ..SheetOptions::new(allowed)
        };
        assert!(is_dense(seed, &SheetOptions::new(allowed))?);
        assert!(is_dense(seed, &options)?);
    }
    Ok(())
}

// Two sprites beside each other in the one sheet that is allowed; in a smaller one there is none.
#[test]
fn one_sheet() {
    let sprites = [size2(3, 3), size2(3, 2)];
    let wide = SheetOptions::new(Allowed::One(size2(6, 3)));
    let found = pack_dense(Global, &sprites, &wide).expect("memory");
    assert!(found.map_or(false, |sheet| sheet.places[1] == upright(3, 0, 6, 2)));
    let narrow = SheetOptions::new(Allowed::One(size2(5, 3)));
    assert!(pack_dense(Global, &sprites, &narrow)
        .expect("memory")
        .is_none());
}

#[test]
fn memory_is_refused() {
    let refusing = Refusing::new(Global);
    refusing.refuse_every();
    let options = SheetOptions::new(Allowed::One(size2(4, 4)));
    let refused = pack_dense(&refusing, &[size2(2, 2)], &options);
    assert!(matches!(refused, Err(SheetError::Memory)));
}
