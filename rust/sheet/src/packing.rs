//! Sprites in as few sheets as are found.
pub use guillotiere::sheet::OnPage as Place;
use guillotiere::sheet::{
    self, pack_dense, pack_groups, pack_pages, pack_telling, Allowed, Sheet, SheetError,
    SheetOptions,
};
use guillotiere::Size;

/// The sizes of the sheets, and a place or none for each sprite, in the order of the sprites.
#[derive(Clone, Debug, PartialEq)]
pub struct Pages {
    pub sizes: Vec<Size>,
    pub places: Vec<Option<Place>>,
    /// So many sheets would take all sprites that fit one.
    pub needed: usize,
}

/// How sprites are packed.
#[derive(Copy, Clone, Debug, PartialEq)]
pub struct Ways {
    pub options: SheetOptions,
    /// Smaller sheets with no guillotine cuts are tried too, for the last sheet.
    pub is_dense: bool,
    /// At most so many sheets.
    pub limit: usize,
    /// How much farther from the border of a sheet a sprite lies than the padding says; below 0 it lies nearer.
    pub inset: i32,
}

/// The greatest sheet that is allowed.
pub fn greatest(allowed: Allowed) -> Size {
    match allowed {
        Allowed::One(size) => size,
        Allowed::Squares { greatest, .. } => Size::new(greatest, greatest),
        Allowed::Powers { greatest } => {
            let side = 1 << (31 - greatest.leading_zeros());
            Size::new(side, side)
        }
        Allowed::Heights { width, greatest } => Size::new(width, greatest),
    }
}

// Without what the inset takes of each side; none where nothing is left.
fn inside(allowed: Allowed, inset: i32) -> Option<Allowed> {
    let side = |side: i32| side - 2 * inset;
    let least_one = |side: i32| Some(side).filter(|side| *side > 0);
    Some(match allowed {
        Allowed::One(size) => Allowed::One(Size::new(
            least_one(side(size.width))?,
            least_one(side(size.height))?,
        )),
        Allowed::Squares { least, greatest } => Allowed::Squares {
            least: side(least).max(1),
            greatest: least_one(side(greatest))?,
        },
        Allowed::Heights { width, greatest } => Allowed::Heights {
            width: least_one(side(width))?,
            greatest: least_one(side(greatest))?,
        },
        powers => powers,
    })
}

/// Whether a sprite fits an empty sheet of the greatest size.
pub fn fits(sprite: Size, ways: &Ways) -> bool {
    let room = match inside(Allowed::One(greatest(ways.options.allowed)), ways.inset) {
        Some(room) => room,
        None => return false,
    };
    let alone = SheetOptions {
        allowed: room,
        effort: 0,
        ..ways.options
    };
    matches!(pack_pages(&[sprite], &alone), Ok(Some(_)))
}

/// Whether an empty sheet of the greatest size takes all of these, with guillotine cuts.
pub fn fit_together(sprites: &[Size], ways: &Ways) -> bool {
    let plain = Ways {
        options: SheetOptions {
            effort: 0,
            ..ways.options
        },
        is_dense: false,
        ..*ways
    };
    let room = Allowed::One(greatest(ways.options.allowed));
    let inside = ways_inside(&plain, room, 1);
    let found = inside.map(|inside| one_sheet(sprites, &inside, |_| {}));
    matches!(found, Some(Ok(Some(_))))
}

// All sheets whose sides are powers of two, the smaller ones first, and of two with as many pixels the one that is nearer to a square.
fn powers(greatest: i32) -> Vec<Size> {
    let sides: Vec<i32> = (0..31)
        .map(|power| 1 << power)
        .filter(|side| *side <= greatest)
        .collect();
    let mut sizes: Vec<Size> = sides
        .iter()
        .flat_map(|width| sides.iter().map(move |height| Size::new(*width, *height)))
        .collect();
    sizes.sort_by_key(|size| (area(size), size.width.max(size.height), size.height));
    sizes
}

// The ways inside of the inset; none where nothing is left.
fn ways_inside(ways: &Ways, allowed: Allowed, limit: usize) -> Option<Ways> {
    let options = SheetOptions {
        allowed: inside(allowed, ways.inset)?,
        ..ways.options
    };
    Some(Ways {
        options,
        limit,
        ..*ways
    })
}

// With an inset each power of two is tried as a size of its own, and of several sheets each has the greatest.
fn powers_inset(
    sprites: &[Size],
    groups: &[Option<usize>],
    ways: &Ways,
    mut told: impl FnMut(Size),
) -> Result<Option<Pages>, SheetError> {
    let room = greatest(ways.options.allowed);
    for size in powers(room.width) {
        if let Some(one) = ways_inside(ways, Allowed::One(size), 1) {
            if let Some(sheet) = one_sheet(sprites, &one, |_| told(size))? {
                return Ok(Some(of_one(sheet)));
            }
        }
    }
    let several = ways_inside(ways, Allowed::One(room), ways.limit);
    several
        .map(|several| pages(sprites, groups, &several, |_| {}))
        .transpose()
}

/// As `pages`, with the inset.
pub fn pages_inset(
    sprites: &[Size],
    groups: &[Option<usize>],
    ways: &Ways,
    mut told: impl FnMut(Size),
) -> Result<Pages, SheetError> {
    let outside = |size: Size| Size::new(size.width + 2 * ways.inset, size.height + 2 * ways.inset);
    let allowed = ways.options.allowed;
    let found = if matches!(allowed, Allowed::Powers { .. }) && ways.inset != 0 {
        powers_inset(sprites, groups, ways, told)?
    } else {
        let inside = ways_inside(ways, allowed, ways.limit);
        let told = |size| told(outside(size));
        inside
            .map(|inside| pages(sprites, groups, &inside, told))
            .transpose()?
    };
    let mut found = found.unwrap_or_else(|| Pages::none(sprites.len()));
    found.sizes = found.sizes.into_iter().map(outside).collect();
    for place in found.places.iter_mut().flatten() {
        let area = &mut place.placed.area;
        for corner in [&mut area.min, &mut area.max] {
            corner.x += ways.inset;
            corner.y += ways.inset;
        }
    }
    Ok(found)
}

fn of_one(sheet: Sheet) -> Pages {
    let place = |placed| Some(Place { page: 0, placed });
    Pages {
        sizes: vec![sheet.size],
        places: sheet.places.into_iter().map(place).collect(),
        needed: 1,
    }
}

impl Pages {
    /// No place for any.
    pub fn none(count: usize) -> Pages {
        Pages {
            sizes: Vec::new(),
            places: vec![None; count],
            needed: 0,
        }
    }
}

/// All sprites in the smallest sheet that takes them, or one sheet of the greatest size after the other, the last as small as is
/// found, and of these the first `limit`. A sprite that fits no empty sheet, or lies on a later one, has no place. `groups` has
/// the number of each sprite's group, if it is in one: those of a group lie on one sheet, where one of the greatest size takes
/// them all. The inset isn't looked at. `told` is called with the size of each sheet that takes all sprites, as soon as it is found.
fn pages(
    sprites: &[Size],
    groups: &[Option<usize>],
    ways: &Ways,
    told: impl FnMut(Size),
) -> Result<Pages, SheetError> {
    let mut found = Pages::none(sprites.len());
    if sprites.is_empty() || ways.limit == 0 {
        return Ok(found);
    }
    if let Some(sheet) = one_sheet(sprites, ways, told)? {
        return Ok(of_one(sheet));
    }
    let alone = Ways { inset: 0, ..*ways };
    let numbers: Vec<usize> = (0..sprites.len())
        .filter(|number| fits(sprites[*number], &alone))
        .collect();
    let fitting: Vec<Size> = numbers.iter().map(|number| sprites[*number]).collect();
    let theirs: Vec<Option<usize>> = numbers.iter().map(|number| groups[*number]).collect();
    if let Some(mut packed) = several_sheets(&fitting, &theirs, &ways.options)? {
        if ways.is_dense {
            end_densely(&fitting, &ways.options, &mut packed)?;
        }
        found.sizes = packed.sizes;
        found.needed = found.sizes.len();
        found.sizes.truncate(ways.limit);
        for (number, place) in numbers.iter().zip(packed.places) {
            found.places[*number] = Some(place).filter(|place| place.page < ways.limit);
        }
    }
    Ok(found)
}

fn area(size: &Size) -> i64 {
    i64::from(size.width) * i64::from(size.height)
}

// Whether the greatest sheet has as many pixels as these sprites.
fn may_fit(sprites: &[Size], options: &SheetOptions) -> bool {
    sprites.iter().map(area).sum::<i64>() <= area(&greatest(options.allowed))
}

// `pack_pages` finds one sheet too, and tells nothing of it on the way.
fn one_sheet(
    sprites: &[Size],
    ways: &Ways,
    mut told: impl FnMut(Size),
) -> Result<Option<Sheet>, SheetError> {
    if !may_fit(sprites, &ways.options) {
        return Ok(None);
    }
    let found = pack_telling(sprites, &ways.options, &mut told)?;
    if !ways.is_dense {
        return Ok(found);
    }
    let dense = dense_sheet(sprites, &ways.options)?;
    let most = found.as_ref().map_or(i64::MAX, |sheet| area(&sheet.size));
    match dense.filter(|sheet| area(&sheet.size) < most) {
        Some(sheet) => {
            told(sheet.size);
            Ok(Some(sheet))
        }
        None => Ok(found),
    }
}

fn several_sheets(
    sprites: &[Size],
    groups: &[Option<usize>],
    options: &SheetOptions,
) -> Result<Option<sheet::Pages>, SheetError> {
    if groups.iter().all(Option::is_none) {
        return pack_pages(sprites, options);
    }
    pack_groups(sprites, groups, options)
}

// `pack_dense` begins with the sheet of `pack`, for which all changes of the order were tried before.
fn dense_sheet(sprites: &[Size], options: &SheetOptions) -> Result<Option<Sheet>, SheetError> {
    if !may_fit(sprites, options) {
        return Ok(None);
    }
    let plain = SheetOptions {
        effort: 0,
        ..*options
    };
    pack_dense(sprites, &plain)
}

// The last sheets as one dense sheet, as long as one takes them; else a smaller last sheet, if one is found.
fn end_densely(
    sprites: &[Size],
    options: &SheetOptions,
    packed: &mut sheet::Pages,
) -> Result<(), SheetError> {
    while packed.sizes.len() > 1 {
        let last_two = packed.sizes.len() - 2;
        if !put_densely(sprites, options, packed, last_two)? {
            break;
        }
    }
    let last = packed.sizes.len() - 1;
    put_densely(sprites, options, packed, last)?;
    Ok(())
}

// Puts all sprites of the sheets from `first` on into one dense sheet, if one with fewer pixels takes them.
fn put_densely(
    sprites: &[Size],
    options: &SheetOptions,
    packed: &mut sheet::Pages,
    first: usize,
) -> Result<bool, SheetError> {
    let numbers: Vec<usize> = (0..sprites.len())
        .filter(|number| packed.places[*number].page >= first)
        .collect();
    let rest: Vec<Size> = numbers.iter().map(|number| sprites[*number]).collect();
    let most: i64 = packed.sizes[first..].iter().map(area).sum();
    let sheet = match dense_sheet(&rest, options)? {
        Some(sheet) if area(&sheet.size) < most => sheet,
        _ => return Ok(false),
    };
    packed.sizes.truncate(first);
    packed.sizes.push(sheet.size);
    for (number, placed) in numbers.iter().zip(sheet.places) {
        packed.places[*number] = Place {
            page: first,
            placed,
        };
    }
    Ok(true)
}

#[cfg(test)]
mod tests {
    use super::{fits, greatest, pages, Pages, Place, Ways};
    use guillotiere::sheet::{Allowed, SheetOptions};
    use guillotiere::{size2, Size};

    fn options() -> SheetOptions {
        SheetOptions {
            padding: 1,
            ..SheetOptions::new(Allowed::Powers { greatest: 100 })
        }
    }

    fn packed(sprites: &[Size], limit: usize) -> Pages {
        let ways = Ways {
            options: options(),
            is_dense: false,
            limit,
            inset: 0,
        };
        pages(sprites, &vec![None; sprites.len()], &ways, |_| {}).unwrap()
    }

    fn dense(sprites: &[Size], greatest: i32, limit: usize) -> Pages {
        let ways = Ways {
            options: SheetOptions::new(Allowed::Squares { least: 1, greatest }),
            is_dense: true,
            limit,
            inset: 0,
        };
        let mut sizes = Vec::new();
        let none = vec![None; sprites.len()];
        let found = pages(sprites, &none, &ways, |size| sizes.push(size)).unwrap();
        if found.sizes.len() == 1 && found.places.iter().all(Option::is_some) {
            assert!(sizes.is_empty() || sizes.last() == found.sizes.first());
        }
        found
    }

    #[test]
    fn knows_the_greatest_sheet() {
        assert_eq!(greatest(Allowed::Powers { greatest: 100 }), size2(64, 64));
        assert_eq!(greatest(Allowed::Powers { greatest: 64 }), size2(64, 64));
        assert_eq!(
            greatest(Allowed::Heights {
                width: 3,
                greatest: 9
            }),
            size2(3, 9)
        );
        let ways = |inset| Ways {
            options: options(),
            is_dense: false,
            limit: 1,
            inset,
        };
        for (inset, side) in [(0, 62), (-1, 64), (2, 58), (31, 0)] {
            assert!(side == 0 || fits(size2(side, side), &ways(inset)));
            assert!(!fits(size2(side + 1, 1), &ways(inset)));
        }
    }

    #[test]
    fn goes_on_to_other_pages() {
        // Two sprites of 40 by 40 don't fit 64 by 64; the last sheet is as small as its sprite allows.
        let sprites = [size2(40, 40), size2(5, 5), size2(62, 62), size2(14, 14)];
        let found = packed(&sprites, 9);
        assert_eq!(found.sizes.len(), 2);
        assert_eq!(found.places.iter().flatten().count(), 4);
        assert_eq!(found.places[2].map(|place| place.page), Some(0));
        assert_eq!(found.sizes[1], size2(64, 64));
        assert_eq!(packed(&sprites, 1).places.iter().flatten().count(), 1);
        assert_eq!(packed(&[size2(70, 2)], 3).sizes, []);
    }

    // The sheet of each sprite, in squares up to 8; 9 where it has none.
    fn grouped(sprites: &[Size], groups: &[Option<usize>], is_dense: bool) -> Vec<usize> {
        let ways = Ways {
            options: SheetOptions::new(Allowed::Squares {
                least: 1,
                greatest: 8,
            }),
            is_dense,
            limit: 3,
            inset: 0,
        };
        let found = pages(sprites, groups, &ways, |_| {}).unwrap();
        let sheet = |place: &Option<Place>| place.map_or(9, |place| place.page);
        found.places.iter().map(sheet).collect()
    }

    #[test]
    fn keeps_groups_together() {
        // A sheet takes four squares of 4: a group of two has no room beside one of three. What fits no sheet is passed over.
        let mut sprites = [size2(4, 4); 7];
        sprites[1] = size2(9, 1);
        let three_and_two = [None, None, Some(3), Some(1), Some(3), Some(1), Some(3)];
        for is_dense in [false, true] {
            let found = grouped(&sprites, &three_and_two, is_dense);
            assert_eq!(found, [0, 9, 0, 1, 0, 1, 0]);
            // No sheet takes five.
            let five = [Some(5), None, Some(5), Some(5), Some(5), Some(5), None];
            assert_eq!(grouped(&sprites, &five, is_dense), [0, 9, 0, 0, 0, 1, 1]);
        }
    }

    #[test]
    fn tells_each_smaller_sheet() {
        let ways = Ways {
            options: options(),
            is_dense: false,
            limit: 3,
            inset: 0,
        };
        let mut sizes = Vec::new();
        let alone = pages(&[size2(14, 14)], &[None], &ways, |size| sizes.push(size)).unwrap();
        assert_eq!(alone.sizes, [size2(16, 16)]);
        assert_eq!(sizes.last(), Some(&size2(16, 16)));
    }

    #[test]
    fn packs_densely_into_one() {
        let fill = [size2(4, 2), size2(10, 6), size2(4, 2), size2(6, 4)];
        assert_eq!(dense(&fill, 64, 1).sizes, [size2(10, 10)]);
        // The second doesn't fit; the others are 8 wide or 8 high, however they lie.
        let found = dense(&fill, 9, 9);
        assert_eq!(found.sizes, [size2(8, 8)]);
        assert!(found.places[1].is_none());
        assert_eq!(found.places.iter().flatten().count(), 3);
    }
}
