//! Sheets of sprites that are known beforehand: all of them in the smallest sheet or in several, or as many as one sheet takes.
//! Needs the feature `sheet`, which is on by default.
//!
//! ```
//! use guillotiere::sheet::{pack, Allowed, SheetOptions};
//! use guillotiere::size2;
//!
//! let allowed = Allowed::Squares { least: 1, greatest: 4096 };
//! let options = SheetOptions { padding: 1, effort: 100, ..SheetOptions::new(allowed) };
//! let sheet = pack(&[size2(20, 60), size2(64, 48)], &options)?.unwrap();
//! assert_eq!(sheet.places.len(), 2); // a place for each sprite, in their order
//! # Ok::<(), guillotiere::sheet::SheetError>(())
//! ```
use crate::{convert, size2, Rectangle, Size};
use alloc::vec::Vec;
use core::fmt;
use wollemigo_core::atlas_sheet as library;
use wollemigo_core::guillotiere::Size as LibrarySize;
use wollemigo_support::alloc::Global;

/// Which sheets are allowed, in pixels. These are all kinds.
///
/// ```
/// use guillotiere::sheet::{pack, Allowed, SheetOptions};
/// use guillotiere::size2;
///
/// let one = SheetOptions::new(Allowed::One(size2(64, 64)));
/// assert_eq!(pack(&[size2(60, 60)], &one)?.unwrap().size, size2(64, 64));
/// let powers = SheetOptions::new(Allowed::Powers { greatest: 64 });
/// assert_eq!(pack(&[size2(60, 9)], &powers)?.unwrap().size, size2(64, 16));
/// # Ok::<(), guillotiere::sheet::SheetError>(())
/// ```
#[derive(Copy, Clone, Debug, PartialEq, Eq, Hash)]
pub enum Allowed {
    /// This size alone.
    One(Size),
    /// Squares.
    Squares {
        /// The least side.
        least: i32,
        /// The greatest side.
        greatest: i32,
    },
    /// Each side a power of two. The sides may differ.
    Powers {
        /// The greatest side.
        greatest: i32,
    },
    /// One width, and each height from 1 on.
    Heights {
        /// The width.
        width: i32,
        /// The greatest height.
        greatest: i32,
    },
}

/// The rules for a sheet, and how long a better one is looked for. These are all fields: a program may write them out, or begin with
/// [`SheetOptions::new`]. There is no default, since no sheet is the right one for all.
///
/// ```
/// use guillotiere::sheet::{pack, Allowed, SheetOptions};
/// use guillotiere::size2;
///
/// let squares = SheetOptions::new(Allowed::Squares { least: 1, greatest: 4096 });
/// let options = SheetOptions { padding: 2, ..squares };
/// assert_eq!(pack(&[size2(60, 60)], &options)?.unwrap().size, size2(64, 64));
/// # Ok::<(), guillotiere::sheet::SheetError>(())
/// ```
#[derive(Copy, Clone, Debug, PartialEq, Eq, Hash)]
pub struct SheetOptions {
    /// Which sheets are allowed. `fill` takes the greatest of them.
    pub allowed: Allowed,
    /// The least number of pixels between two sprites, and between a sprite and the border.
    pub padding: u16,
    /// Each place, with the padding at its left and above, begins on multiples of these sides and takes multiples of them, also
    /// at the right and lower border; the padding at its right and below comes after that. Both are above 0.
    ///
    /// ```
    /// use guillotiere::sheet::{pack, Allowed, SheetOptions};
    /// use guillotiere::size2;
    ///
    /// let squares = SheetOptions::new(Allowed::Squares { least: 1, greatest: 99 });
    /// let options = SheetOptions { padding: 1, alignment: size2(4, 4), ..squares };
    /// assert_eq!(pack(&[size2(1, 1)], &options)?.unwrap().size, size2(5, 5)); // 1 + 1, rounded up to 4, and 1
    /// # Ok::<(), guillotiere::sheet::SheetError>(())
    /// ```
    pub alignment: Size,
    /// Whether a sprite may lie turned by 90 degrees.
    pub turn: bool,
    /// How many changes of the order are tried.
    pub effort: u32,
    /// The seed of the random changes. The same input gives the same sheet on every machine.
    pub seed: u64,
}

impl SheetOptions {
    /// These sheets, no padding, alignment 1 in both directions, no turning, no changes of the order.
    #[must_use]
    pub fn new(allowed: Allowed) -> Self {
        SheetOptions {
            allowed,
            padding: 0,
            alignment: size2(1, 1),
            turn: false,
            effort: 0,
            seed: 0,
        }
    }
}

/// Where a sprite lies in a sheet.
///
/// ```
/// use guillotiere::sheet::{pack, Allowed, SheetOptions};
/// use guillotiere::size2;
///
/// let options = SheetOptions { turn: true, ..SheetOptions::new(Allowed::One(size2(64, 16))) };
/// let sheet = pack(&[size2(16, 64)], &options)?.unwrap();
/// assert!(sheet.places[0].turned);
/// assert_eq!(sheet.places[0].area.size(), size2(64, 16));
/// # Ok::<(), guillotiere::sheet::SheetError>(())
/// ```
#[derive(Copy, Clone, Debug, PartialEq, Eq, Hash)]
pub struct Placed {
    /// Its place, in pixels, without the padding.
    pub area: Rectangle,
    /// Whether it is turned by 90 degrees: the place is as wide as the sprite is high.
    pub turned: bool,
}

/// A sheet that takes all sprites.
///
/// ```
/// use guillotiere::sheet::{pack, Allowed, SheetOptions};
/// use guillotiere::size2;
///
/// let squares = SheetOptions::new(Allowed::Squares { least: 1, greatest: 99 });
/// let sheet = pack(&[size2(8, 8); 4], &squares)?.unwrap();
/// assert_eq!((sheet.size, sheet.places.len(), sheet.used_area), (size2(16, 16), 4, 256));
/// # Ok::<(), guillotiere::sheet::SheetError>(())
/// ```
#[derive(Clone, Debug, PartialEq, Eq, Hash)]
pub struct Sheet {
    /// The size of the sheet, in pixels.
    pub size: Size,
    /// A place for each sprite, in the order of the sprites.
    pub places: Vec<Placed>,
    /// How many pixels these places have together.
    pub used_area: u128,
}

/// A filled sheet.
///
/// ```
/// use guillotiere::sheet::{fill, Allowed, SheetOptions};
/// use guillotiere::size2;
///
/// let filled = fill(&[size2(16, 16), size2(8, 8)], &SheetOptions::new(Allowed::One(size2(16, 16))))?;
/// assert!(filled.places[0].is_some() && filled.places[1].is_none());
/// # Ok::<(), guillotiere::sheet::SheetError>(())
/// ```
#[derive(Clone, Debug, PartialEq, Eq, Hash)]
pub struct Filled {
    /// The size of the sheet, in pixels.
    pub size: Size,
    /// A place or none for each sprite, in the order of the sprites.
    pub places: Vec<Option<Placed>>,
    /// How many pixels these places have together.
    pub used_area: u128,
}

/// A place on one of several sheets.
///
/// ```
/// use guillotiere::sheet::{pack_pages, Allowed, SheetOptions};
/// use guillotiere::size2;
///
/// let one = SheetOptions::new(Allowed::One(size2(16, 16)));
/// let pages = pack_pages(&[size2(16, 16); 2], &one)?.unwrap();
/// assert_eq!((pages.places[0].page, pages.places[1].page), (0, 1));
/// # Ok::<(), guillotiere::sheet::SheetError>(())
/// ```
#[derive(Copy, Clone, Debug, PartialEq, Eq, Hash)]
pub struct OnPage {
    /// The number of the sheet, counted from 0.
    pub page: usize,
    /// The place on this sheet.
    pub placed: Placed,
}

/// Sheets that take all sprites together.
///
/// ```
/// use guillotiere::sheet::{pack_pages, Allowed, SheetOptions};
/// use guillotiere::size2;
///
/// let squares = SheetOptions::new(Allowed::Squares { least: 1, greatest: 16 });
/// let pages = pack_pages(&[size2(16, 16), size2(16, 16), size2(4, 4)], &squares)?.unwrap();
/// assert_eq!(pages.sizes, [size2(16, 16), size2(16, 16), size2(4, 4)]);
/// # Ok::<(), guillotiere::sheet::SheetError>(())
/// ```
#[derive(Clone, Debug, PartialEq, Eq, Hash)]
pub struct Pages {
    /// The size of each sheet, in pixels. By `pack_pages` each but the last is the greatest that is allowed.
    pub sizes: Vec<Size>,
    /// A place for each sprite, in the order of the sprites.
    pub places: Vec<OnPage>,
}

/// Why there is no sheet.
///
/// ```
/// use guillotiere::sheet::{pack, Allowed, SheetError, SheetOptions};
/// use guillotiere::size2;
///
/// let one = SheetOptions::new(Allowed::One(size2(16, 16)));
/// let sprites = [size2(4, 4), size2(0, 4)];
/// assert_eq!(pack(&sprites, &one), Err(SheetError::EmptySprite(1)));
/// ```
#[derive(Copy, Clone, Debug, PartialEq, Eq, Hash)]
#[non_exhaustive]
pub enum SheetError {
    /// A request for memory was refused.
    Memory,
    /// A side of the sheet, or the least that is allowed, is below 1.
    EmptySheet,
    /// No sheet is allowed: the greatest side is below the least.
    EmptyRange,
    /// A side of the alignment is below 1.
    EmptyAlignment,
    /// The sprite with this number, counted from 0, has a side below 1.
    EmptySprite(usize),
    /// A side of the sprite with this number, counted from 0, exceeds 2147483647 pixels with the padding at both its ends.
    GreatSprite(usize),
}

impl fmt::Display for SheetError {
    fn fmt(&self, f: &mut fmt::Formatter<'_>) -> fmt::Result {
        match self {
            SheetError::Memory => f.write_str("memory was refused"),
            SheetError::EmptySheet => f.write_str("a side of the sheet is below 1"),
            SheetError::EmptyRange => f.write_str("the greatest side is below the least"),
            SheetError::EmptyAlignment => f.write_str("a side of the alignment is below 1"),
            SheetError::EmptySprite(number) => write!(f, "sprite {} has a side below 1", number),
            SheetError::GreatSprite(number) => write!(f, "sprite {} is too large", number),
        }
    }
}

#[cfg(feature = "std")]
impl std::error::Error for SheetError {}

impl From<library::SheetError> for SheetError {
    fn from(error: library::SheetError) -> SheetError {
        match error {
            library::SheetError::Memory => SheetError::Memory,
            library::SheetError::EmptySheet => SheetError::EmptySheet,
            library::SheetError::EmptyRange => SheetError::EmptyRange,
            library::SheetError::EmptyAlignment => SheetError::EmptyAlignment,
            library::SheetError::EmptySprite(number) => SheetError::EmptySprite(number),
            library::SheetError::GreatSprite(number) => SheetError::GreatSprite(number),
        }
    }
}

fn library_options(options: &SheetOptions) -> library::SheetOptions {
    let allowed = match options.allowed {
        Allowed::One(size) => library::Allowed::One(convert::library_size(size)),
        Allowed::Squares { least, greatest } => library::Allowed::Squares { least, greatest },
        Allowed::Powers { greatest } => library::Allowed::Powers { greatest },
        Allowed::Heights { width, greatest } => library::Allowed::Heights { width, greatest },
    };
    library::SheetOptions {
        allowed,
        padding: options.padding,
        alignment: convert::library_size(options.alignment),
        turn: options.turn,
        effort: options.effort,
        seed: options.seed,
    }
}

// A list of other values in the same order.
fn listed<T, U>(items: &[T], of: impl Fn(&T) -> U) -> Result<Vec<U>, SheetError> {
    let mut list = Vec::new();
    list.try_reserve_exact(items.len())
        .map_err(|_| SheetError::Memory)?;
    list.extend(items.iter().map(of));
    Ok(list)
}

fn library_sizes(sprites: &[Size]) -> Result<Vec<LibrarySize>, SheetError> {
    listed(sprites, |sprite| convert::library_size(*sprite))
}

fn placed(placed: &library::Placed) -> Placed {
    Placed {
        area: convert::rectangle(&placed.area),
        turned: placed.turned,
    }
}

/// Packs all sprites into the smallest sheet of those allowed that is found; None where not even the greatest took them
/// all.
///
/// Without effort five orders of the sprites are tried (by area, height, smaller side, larger side, height times larger side, each
/// with the largest first), each with two choices among free places; with `turn` all this as the sprites are, all as wide as they can
/// lie, and all as high. With effort the best order is changed a little, that many times, and a change stays if it leaves no more
/// pixels without a place.
///
/// ```
/// use guillotiere::sheet::{pack, Allowed, SheetOptions};
/// use guillotiere::size2;
///
/// let squares = SheetOptions::new(Allowed::Squares { least: 1, greatest: 99 });
/// let sheet = pack(&[size2(16, 8); 2], &squares)?.unwrap();
/// assert_eq!(sheet.size, size2(16, 16));
/// assert!(pack(&[size2(100, 8)], &squares)?.is_none());
/// # Ok::<(), guillotiere::sheet::SheetError>(())
/// ```
///
/// # Errors
///
/// `EmptySheet`, `EmptyRange` or `EmptyAlignment` if the options allow no sheet; `EmptySprite` or `GreatSprite` with the number of the
/// first sprite that has no place in any sheet; `Memory` if memory is refused.
pub fn pack(sprites: &[Size], options: &SheetOptions) -> Result<Option<Sheet>, SheetError> {
    pack_telling(sprites, options, |_| {})
}

/// `pack`, and calls `told` with the size of each sheet that takes all sprites as soon as it is found, smaller and
/// smaller ones. The last is the size of the sheet.
///
/// ```
/// use guillotiere::sheet::{pack_telling, Allowed, SheetOptions};
/// use guillotiere::size2;
///
/// let squares = SheetOptions::new(Allowed::Squares { least: 1, greatest: 99 });
/// let mut last = None;
/// let sheet = pack_telling(&[size2(8, 8); 4], &squares, |size| last = Some(size))?.unwrap();
/// assert_eq!(last, Some(sheet.size));
/// # Ok::<(), guillotiere::sheet::SheetError>(())
/// ```
///
/// # Errors
///
/// Those of `pack`.
pub fn pack_telling(
    sprites: &[Size],
    options: &SheetOptions,
    mut told: impl FnMut(Size),
) -> Result<Option<Sheet>, SheetError> {
    let sprites = library_sizes(sprites)?;
    let options = library_options(options);
    let told = |size: LibrarySize| told(convert::size(size));
    converted(library::pack_telling(Global, &sprites, &options, told)?)
}

/// The sheet of `pack`, or a smaller one laid out without guillotine cuts, which is fuller as a rule, and the more so the more
/// sprites there are. It never has more pixels than that of `pack`. In a smaller one no sprite is turned. Where `pack`
/// finds none it may find one.
///
/// ```
/// use guillotiere::sheet::{pack_dense, Allowed, SheetOptions};
/// use guillotiere::size2;
///
/// let squares = SheetOptions::new(Allowed::Squares { least: 1, greatest: 99 });
/// let sheet = pack_dense(&[size2(8, 8); 4], &squares)?.unwrap();
/// assert_eq!(sheet.size, size2(16, 16));
/// # Ok::<(), guillotiere::sheet::SheetError>(())
/// ```
///
/// # Errors
///
/// Those of `pack`.
pub fn pack_dense(sprites: &[Size], options: &SheetOptions) -> Result<Option<Sheet>, SheetError> {
    let sprites = library_sizes(sprites)?;
    converted(library::pack_dense(Global, &sprites, &library_options(options))?)
}

// A sheet, where one was found.
fn converted(found: Option<library::Sheet>) -> Result<Option<Sheet>, SheetError> {
    let sheet = match found {
        Some(sheet) => sheet,
        None => return Ok(None),
    };
    Ok(Some(Sheet {
        size: convert::size(sheet.size),
        places: listed(sheet.places.as_slice(), placed)?,
        used_area: sheet.used_area,
    }))
}

/// Fills the greatest sheet that is allowed with as many pixels of sprites as are found to fit.
///
/// ```
/// use guillotiere::sheet::{fill, Allowed, SheetOptions};
/// use guillotiere::size2;
///
/// let one = SheetOptions::new(Allowed::One(size2(16, 16)));
/// let filled = fill(&[size2(16, 8); 3], &one)?;
/// assert_eq!(filled.places.iter().flatten().count(), 2); // the third has no room
/// # Ok::<(), guillotiere::sheet::SheetError>(())
/// ```
///
/// # Errors
///
/// Those of `pack`.
pub fn fill(sprites: &[Size], options: &SheetOptions) -> Result<Filled, SheetError> {
    let filled = library::fill(Global, &library_sizes(sprites)?, &library_options(options))?;
    Ok(Filled {
        size: convert::size(filled.size),
        places: listed(filled.places.as_slice(), |place| place.as_ref().map(placed))?,
        used_area: filled.used_area,
    })
}

/// Packs all sprites into as few sheets as are found: on each what `fill` places there of the sprites that are left, and the
/// last of them in as small a sheet as `pack` finds. No sheet is empty; with no sprites there is no sheet. None only where a sprite
/// is too large for an empty sheet.
///
/// ```
/// use guillotiere::sheet::{pack_pages, Allowed, SheetOptions};
/// use guillotiere::size2;
///
/// let one = SheetOptions::new(Allowed::One(size2(16, 16)));
/// let pages = pack_pages(&[size2(16, 8); 3], &one)?.unwrap();
/// assert_eq!(pages.sizes.len(), 2);
/// assert!(pack_pages(&[size2(17, 8)], &one)?.is_none()); // too large for any sheet
/// # Ok::<(), guillotiere::sheet::SheetError>(())
/// ```
///
/// # Errors
///
/// Those of `pack`.
pub fn pack_pages(sprites: &[Size], options: &SheetOptions) -> Result<Option<Pages>, SheetError> {
    let (sprites, options) = (library_sizes(sprites)?, library_options(options));
    converted_pages(library::pack_pages(Global, &sprites, &options)?)
}

/// `pack_pages`, with all sprites of a group on one sheet: `groups` has the number of each sprite's group, in the order of the
/// sprites. A sprite is in no group where that is None, or where `groups` ends before; numbers past the last sprite are
/// ignored. A group that no way packs by itself into the greatest sheet that is allowed is given up before the first sheet is
/// begun: each of its sprites counts as one in no group.
///
/// The other groups are taken in the order of their first sprites. The first opens a sheet; then each other group that the
/// greatest sheet takes as well goes onto it, and then sprites in no group, in their order: all, or so many that it doesn't take
/// the next one as well. Then the sheet is made as small as `pack` finds it. When no group is left, the other sprites are packed
/// as `pack_pages` does. None only where a sprite is too large for an empty sheet.
///
/// ```
/// use guillotiere::sheet::{pack_groups, Allowed, SheetOptions};
/// use guillotiere::size2;
///
/// // A square of 8 takes four of these sprites, so the group of two has no room next to the group of three.
/// let options = SheetOptions::new(Allowed::Squares { least: 1, greatest: 8 });
/// let groups = [Some(0), Some(1), Some(0), Some(1), Some(0), None];
/// let pages = pack_groups(&[size2(4, 4); 6], &groups, &options)?.unwrap();
/// let sheets: Vec<usize> = pages.places.iter().map(|place| place.page).collect();
/// assert_eq!(sheets, [0, 1, 0, 1, 0, 0]);
/// # Ok::<(), guillotiere::sheet::SheetError>(())
/// ```
///
/// # Errors
///
/// Those of `pack`.
pub fn pack_groups(
    sprites: &[Size],
    groups: &[Option<usize>],
    options: &SheetOptions,
) -> Result<Option<Pages>, SheetError> {
    let (sprites, options) = (library_sizes(sprites)?, library_options(options));
    let found = library::pack_groups(Global, &sprites, groups, &options)?;
    converted_pages(found)
}

// Sheets, where some were found.
fn converted_pages(found: Option<library::Pages>) -> Result<Option<Pages>, SheetError> {
    let pages = match found {
        Some(pages) => pages,
        None => return Ok(None),
    };
    Ok(Some(Pages {
        sizes: listed(pages.sizes.as_slice(), |size| convert::size(*size))?,
        places: listed(pages.places.as_slice(), |place| OnPage {
            page: place.page,
            placed: placed(&place.placed),
        })?,
    }))
}
