//! From pictures to sheets.
use crate::anchor::Anchor;
use crate::animation::Animation;
use crate::decode::NO_MEMORY;
use crate::fault::{Fault, FILES, ROOM};
use crate::forms;
use crate::groups::{self, groups, Groups, Shown};
use crate::nine::Nine;
use crate::output::note;
use crate::packing::{fits, greatest, Pages, Place, Ways};
use crate::picture::{Lie, Part, Picture};
use crate::progress::Progress;
use crate::room::{check_memory, size, too_large};
use crate::scale::Scale;
use crate::search;
use crate::sums;
use crate::words::{Image, Names, Words};
use guillotiere::sheet::SheetError;
use guillotiere::Size;
use std::collections::{HashMap, HashSet};
use std::sync::Arc;

/// A sprite in a sheet. Sides and corners are in pixels.
#[derive(Clone, Debug, PartialEq)]
pub struct Frame {
    pub name: String,
    /// The upper left corner of its place, without what is repeated around it.
    pub x: u32,
    pub y: u32,
    pub is_turned: bool,
    /// What is kept of its picture, as it lies in the picture.
    pub kept: Part,
    /// The size of its picture.
    pub whole: (u32, u32),
    pub anchor: Option<Anchor>,
    pub nine: Option<Nine>,
}

impl Frame {
    pub fn is_trimmed(&self) -> bool {
        (self.kept.width, self.kept.height) != self.whole
    }

    /// The sides of its place in the sheet.
    pub fn lying(&self) -> (u32, u32) {
        match self.is_turned {
            true => (self.kept.height, self.kept.width),
            false => (self.kept.width, self.kept.height),
        }
    }
}

/// A sheet.
#[derive(Clone, Debug, PartialEq)]
pub struct Page {
    /// What files beside the picture are called, without their endings.
    pub record: String,
    /// The name of its picture's file, and the sum of that file's bytes.
    pub image: String,
    pub sum: String,
    pub width: u32,
    pub height: u32,
    /// In the order of the names; those of an animation together, in the order of their numbers.
    pub frames: Vec<Frame>,
}

impl Page {
    /// The file beside the picture with another ending.
    pub fn beside(&self, ending: &str) -> String {
        format!("{}{}", self.record, ending)
    }

    /// Takes the bytes of the picture for its own, and by them its name, if that is asked for.
    pub fn take(&mut self, bytes: &[u8], names: Names, image: Image) {
        self.sum = sums::of(bytes);
        if names == Names::Content {
            let (sum, ending) = (sums::short(&self.sum), image.ending());
            self.image = format!("{}.{}{}", self.record, sum, ending);
        }
    }
}

/// All sheets of one scale.
#[derive(Clone, Debug, PartialEq)]
pub struct Sheet {
    /// The name of the files without their endings.
    pub stem: String,
    pub scale: Scale,
    pub is_premultiplied: bool,
    pub pages: Vec<Page>,
    pub animations: Vec<Animation>,
    /// Of the animations: so many pictures a second.
    pub frame_rate: f64,
}

impl Sheet {
    /// Of each frame of an animation: which one, and its number.
    pub fn animated(&self) -> HashMap<&str, (&Animation, u64)> {
        let mut animated = HashMap::new();
        for one in &self.animations {
            let frames = one.frames.iter();
            animated.extend(frames.map(|(number, name)| (name.as_str(), (one, *number))));
        }
        animated
    }
}

/// A picture that becomes a sprite.
pub struct Sprite {
    pub name: String,
    pub picture: Arc<Picture>,
    pub anchor: Option<Anchor>,
    pub nine: Option<Nine>,
}

/// All sheets of one scale, their pictures, the names that are left out, and a line for each folder and each animation that should lie on
/// one sheet and doesn't.
pub struct Built {
    pub sheet: Sheet,
    pub pictures: Vec<Picture>,
    pub left_out: Vec<String>,
    pub split: Vec<String>,
}

/// What is known of a sprite before it has a place: the number of the picture that it shows, among those that differ.
#[derive(Clone, Copy)]
struct Known {
    picture: usize,
    kept: Part,
    whole: (u32, u32),
}

/// Where sprites lie, and which pictures are drawn where.
struct Laid {
    sizes: Vec<Size>,
    sprites: Vec<Option<Place>>,
    drawn: Vec<(usize, Place)>,
}

// What is kept of each picture, each different one once. What several names share is looked at once.
fn kept(found: &[Sprite], scale: Scale, words: &Words) -> (Vec<Known>, Vec<Picture>) {
    let mut known: Vec<Known> = Vec::new();
    let mut numbers: HashMap<Picture, usize> = HashMap::new();
    let mut shared: HashMap<(*const Picture, bool), usize> = HashMap::new();
    for (place, one) in found.iter().enumerate() {
        let is_whole = one.nine.is_some();
        let first = *shared
            .entry((Arc::as_ptr(&one.picture), is_whole))
            .or_insert(place);
        if first < place {
            known.push(known[first]);
            continue;
        }
        let smaller;
        let picture = if scale.is_one() {
            &*one.picture
        } else {
            smaller = one.picture.scaled(scale);
            &smaller
        };
        let whole = (picture.width, picture.height);
        let kept = if words.trim && !is_whole {
            picture.visible(words.trim_threshold)
        } else {
            picture.whole()
        };
        let next = numbers.len();
        let picture = *numbers.entry(picture.part(kept)).or_insert(next);
        known.push(Known {
            picture,
            kept,
            whole,
        });
    }
    let mut pictures: Vec<(usize, Picture)> = numbers
        .into_iter()
        .map(|(picture, number)| (number, picture))
        .collect();
    pictures.sort_by_key(|(number, _)| *number);
    (known, pictures.into_iter().map(|(_, one)| one).collect())
}

// A picture that has one place, with the group that it lies with.
type Stored = (usize, Option<usize>);

// What has a place: each different picture of a group once; and which of them each sprite shows. A sprite in no group shows that of a
// group, where one has it.
fn stored(known: &[Known], groups: &Groups) -> (Vec<Stored>, Vec<usize>) {
    let mut all: Vec<Stored> = Vec::new();
    let mut of_sprites = vec![0; known.len()];
    let mut numbers: HashMap<Stored, usize> = HashMap::new();
    let mut in_groups: HashMap<usize, usize> = HashMap::new();
    for is_grouped in [true, false] {
        let those = groups.order.iter();
        for one in those.filter(|one| groups.numbers[**one].is_some() == is_grouped) {
            let (picture, group) = (known[*one].picture, groups.numbers[*one]);
            let next = all.len();
            let number = match in_groups.get(&picture) {
                Some(number) if !is_grouped => *number,
                _ => *numbers.entry((picture, group)).or_insert(next),
            };
            if number == next {
                all.push((picture, group));
            }
            if is_grouped {
                in_groups.entry(picture).or_insert(number);
            }
            of_sprites[*one] = number;
        }
    }
    (all, of_sprites)
}

// Names each picture that no sheet takes.
fn check_sizes(
    names: &[&str],
    known: &[Known],
    sizes: &[Size],
    words: &Words,
) -> Result<(), Fault> {
    if words.leave_out {
        return Ok(());
    }
    let ways = words.ways();
    let all = names
        .iter()
        .zip(known)
        .map(|(name, one)| (name, sizes[one.picture]));
    let lines: Vec<String> = all
        .filter(|(_, size)| !fits(*size, &ways))
        .map(|(name, size)| too_large(name, size, words))
        .collect();
    if lines.is_empty() {
        Ok(())
    } else {
        Err(Fault {
            status: ROOM,
            lines,
        })
    }
}

fn named(names: &[&str]) -> String {
    match names {
        [] => String::new(),
        [one] => one.to_string(),
        [one, ..] => format!("{} and {} more", one, names.len() - 1),
    }
}

// The search for the sheets of these, in groups.
fn searched(
    sizes: &[Size],
    groups: &[Option<usize>],
    limit: usize,
    scale: Scale,
    words: &Words,
) -> Result<Pages, Fault> {
    let refused = |error: SheetError| Fault::new(ROOM, error.to_string());
    let shown = Progress::open("packing");
    // With an effort it may take long.
    let progress = |size: Size| {
        if words.effort > 0 || words.time.is_some() {
            let (stem, suffix, width, height) =
                (words.stem(), scale.suffix(), size.width, size.height);
            shown.aside(|| {
                note(&format!(
                    "{}{}: so far a sheet of {}x{} takes all pictures",
                    stem, suffix, width, height
                ))
            });
        }
    };
    let ways = Ways {
        limit,
        ..words.ways()
    };
    search::found(sizes, groups, &ways, words.limits(), progress).map_err(refused)
}

// Where groups have pictures in common, one sheet for all has each of them once.
fn packed(
    stored: &[Stored],
    sizes: &[Size],
    scale: Scale,
    words: &Words,
) -> Result<Option<Pages>, Fault> {
    if stored.len() > sizes.len() {
        let none = vec![None; sizes.len()];
        let pages = searched(sizes, &none, 1, scale, words)?;
        if pages.places.iter().all(Option::is_some) {
            return Ok(Some(pages));
        }
    }
    Ok(None)
}

fn laid(
    names: &[&str],
    known: &[Known],
    sizes: &[Size],
    animations: &[Animation],
    scale: Scale,
    words: &Words,
) -> Result<Laid, Fault> {
    let pictures: Vec<usize> = known.iter().map(|one| one.picture).collect();
    let shown = Shown {
        names,
        pictures: &pictures,
        sizes,
    };
    let groups = groups(&shown, animations, words);
    let (stored, of_sprites) = stored(known, &groups);
    if let Some(pages) = packed(&stored, sizes, scale, words)? {
        let drawn = (0..).zip(pages.places.iter().copied().flatten());
        return Ok(Laid {
            drawn: drawn.collect(),
            sprites: pictures.iter().map(|one| pages.places[*one]).collect(),
            sizes: pages.sizes,
        });
    }
    let theirs: Vec<Size> = stored.iter().map(|(picture, _)| sizes[*picture]).collect();
    let numbers: Vec<Option<usize>> = stored.iter().map(|(_, group)| *group).collect();
    let pages = searched(&theirs, &numbers, words.limit(), scale, words)?;
    let sprites: Vec<Option<Place>> = of_sprites.iter().map(|one| pages.places[*one]).collect();
    let homeless = names
        .iter()
        .zip(&sprites)
        .filter(|(_, place)| place.is_none());
    let homeless: Vec<&str> = homeless.map(|(name, _)| *name).collect();
    if !homeless.is_empty() && (!words.leave_out || pages.sizes.is_empty()) {
        return Err(no_room(&homeless, pages.needed, words));
    }
    let drawn = stored.iter().zip(&pages.places);
    Ok(Laid {
        drawn: drawn
            .filter_map(|((picture, _), place)| Some((*picture, (*place)?)))
            .collect(),
        sprites,
        sizes: pages.sizes,
    })
}

fn no_room(homeless: &[&str], needed: usize, words: &Words) -> Fault {
    let room = greatest(words.options().allowed);
    let sheets = match words.limit() {
        1 => "one sheet doesn't take".to_string(),
        count => format!("{} sheets don't take", count),
    };
    // With no sheet at all there was no room for the largest.
    let enough = match needed {
        0 => String::new(),
        count if words.group && words.limit() == 1 => {
            format!("--pages {} without --group, ", count)
        }
        count => format!("--pages {}, ", count),
    };
    let help = format!("{}a larger sheet or --leave-out would do", enough);
    let line = format!(
        "{} all pictures, {}x{} at most: {} found no place; {}",
        sheets,
        room.width,
        room.height,
        named(homeless),
        help
    );
    Fault::new(ROOM, line)
}

fn record_name(words: &Words, scale: Scale, page: usize) -> String {
    let number = match words.pages {
        None => String::new(),
        Some(_) => format!("-{}", page),
    };
    format!("{}{}{}", words.stem(), number, scale.suffix())
}

// The sheets, still without sprites.
fn empty_pages(laid: &Laid, scale: Scale, words: &Words) -> Vec<Page> {
    let page = |(number, size): (usize, &Size)| Page {
        image: format!(
            "{}{}",
            record_name(words, scale, number),
            words.image.ending()
        ),
        record: record_name(words, scale, number),
        sum: String::new(),
        width: size.width as u32,
        height: size.height as u32,
        frames: Vec::new(),
    };
    laid.sizes.iter().enumerate().map(page).collect()
}

// The upper left corner of a sprite, inside of what is repeated around it.
fn corner(place: &Place, words: &Words) -> (u32, u32) {
    let (corner, extrude) = (place.placed.area.min, u32::from(words.extrude));
    (corner.x as u32 + extrude, corner.y as u32 + extrude)
}

fn drawn(
    pages: &[Page],
    pictures: &[Picture],
    laid: &Laid,
    words: &Words,
) -> Result<Vec<Picture>, Fault> {
    let empty = |page: &Page| {
        let no_memory = |_| Fault::new(FILES, format!("{}: {}", page.image, NO_MEMORY));
        Picture::empty(page.width, page.height).map_err(no_memory)
    };
    let mut sheets: Vec<Picture> = pages.iter().map(empty).collect::<Result<_, _>>()?;
    for (picture, place) in &laid.drawn {
        let lie = if place.placed.turned {
            forms::turned(words.form)
        } else {
            Lie::Upright
        };
        let (x, y) = corner(place, words);
        let extrude = u32::from(words.extrude);
        sheets[place.page].draw(&pictures[*picture], x, y, lie, extrude);
    }
    let far = words.bleed();
    sheets
        .iter_mut()
        .filter(|_| far > 0)
        .for_each(|sheet| sheet.bleed(far));
    if words.premultiply {
        sheets.iter_mut().for_each(Picture::premultiply);
    }
    Ok(sheets)
}

fn frame(one: &Sprite, known: &Known, place: &Place, scale: Scale, words: &Words) -> Frame {
    let (x, y) = corner(place, words);
    Frame {
        name: one.name.clone(),
        x,
        y,
        is_turned: place.placed.turned,
        kept: known.kept,
        whole: known.whole,
        anchor: one.anchor,
        nine: one.nine.map(|nine| nine.scaled(scale)),
    }
}

// The animations without the frames that have no place, where two are left.
fn played(animations: &[Animation], names: &[&str], places: &[Option<Place>]) -> Vec<Animation> {
    let placed = names
        .iter()
        .zip(places)
        .filter(|(_, place)| place.is_some());
    let placed: HashSet<&str> = placed.map(|(name, _)| *name).collect();
    let left = animations.iter().map(|one| {
        let frames = one.frames.iter();
        let frames = frames.filter(|(_, name)| placed.contains(name.as_str()));
        Animation {
            frames: frames.cloned().collect(),
            ..one.clone()
        }
    });
    left.filter(|one| one.frames.len() > 1).collect()
}

/// The sheets of one scale.
pub fn built(
    found: &[Sprite],
    animations: &[Animation],
    scale: Scale,
    words: &Words,
) -> Result<Built, Fault> {
    let names: Vec<&str> = found.iter().map(|one| one.name.as_str()).collect();
    let (known, pictures) = kept(found, scale, words);
    let sides = |picture: &Picture| (picture.width.into(), picture.height.into());
    let sizes: Vec<Size> = pictures
        .iter()
        .map(|one| size(sides(one), words.extrude))
        .collect();
    check_sizes(&names, &known, &sizes, words)?;
    let laid = laid(&names, &known, &sizes, animations, scale, words)?;
    check_memory(found, &laid.sizes, words)?;
    let mut pages = empty_pages(&laid, scale, words);
    let mut left_out = Vec::new();
    for ((sprite, one), place) in found.iter().zip(&known).zip(&laid.sprites) {
        match place {
            Some(place) => pages[place.page]
                .frames
                .push(frame(sprite, one, place, scale, words)),
            None => left_out.push(sprite.name.clone()),
        }
    }
    let pictures = drawn(&pages, &pictures, &laid, words)?;
    let animations = played(animations, &names, &laid.sprites);
    let of_sprites: Vec<Option<usize>> = laid
        .sprites
        .iter()
        .map(|place| place.map(|place| place.page))
        .collect();
    let split = groups::split(&names, &of_sprites, &animations, scale, words);
    let sheet = Sheet {
        stem: format!("{}{}", words.stem(), scale.suffix()),
        scale,
        is_premultiplied: words.premultiply,
        pages,
        animations,
        frame_rate: words.frame_rate,
    };
    Ok(Built {
        sheet,
        pictures,
        left_out,
        split,
    })
}
