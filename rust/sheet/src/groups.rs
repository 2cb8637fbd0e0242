//! Which sprites lie together on one of several sheets: those of an animation, and with `--group` those of a folder.
use crate::animation::Animation;
use crate::packing::{fit_together, greatest, Ways};
use crate::scale::Scale;
use crate::words::Words;
use guillotiere::Size;
use std::collections::{BTreeMap, BTreeSet, HashMap};

/// The sprites of a run, in their order: their names, and the number of the picture that each shows.
pub struct Shown<'a> {
    pub names: &'a [&'a str],
    pub pictures: &'a [usize],
    /// Of each picture.
    pub sizes: &'a [Size],
}

/// The number of each sprite's group, if it is in one, and the sprites in the order in which they are placed.
#[derive(Debug, PartialEq)]
pub struct Groups {
    pub numbers: Vec<Option<usize>>,
    pub order: Vec<usize>,
}

// Groups that are made one after the other.
struct Making<'a> {
    shown: &'a Shown<'a>,
    ways: &'a Ways,
    numbers: Vec<Option<usize>>,
    next: usize,
}

/// The folder of a sprite, if it doesn't lie in FOLDER itself.
fn folder_of(name: &str) -> Option<&str> {
    name.rsplit_once('/').map(|(folder, _)| folder)
}

impl Making<'_> {
    fn fits(&self, members: &[usize]) -> bool {
        let pictures: BTreeSet<usize> = members
            .iter()
            .map(|one| self.shown.pictures[*one])
            .collect();
        let sizes: Vec<Size> = pictures.iter().map(|one| self.shown.sizes[*one]).collect();
        fit_together(&sizes, self.ways)
    }

    fn put(&mut self, members: &[usize]) {
        for one in members {
            self.numbers[*one] = Some(self.next);
        }
        self.next += 1;
    }

    fn folders(&mut self) {
        let mut folders: BTreeMap<&str, Vec<usize>> = BTreeMap::new();
        for (number, name) in self.shown.names.iter().enumerate() {
            if let Some(folder) = folder_of(name) {
                folders.entry(folder).or_default().push(number);
            }
        }
        for members in folders.values() {
            if self.fits(members) {
                self.put(members);
            }
        }
    }

    // The frames of one animation that no folder keeps. Where no sheet takes them all, they are divided into as few runs as are found, of
    // about as many frames each, so that no two runs have room on one sheet; such runs are given back.
    fn animation(&mut self, frames: &[usize]) -> Vec<usize> {
        if frames.len() < 2 {
            return Vec::new();
        }
        if self.fits(frames) {
            self.put(frames);
            return Vec::new();
        }
        let count = frames.len();
        let run =
            |parts: usize, part: usize| &frames[part * count / parts..(part + 1) * count / parts];
        let do_fit = |parts: &usize| (0..*parts).all(|part| self.fits(run(*parts, part)));
        let parts = match (2..count).find(do_fit) {
            Some(parts) => parts,
            None => count,
        };
        for part in 0..parts {
            self.put(run(parts, part));
        }
        frames.to_vec()
    }
}

/// The groups of all sprites. None where all lie on one sheet.
pub fn groups(shown: &Shown, animations: &[Animation], words: &Words) -> Groups {
    let count = shown.names.len();
    let ways = words.ways();
    let mut making = Making {
        shown,
        ways: &ways,
        numbers: vec![None; count],
        next: 0,
    };
    let mut first = Vec::new();
    if words.limit() > 1 {
        if words.group {
            making.folders();
        }
        let places: HashMap<&str, usize> = shown.names.iter().copied().zip(0..).collect();
        for one in animations {
            let frames = one.frames.iter();
            let places = frames.filter_map(|(_, name)| places.get(name.as_str()).copied());
            let loose: Vec<usize> = places
                .filter(|place| making.numbers[*place].is_none())
                .collect();
            first.extend(making.animation(&loose));
        }
    }
    // What lies on several sheets opens them, one after the other.
    let early: BTreeSet<usize> = first.iter().copied().collect();
    first.extend((0..count).filter(|one| !early.contains(one)));
    Groups {
        numbers: making.numbers,
        order: first,
    }
}

fn at_scale(scale: Scale) -> String {
    if scale.is_one() {
        String::new()
    } else {
        format!(" at scale {}", scale)
    }
}

fn is_split(what: &str, name: &str, scale: Scale, words: &Words) -> String {
    let room = greatest(words.options().allowed);
    format!(
        "{} {} is split{}: it doesn't fit on one sheet of {}x{}",
        what,
        name,
        at_scale(scale),
        room.width,
        room.height
    )
}

/// A line for each animation on several sheets, and with `--group` for each folder that lies on several or has a place in part. `pages` has
/// the sheet of each sprite.
pub fn split(
    names: &[&str],
    pages: &[Option<usize>],
    animations: &[Animation],
    scale: Scale,
    words: &Words,
) -> Vec<String> {
    if words.limit() == 1 {
        return Vec::new();
    }
    let mut folders: BTreeMap<&str, BTreeSet<Option<usize>>> = BTreeMap::new();
    for (name, page) in names.iter().zip(pages).filter(|_| words.group) {
        if let Some(folder) = folder_of(name) {
            folders.entry(folder).or_default().insert(*page);
        }
    }
    let several = folders.iter().filter(|(_, pages)| pages.len() > 1);
    let mut lines: Vec<String> = several
        .map(|(folder, _)| is_split("folder", folder, scale, words))
        .collect();
    let places: HashMap<&str, Option<usize>> =
        names.iter().copied().zip(pages.iter().copied()).collect();
    for one in animations {
        let frames = one.frames.iter();
        let pages: BTreeSet<usize> = frames
            .filter_map(|(_, name)| *places.get(name.as_str())?)
            .collect();
        if pages.len() > 1 {
            lines.push(is_split("animation", &one.name, scale, words));
        }
    }
    lines
}
