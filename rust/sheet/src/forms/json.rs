//! TexturePacker's JSON, hash and array, and Phaser's multiatlas.
use super::{has_all, File};
use crate::animation::Animation;
use crate::nine;
use crate::sheet::{Frame, Page, Sheet};
use crate::sums;
use crate::words::Names;
use serde::{Serialize, Serializer};
use std::collections::BTreeMap;

#[derive(Serialize)]
struct Box {
    x: u32,
    y: u32,
    w: u32,
    h: u32,
}

#[derive(Serialize)]
struct Sides {
    w: u32,
    h: u32,
}

#[derive(Serialize)]
#[serde(rename_all = "camelCase")]
struct One<'a> {
    #[serde(skip_serializing_if = "Option::is_none")]
    filename: Option<&'a str>,
    frame: Box,
    rotated: bool,
    trimmed: bool,
    sprite_source_size: Box,
    source_size: Sides,
    #[serde(skip_serializing_if = "Option::is_none")]
    anchor: Option<Point>,
    #[serde(skip_serializing_if = "Option::is_none")]
    borders: Option<Borders>,
    #[serde(rename = "scale9Borders", skip_serializing_if = "Option::is_none")]
    middle: Option<Box>,
    #[serde(skip_serializing_if = "Option::is_none")]
    duration: Option<u32>,
}

#[derive(Serialize)]
struct Point {
    x: f64,
    y: f64,
}

#[derive(Serialize)]
struct Borders {
    left: u32,
    top: u32,
    right: u32,
    bottom: u32,
}

#[derive(Serialize)]
struct Tag<'a> {
    name: &'a str,
    from: usize,
    to: usize,
    direction: &'static str,
    #[serde(skip_serializing_if = "Option::is_none")]
    repeat: Option<&'static str>,
}

#[derive(Serialize)]
struct Meta<'a> {
    app: &'static str,
    version: &'static str,
    #[serde(skip_serializing_if = "Option::is_none")]
    image: Option<&'a str>,
    #[serde(skip_serializing_if = "Option::is_none")]
    sha256: Option<&'a str>,
    #[serde(skip_serializing_if = "Option::is_none")]
    format: Option<&'static str>,
    #[serde(skip_serializing_if = "Option::is_none")]
    size: Option<Sides>,
    #[serde(skip_serializing_if = "Option::is_none")]
    scale: Option<String>,
    #[serde(skip_serializing_if = "Vec::is_empty")]
    related_multi_packs: Vec<String>,
    #[serde(rename = "frameTags", skip_serializing_if = "Vec::is_empty")]
    frame_tags: Vec<Tag<'a>>,
    #[serde(skip_serializing_if = "BTreeMap::is_empty")]
    animations: Played<'a>,
}

#[derive(Serialize)]
struct Whole<'a, F> {
    frames: F,
    #[serde(skip_serializing_if = "BTreeMap::is_empty")]
    animations: Played<'a>,
    meta: Meta<'a>,
}

#[derive(Serialize)]
struct Texture<'a> {
    image: &'a str,
    sha256: &'a str,
    format: &'static str,
    size: Sides,
    scale: f64,
    frames: Vec<One<'a>>,
}

#[derive(Serialize)]
struct Textures<'a> {
    textures: Vec<Texture<'a>>,
    meta: Meta<'a>,
}

const FORMAT: &str = "RGBA8888";

// In `frame` the sides are those of the sprite before it is turned.
fn one(frame: &Frame, is_named: bool, duration: Option<u32>) -> One<'_> {
    let kept = frame.kept;
    let nine = frame.nine.map(|nine| nine.split);
    One {
        filename: Some(frame.name.as_str()).filter(|_| is_named),
        frame: Box {
            x: frame.x,
            y: frame.y,
            w: kept.width,
            h: kept.height,
        },
        rotated: frame.is_turned,
        trimmed: frame.is_trimmed(),
        sprite_source_size: Box {
            x: kept.left,
            y: kept.top,
            w: kept.width,
            h: kept.height,
        },
        source_size: Sides {
            w: frame.whole.0,
            h: frame.whole.1,
        },
        anchor: frame.anchor.map(|anchor| Point {
            x: anchor.x,
            y: anchor.y,
        }),
        borders: nine.map(borders),
        middle: nine.map(|nine| middle(nine, frame.whole)),
        duration,
    }
}

fn borders(nine: nine::Sides) -> Borders {
    Borders {
        left: nine.left,
        top: nine.top,
        right: nine.right,
        bottom: nine.bottom,
    }
}

// What is stretched.
fn middle(nine: nine::Sides, (width, height): (u32, u32)) -> Box {
    Box {
        x: nine.left,
        y: nine.top,
        w: width.saturating_sub(nine.left + nine.right),
        h: height.saturating_sub(nine.top + nine.bottom),
    }
}

// All frames of a sheet; those of animations with the milliseconds that each is shown.
fn all<'a>(sheet: &'a Sheet, page: &'a Page, are_named: bool) -> Vec<(&'a str, One<'a>)> {
    let animated = sheet.animated();
    let duration = |(one, _): &(&Animation, u64)| (1000.0 / one.frame_rate).round() as u32;
    let frames = page.frames.iter().map(|frame| {
        let name = frame.name.as_str();
        (
            name,
            one(frame, are_named, animated.get(name).map(duration)),
        )
    });
    frames.collect()
}

// An object in the order of the list.
struct Members<'a>(Vec<(&'a str, One<'a>)>);

impl Serialize for Members<'_> {
    fn serialize<S: Serializer>(&self, serializer: S) -> Result<S::Ok, S::Error> {
        serializer.collect_map(self.0.iter().map(|(name, one)| (name, one)))
    }
}

// Animations by their names.
type Played<'a> = BTreeMap<&'a str, Vec<&'a str>>;

fn named(one: &Animation) -> (&str, Vec<&str>) {
    let frames = one.frames.iter().map(|frame| frame.1.as_str());
    (one.name.as_str(), frames.collect())
}

// The animations whose frames all lie on this sheet.
fn played<'a>(sheet: &'a Sheet, page: &Page) -> Played<'a> {
    let whole = sheet.animations.iter().filter(|one| has_all(page, one));
    whole.map(named).collect()
}

// Those that lie on no single sheet.
fn split(sheet: &Sheet) -> Played<'_> {
    let is_split = |one: &&Animation| !sheet.pages.iter().any(|page| has_all(page, one));
    sheet
        .animations
        .iter()
        .filter(is_split)
        .map(named)
        .collect()
}

// Animations that lie on one sheet, by the places of the first and the last frame in its list.
fn tags<'a>(sheet: &'a Sheet, page: &Page) -> Vec<Tag<'a>> {
    let is_once = |name: &str| {
        let mut all = sheet.animations.iter();
        all.any(|one| one.name == name && !one.is_looped)
    };
    let tag = |(name, frames): (&'a str, Vec<&'a str>)| {
        let from = page
            .frames
            .iter()
            .position(|frame| frame.name == frames[0])?;
        let to = from + frames.len() - 1;
        Some(Tag {
            name,
            from,
            to,
            direction: "forward",
            repeat: is_once(name).then_some("1"),
        })
    };
    played(sheet, page).into_iter().filter_map(tag).collect()
}

fn sides(page: &Page) -> Sides {
    Sides {
        w: page.width,
        h: page.height,
    }
}

fn meta(app_only: bool) -> Meta<'static> {
    Meta {
        app: "guillotiere-sheet",
        version: env!("CARGO_PKG_VERSION"),
        image: None,
        sha256: None,
        format: if app_only { None } else { Some(FORMAT) },
        size: None,
        scale: None,
        related_multi_packs: Vec::new(),
        frame_tags: Vec::new(),
        animations: BTreeMap::new(),
    }
}

// The first file names the others, as engines that load them all from one expect.
fn meta_of<'a>(sheet: &'a Sheet, number: usize, others: Vec<String>) -> Meta<'a> {
    let page = &sheet.pages[number];
    Meta {
        image: Some(&page.image),
        sha256: Some(&page.sum),
        size: Some(sides(page)),
        scale: Some(sheet.scale.to_string()),
        related_multi_packs: others,
        frame_tags: tags(sheet, page),
        animations: if number == 0 {
            split(sheet)
        } else {
            BTreeMap::new()
        },
        ..meta(false)
    }
}

fn text(value: &impl Serialize) -> String {
    let mut text = serde_json::to_string_pretty(value).expect("text alone is written");
    text.push('\n');
    text
}

// Where pictures are called by what they have, so are all files but the first.
fn each(sheet: &Sheet, names: Names, of: impl Fn(&Page, Meta<'_>) -> String) -> Vec<File> {
    let file = |(number, page): (usize, &Page)| {
        let text = of(page, meta_of(sheet, number, Vec::new())).into_bytes();
        let name = match names {
            Names::Fixed => page.beside(".json"),
            Names::Content => page.beside(&format!(".{}.json", sums::short(&sums::of(&text)))),
        };
        (name, text)
    };
    let others: Vec<File> = sheet.pages.iter().enumerate().skip(1).map(file).collect();
    let named = others.iter().map(|(name, _)| name.clone()).collect();
    let first = sheet.pages.first().map(|page| {
        let text = of(page, meta_of(sheet, 0, named));
        (page.beside(".json"), text.into_bytes())
    });
    first.into_iter().chain(others).collect()
}

pub fn hashes(sheet: &Sheet, names: Names) -> Vec<File> {
    each(sheet, names, |page, meta| {
        text(&Whole {
            frames: Members(all(sheet, page, false)),
            animations: played(sheet, page),
            meta,
        })
    })
}

// The frames as a list.
fn listed<'a>(sheet: &'a Sheet, page: &'a Page) -> Vec<One<'a>> {
    all(sheet, page, true)
        .into_iter()
        .map(|(_, one)| one)
        .collect()
}

pub fn arrays(sheet: &Sheet, names: Names) -> Vec<File> {
    each(sheet, names, |page, meta| {
        text(&Whole {
            frames: listed(sheet, page),
            animations: played(sheet, page),
            meta,
        })
    })
}

fn texture<'a>(sheet: &'a Sheet, page: &'a Page) -> Texture<'a> {
    Texture {
        image: &page.image,
        sha256: &page.sum,
        format: FORMAT,
        size: sides(page),
        scale: sheet.scale.value(),
        frames: listed(sheet, page),
    }
}

pub fn multiatlas(sheet: &Sheet) -> String {
    text(&Textures {
        textures: sheet
            .pages
            .iter()
            .map(|page| texture(sheet, page))
            .collect(),
        meta: meta(true),
    })
}
