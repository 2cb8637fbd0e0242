//! The SpriteFrames of Godot 3 and 4: the animations, and one of one picture for each other sprite.
use crate::sheet::{Frame, Sheet};
use std::collections::BTreeMap;
use std::fmt::Write;

fn quoted(name: &str) -> String {
    format!("\"{}\"", name.replace('\\', "\\\\").replace('"', "\\\""))
}

/// What the two write in their own ways.
#[derive(Clone, Copy, PartialEq)]
pub enum Version {
    Three,
    Four,
}

impl Version {
    fn is_three(self) -> bool {
        self == Version::Three
    }

    // A number in the third, and a word in the fourth.
    fn id(self, word: &str, number: usize) -> String {
        match self {
            Version::Three => (number + 1).to_string(),
            Version::Four => format!("\"{}_{}\"", word, number),
        }
    }

    fn call(self, name: &str, inside: &str) -> String {
        match self {
            Version::Three => format!("{}( {} )", name, inside),
            Version::Four => format!("{}({})", name, inside),
        }
    }

    fn rectangle(self, (x, y, width, height): (u32, u32, u32, u32)) -> String {
        self.call("Rect2", &format!("{}, {}, {}, {}", x, y, width, height))
    }

    // A part of a page, with the margins that were trimmed.
    fn texture(self, place: usize, page: usize, frame: &Frame) -> String {
        let (kept, (width, height)) = (frame.kept, frame.whole);
        let region = self.rectangle((frame.x, frame.y, kept.width, kept.height));
        let mut text = format!(
            "\n[sub_resource type=\"AtlasTexture\" id={}]\natlas = {}\nregion = {}\n",
            self.id("sprite", place),
            self.call("ExtResource", &self.id("page", page)),
            region
        );
        if frame.is_trimmed() {
            // The second half is what the margins add to the size.
            let (wider, higher) = (width - kept.width, height - kept.height);
            let margin = self.rectangle((kept.left, kept.top, wider, higher));
            writeln!(text, "margin = {}", margin).unwrap();
        }
        text
    }

    fn animation(self, one: &Played) -> String {
        let shown = |place: &usize| {
            let texture = self.call("SubResource", &self.id("sprite", *place));
            match self {
                Version::Three => texture,
                Version::Four => format!("{{\n\"duration\": 1.0,\n\"texture\": {}\n}}", texture),
            }
        };
        let frames: Vec<String> = one.places.iter().map(shown).collect();
        format!(
            "{{\n\"frames\": [{}],\n\"loop\": {},\n\"name\": {}{},\n\"speed\": {:?}\n}}",
            frames.join(", "),
            one.is_looped,
            if self.is_three() { "" } else { "&" },
            quoted(one.name),
            one.speed
        )
    }

    fn page(self, number: usize, image: &str) -> String {
        let kind = if self.is_three() {
            "Texture"
        } else {
            "Texture2D"
        };
        format!(
            "[ext_resource type=\"{}\" path={} id={}]\n",
            kind,
            quoted(image),
            self.id("page", number)
        )
    }
}

/// What is played: the places of its frames, and how.
struct Played<'a> {
    name: &'a str,
    speed: f64,
    is_looped: bool,
    places: Vec<usize>,
}

// In the order of the names. The frames of an animation come in its order.
fn played<'a>(sheet: &'a Sheet, frames: &[(usize, &'a Frame)]) -> Vec<Played<'a>> {
    let animated = sheet.animated();
    let mut played: BTreeMap<&str, Played> = BTreeMap::new();
    for (place, (_, frame)) in frames.iter().enumerate() {
        let (whole, one) = match animated.get(frame.name.as_str()) {
            Some((one, _)) => (one.whole.as_str(), Some(one)),
            None => (frame.name.as_str(), None),
        };
        let so_far = played.entry(whole).or_insert_with(|| Played {
            name: one.map_or(whole, |one| one.name.as_str()),
            speed: one.map_or(sheet.frame_rate, |one| one.frame_rate),
            is_looped: one.map_or(true, |one| one.is_looped),
            places: Vec::new(),
        });
        so_far.places.push(place);
    }
    played.into_values().collect()
}

pub fn text(sheet: &Sheet, version: Version) -> String {
    let pages = sheet.pages.iter().enumerate();
    let frames: Vec<(usize, &Frame)> = pages
        .flat_map(|(number, page)| page.frames.iter().map(move |frame| (number, frame)))
        .collect();
    let mut text = format!(
        "[gd_resource type=\"SpriteFrames\" load_steps={} format={}]\n\n",
        sheet.pages.len() + frames.len() + 1,
        if version.is_three() { 2 } else { 3 }
    );
    for (number, page) in sheet.pages.iter().enumerate() {
        text.push_str(&version.page(number, &page.image));
    }
    for (place, (page, frame)) in frames.iter().enumerate() {
        text.push_str(&version.texture(place, *page, frame));
    }
    let animations: Vec<String> = played(sheet, &frames)
        .iter()
        .map(|one| version.animation(one))
        .collect();
    let sums = sheet.pages.iter();
    let sums: Vec<String> = sums
        .map(|page| format!("{}: \"{}\"", quoted(&page.image), page.sum))
        .collect();
    writeln!(
        text,
        "\n[resource]\nmetadata/sha256 = {{\n{}\n}}\nanimations = [{}]",
        sums.join(",\n"),
        animations.join(", ")
    )
    .unwrap();
    text
}
