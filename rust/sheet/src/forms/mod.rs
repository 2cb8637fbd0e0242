//! The files beside the pictures, in the forms that engines read. docs/PACK.md names where each form is defined.
mod css;
mod godot;
mod json;
mod libgdx;
mod starling;
mod template;

pub use libgdx::{Filter, Wrap};
pub use template::Template;

use crate::animation::{self, Animation};
use crate::fault::{Fault, WORDS};
use crate::picture::Lie;
use crate::sheet::{Built, Page, Sheet, Sprite};
use crate::words::Names;
use clap::ValueEnum;
use std::collections::HashSet;

/// A form of output.
#[derive(Clone, Copy, Debug, PartialEq, Eq, ValueEnum)]
pub enum Form {
    /// PixiJS, and what reads TexturePacker's JSON: an object of frames; a file for each sheet
    JsonHash,
    /// Phaser, and what reads TexturePacker's JSON: a list of frames; a file for each sheet
    JsonArray,
    /// Phaser's multiatlas: JSON; one file for all sheets
    Phaser,
    /// libGDX and what reads its .atlas, all versions; one file for all sheets
    Libgdx,
    /// libGDX 1.9.13 and later: .atlas in its new form; one file for all sheets
    LibgdxNew,
    /// Godot 4: SpriteFrames, .tres; one file for all sheets
    Godot,
    /// Godot 3: SpriteFrames, .tres; one file for all sheets
    Godot3,
    /// Starling, and what reads Sparrow's XML; a file for each sheet
    Starling,
    /// Web pages: classes in CSS; one file for all sheets
    Css,
    /// Unity, by a script of yours: JSON like its SpriteMetaData; one file for all sheets
    Unity,
    /// cocos2d and what reads its .plist, format 2; a file for each sheet
    Cocos,
    /// cocos2d-x 3 and what reads its .plist, format 3, with anchors; a file for each sheet
    Cocos3,
    /// What --template says
    #[value(skip)]
    Template,
}

/// A form, and what is asked of it.
#[derive(Clone, Debug)]
pub struct Style {
    pub form: Form,
    pub template: Option<Template>,
    pub filter: Filter,
    pub wrap: Wrap,
    pub names: Names,
    /// Whether CSS has a page that shows all.
    pub with_page: bool,
}

/// The name of a file, and what it has.
pub type File = (String, Vec<u8>);

/// The files of all scales beside their pictures, of each scale the first one last, since it may name the others. CSS has one for all.
pub fn all_files(style: &Style, stem: &str, sheets: &[&Sheet]) -> Result<Vec<File>, Fault> {
    let mut all = Vec::new();
    match sheets {
        _ if style.form != Form::Css => {}
        [sheet] => return Ok(css_files(style, &sheet.stem, sheets)),
        _ => return Ok(css_files(style, stem, sheets)),
    }
    for sheet in sheets {
        all.extend(files(style, sheet)?.into_iter().rev());
    }
    Ok(all)
}

/// The files of one scale beside its pictures.
pub fn files(style: &Style, sheet: &Sheet) -> Result<Vec<File>, Fault> {
    let one =
        |ending: &str, text: String| vec![(format!("{}{}", sheet.stem, ending), text.into_bytes())];
    let atlas = |is_new| libgdx::text(sheet, style.filter, style.wrap, is_new);
    Ok(match style.form {
        Form::JsonHash => json::hashes(sheet, style.names),
        Form::JsonArray => json::arrays(sheet, style.names),
        Form::Phaser => one(".json", json::multiatlas(sheet)),
        Form::Libgdx => one(".atlas", atlas(false)),
        Form::LibgdxNew => one(".atlas", atlas(true)),
        Form::Godot => one(".tres", godot::text(sheet, godot::Version::Four)),
        Form::Godot3 => one(".tres", godot::text(sheet, godot::Version::Three)),
        Form::Starling => starling::files(sheet),
        Form::Unity => template::unity()?.files(sheet)?,
        Form::Cocos => template::cocos()?.files(sheet)?,
        Form::Cocos3 => template::cocos3()?.files(sheet)?,
        Form::Template => match &style.template {
            Some(template) => template.files(sheet)?,
            None => Vec::new(),
        },
        Form::Css => css_files(style, &sheet.stem, &[sheet]),
    })
}

fn css_files(style: &Style, stem: &str, sheets: &[&Sheet]) -> Vec<File> {
    let mut files = Vec::new();
    if let Some(sheet) = sheets.first().filter(|_| style.with_page) {
        files.push((
            format!("{}.html", stem),
            css::page(stem, sheet).into_bytes(),
        ));
    }
    let text = css::text(stem, sheets);
    files.push((format!("{}.css", stem), text.into_bytes()));
    files
}

/// Why sprites can't lie turned in a form; none where they can.
pub fn no_turn(form: Form) -> Option<&'static str> {
    match form {
        Form::Godot | Form::Godot3 => {
            Some("--turn can't be used with --form godot or godot3: its textures can't be turned")
        }
        Form::Unity => Some("--turn can't be used with --form unity: its sprites can't be turned"),
        _ => None,
    }
}

/// Whether the engines of a form read sheets that are WebP.
pub fn reads_webp(form: Form) -> bool {
    !matches!(
        form,
        Form::Libgdx | Form::LibgdxNew | Form::Starling | Form::Unity
    )
}

/// How a turned sprite lies in the pictures that the engines of a form read.
pub fn turned(form: Form) -> Lie {
    match form {
        Form::Libgdx | Form::LibgdxNew => Lie::CounterClockwise,
        _ => Lie::Clockwise,
    }
}

/// Whether the form can have these names, and its files the name `stem`.
pub fn check_names(form: Form, stem: &str, names: &[&str]) -> Result<(), Fault> {
    let lines: Vec<String> = match form {
        Form::Libgdx | Form::LibgdxNew => [stem]
            .iter()
            .chain(names)
            .filter_map(|name| libgdx::fault(name))
            .collect(),
        Form::Starling => names
            .iter()
            .filter_map(|name| starling::fault(name))
            .collect(),
        Form::Css => css::faults(stem, names),
        _ => Vec::new(),
    };
    if lines.is_empty() {
        Ok(())
    } else {
        Err(Fault {
            status: WORDS,
            lines,
        })
    }
}

/// What the form has no place for, a line each.
pub fn lost(form: Form, sprites: &[Sprite], has_rates: bool) -> Vec<String> {
    let has_anchors = matches!(
        form,
        Form::JsonHash
            | Form::JsonArray
            | Form::Phaser
            | Form::Starling
            | Form::Unity
            | Form::Cocos3
            | Form::Template
    );
    let has_nines = matches!(
        form,
        Form::JsonHash
            | Form::JsonArray
            | Form::Phaser
            | Form::Libgdx
            | Form::LibgdxNew
            | Form::Unity
            | Form::Template
    );
    let mut lines = Vec::new();
    if !has_anchors && sprites.iter().any(|one| one.anchor.is_some()) {
        lines.push("this form has no place for anchors".to_string());
    }
    let is_timeless = matches!(
        form,
        Form::Libgdx | Form::LibgdxNew | Form::Starling | Form::Css | Form::Cocos | Form::Cocos3
    );
    if has_rates && is_timeless {
        lines.push(format!(
            "this form has no place for what {} tells",
            animation::FILE
        ));
    }
    let nines = sprites
        .iter()
        .filter(|one| !has_nines && one.nine.is_some());
    lines.extend(nines.map(|one| {
        format!(
            "{}: this form has no place for what a nine-patch tells",
            one.name
        )
    }));
    lines
}

/// A line for each folder and each animation that is split. JSON tells of such an animation in its first file.
pub fn split(form: Form, built: &Built) -> Vec<String> {
    let is_told = matches!(form, Form::JsonHash | Form::JsonArray);
    let first = built.sheet.pages.first();
    let line = |line: &String| match first {
        Some(page) if is_told && line.starts_with("animation ") => {
            let file = page.beside(".json");
            format!("{}; meta.animations of {} has its frames", line, file)
        }
        _ => line.clone(),
    };
    built.split.iter().map(line).collect()
}

// Whether all frames of an animation lie on a sheet.
fn has_all(page: &Page, animation: &Animation) -> bool {
    let names: HashSet<&str> = page
        .frames
        .iter()
        .map(|frame| frame.name.as_str())
        .collect();
    animation
        .frames
        .iter()
        .all(|(_, name)| names.contains(name.as_str()))
}

/// How files of these forms can spell the name of a picture.
pub fn spellings(image: &str) -> [String; 3] {
    [image.to_string(), escaped(image), css::path(image)]
}

// For XML and HTML.
fn escaped(text: &str) -> String {
    let mut escaped = String::new();
    for letter in text.chars() {
        match letter {
            '&' => escaped.push_str("&amp;"),
            '<' => escaped.push_str("&lt;"),
            '>' => escaped.push_str("&gt;"),
            '"' => escaped.push_str("&quot;"),
            _ => escaped.push(letter),
        }
    }
    escaped
}

#[cfg(test)]
mod tests;
