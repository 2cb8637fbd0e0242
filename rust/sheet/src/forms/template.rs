//! Files by templates, so that an engine is a file away: that of the user, and those of forms that are templates themselves.
use super::File;
use crate::animation::Animation;
use crate::fault::{Fault, FILES, WORDS};
use crate::folder;
use crate::set;
use crate::sheet::{Frame, Page, Sheet};
use serde_json::{json, Value};
use std::collections::{HashMap, HashSet};
use std::error::Error;
use std::path::Path;
use tera::{Context, Tera};

/// A template that can be read, and how its files are called.
#[derive(Clone, Debug)]
pub struct Template {
    name: String,
    text: String,
    ending: String,
    files: Files,
}

/// Which files a template makes.
#[derive(Clone, Copy, Debug, PartialEq)]
enum Files {
    One,
    OfSheets,
    OfSprites,
    OfAnimations,
}

const TERA: &str = ".tera";
// What stands in the name of a template that makes several files.
const KINDS: [(&str, Files); 3] = [
    (".each", Files::OfSheets),
    (".sprite", Files::OfSprites),
    (".animation", Files::OfAnimations),
];

// All that went wrong, from the whole to the part.
fn why(error: &tera::Error) -> String {
    let mut told = error.to_string();
    let mut source = error.source();
    while let Some(inner) = source {
        told = format!("{}: {}", told, inner);
        source = inner.source();
    }
    told.split_whitespace().collect::<Vec<_>>().join(" ")
}

impl Template {
    /// By the name of its file: `NAME.ENDING.tera` makes OUT.ENDING, `NAME.each.ENDING.tera` such a file for each sheet, and
    /// `NAME.sprite.ENDING.tera` and `NAME.animation.ENDING.tera` a file OUT-SPRITE.ENDING for each sprite or each animation.
    pub fn new(name: &str, text: &str) -> Result<Template, Fault> {
        let refused = |what: &str| Fault::new(WORDS, format!("{}: {}", name.escape_debug(), what));
        let known = name
            .strip_suffix(TERA)
            .and_then(|name| name.split_once('.'));
        let (_, endings) = known.ok_or_else(|| {
            refused("the name of a template is NAME.ENDING.tera, or NAME.each.ENDING.tera, or with sprite or animation in place of each")
        })?;
        let endings = format!(".{}", endings);
        let several = KINDS.iter().find_map(|(word, files)| {
            let ending = endings.strip_prefix(word)?;
            ending.starts_with('.').then_some((ending, *files))
        });
        let (ending, files) = several.unwrap_or((&endings, Files::One));
        let is_picture = set::is_picture(&ending.to_ascii_lowercase());
        if ending.ends_with(['.', ' ']) || is_picture || ending.chars().any(char::is_control) {
            return Err(refused("its files can't have this ending"));
        }
        let template = Template {
            name: name.to_string(),
            text: text.to_string(),
            ending: ending.to_string(),
            files,
        };
        template.parsed()?;
        Ok(template)
    }

    pub fn read(path: &Path) -> Result<Template, Fault> {
        let name = path
            .file_name()
            .map_or_else(String::new, |name| name.to_string_lossy().into_owned());
        let text = folder::text(path)?;
        Template::new(&name, &text)
    }

    fn refused(&self, error: &tera::Error) -> Fault {
        Fault::new(FILES, format!("{}: {}", self.name, why(error)))
    }

    // Nothing is escaped where the template doesn't say so.
    fn parsed(&self) -> Result<Tera, Fault> {
        let mut tera = Tera::default();
        tera.autoescape_on(Vec::new());
        tera.add_raw_template(&self.name, &self.text)
            .map_err(|error| self.refused(&error))?;
        Ok(tera)
    }

    fn text(&self, tera: &Tera, context: &Context) -> Result<Vec<u8>, Fault> {
        let text = tera.render(&self.name, context);
        let text = text.map_err(|error| self.refused(&error))?;
        Ok(text.into_bytes())
    }

    fn context(&self, of: &Value) -> Result<Context, Fault> {
        Context::from_serialize(of).map_err(|error| self.refused(&error))
    }

    /// The files of one scale.
    pub fn files(&self, sheet: &Sheet) -> Result<Vec<File>, Fault> {
        let tera = self.parsed()?;
        if matches!(self.files, Files::OfSprites | Files::OfAnimations) {
            return self.small_files(sheet, &tera);
        }
        let all = whole(sheet);
        let mut context = self.context(&all)?;
        if self.files == Files::One {
            let name = format!("{}{}", sheet.stem, self.ending);
            return Ok(vec![(name, self.text(&tera, &context)?)]);
        }
        let mut files = Vec::new();
        let values = all["pages"].as_array().into_iter().flatten();
        for (page, value) in sheet.pages.iter().zip(values) {
            context.insert("page", value);
            files.push((page.beside(&self.ending), self.text(&tera, &context)?));
        }
        Ok(files)
    }

    // Of sprites or animations, with what belongs to each alone.
    fn small_files(&self, sheet: &Sheet, tera: &Tera) -> Result<Vec<File>, Fault> {
        let mut context = self.context(&settings(sheet))?;
        let animated = sheet.animated();
        let mut frames: HashMap<&str, Value> = HashMap::new();
        let mut files = Vec::new();
        for one in &sheet.pages {
            context.insert("page", &without_frames(one));
            for each in &one.frames {
                let mut value = frame(&animated, each);
                context.insert("frame", &value);
                if self.files == Files::OfSprites {
                    files.push((
                        self.small_name(sheet, &each.name),
                        self.text(tera, &context)?,
                    ));
                }
                value["image"] = json!(one.image);
                frames.insert(&each.name, value);
            }
        }
        if self.files == Files::OfAnimations {
            for one in &sheet.animations {
                let mut value = animation(one);
                let shown = one.frames.iter().map(|(_, name)| frames.get(name.as_str()));
                value["frames"] = json!(shown.collect::<Vec<_>>());
                context.insert("animation", &value);
                files.push((
                    self.small_name(sheet, &one.name),
                    self.text(tera, &context)?,
                ));
            }
        }
        self.check_names(&files)?;
        Ok(files)
    }

    fn small_name(&self, sheet: &Sheet, name: &str) -> String {
        format!("{}-{}{}", sheet.stem, name.replace('/', "-"), self.ending)
    }

    // The parts of a name can be joined in two ways.
    fn check_names(&self, files: &[File]) -> Result<(), Fault> {
        let mut names = HashSet::new();
        match files.iter().find(|(name, _)| !names.insert(name)) {
            Some((name, _)) => Err(Fault::new(
                WORDS,
                format!("{}: two files would have this name", name),
            )),
            None => Ok(()),
        }
    }
}

type Animated<'a> = HashMap<&'a str, (&'a Animation, u64)>;

fn frame(animated: &Animated, frame: &Frame) -> Value {
    let (kept, (width, height), (wide, high)) = (frame.kept, frame.whole, frame.lying());
    let animation = animated.get(frame.name.as_str());
    let middle = |from: u32, side: u32, whole: u32| {
        f64::from(from) + f64::from(side) / 2.0 - f64::from(whole) / 2.0
    };
    json!({
        "name": frame.name, "x": frame.x, "y": frame.y, "width": wide, "height": high,
        "rotated": frame.is_turned, "trimmed": frame.is_trimmed(),
        "kept": {"left": kept.left, "top": kept.top, "width": kept.width, "height": kept.height},
        "source": {"width": width, "height": height},
        "offset": {"x": middle(kept.left, kept.width, width), "y": -middle(kept.top, kept.height, height)},
        "anchor": frame.anchor.map(|anchor| json!({"x": anchor.x, "y": anchor.y})),
        "nine": frame.nine.map(|nine| sides(nine.split)),
        "pad": frame.nine.and_then(|nine| nine.pad).map(sides),
        "animation": animation.map(|(one, _)| &one.name), "number": animation.map(|(_, number)| number),
    })
}

fn sides(sides: crate::nine::Sides) -> Value {
    json!({"left": sides.left, "right": sides.right, "top": sides.top, "bottom": sides.bottom})
}

fn without_frames(page: &Page) -> Value {
    json!({"image": page.image, "sha256": page.sum, "width": page.width, "height": page.height})
}

fn page(animated: &Animated, page: &Page) -> Value {
    let frames = page.frames.iter().map(|one| frame(animated, one));
    let mut value = without_frames(page);
    value["frames"] = json!(frames.collect::<Vec<_>>());
    value
}

fn animation(one: &Animation) -> Value {
    let names: Vec<&str> = one.frames.iter().map(|frame| frame.1.as_str()).collect();
    json!({"name": one.name, "frames": names, "frame_rate": one.frame_rate, "loop": one.is_looped})
}

fn settings(sheet: &Sheet) -> Value {
    json!({
        "stem": sheet.stem, "scale": sheet.scale.value(), "premultiplied": sheet.is_premultiplied, "frame_rate": sheet.frame_rate,
    })
}

fn whole(sheet: &Sheet) -> Value {
    let animated = sheet.animated();
    let pages = sheet.pages.iter().map(|one| page(&animated, one));
    let mut all = settings(sheet);
    all["pages"] = json!(pages.collect::<Vec<_>>());
    all["animations"] = json!(sheet.animations.iter().map(animation).collect::<Vec<_>>());
    all
}

/// Of Unity and of cocos2d.
pub fn unity() -> Result<Template, Fault> {
    Template::new(
        "unity.json.tera",
        include_str!("../../templates/unity.json.tera"),
    )
}

pub fn cocos() -> Result<Template, Fault> {
    Template::new(
        "cocos.each.plist.tera",
        include_str!("../../templates/cocos.each.plist.tera"),
    )
}

pub fn cocos3() -> Result<Template, Fault> {
    Template::new(
        "cocos3.each.plist.tera",
        include_str!("../../templates/cocos3.each.plist.tera"),
    )
}
