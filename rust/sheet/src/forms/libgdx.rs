//! The `.atlas` of libGDX: its old form, with the fields that all its versions read, and the new one, which is read since 1.9.13.
use crate::nine::Sides;
use crate::sheet::{Frame, Sheet};
use clap::ValueEnum;
use std::fmt::Write;

/// Why a name can't stand in the file, a line for each.
pub fn fault(name: &str) -> Option<String> {
    let is_wrong = name.contains(':') || name.trim() != name || name.trim().is_empty();
    is_wrong.then(|| {
        format!(
            "{:?}: a name in an .atlas can't contain a colon, or begin or end with a space",
            name
        )
    })
}

fn sides(text: &mut String, key: &str, sides: Sides) {
    let Sides {
        left,
        right,
        top,
        bottom,
    } = sides;
    writeln!(text, "  {}: {}, {}, {}, {}", key, left, right, top, bottom).unwrap();
}

fn region(text: &mut String, name: &str, index: &str, frame: &Frame) {
    let (kept, (width, height)) = (frame.kept, frame.whole);
    let size = (kept.width, kept.height);
    write!(
        text,
        "{}\n  rotate: {}\n  xy: {}, {}\n  size: {}, {}\n",
        name, frame.is_turned, frame.x, frame.y, size.0, size.1
    )
    .unwrap();
    if let Some(nine) = frame.nine {
        sides(text, "split", nine.split);
        if let Some(pad) = nine.pad {
            sides(text, "pad", pad);
        }
    }
    // The offset is taken from the lower left corner.
    let bottom = height - kept.top - kept.height;
    write!(
        text,
        "  orig: {}, {}\n  offset: {}, {}\n  index: {}\n",
        width, height, kept.left, bottom, index
    )
    .unwrap();
}

// The new form has no line for what is usual.
fn new_region(text: &mut String, name: &str, index: &str, frame: &Frame) {
    let (kept, (width, height)) = (frame.kept, frame.whole);
    writeln!(text, "{}", name).unwrap();
    if index != "-1" {
        writeln!(text, "index: {}", index).unwrap();
    }
    writeln!(
        text,
        "bounds: {}, {}, {}, {}",
        frame.x, frame.y, kept.width, kept.height
    )
    .unwrap();
    if frame.is_trimmed() {
        let bottom = height - kept.top - kept.height;
        writeln!(
            text,
            "offsets: {}, {}, {}, {}",
            kept.left, bottom, width, height
        )
        .unwrap();
    }
    if frame.is_turned {
        text.push_str("rotate: 90\n");
    }
    if let Some(nine) = frame.nine {
        sides(text, "split", nine.split);
        if let Some(pad) = nine.pad {
            sides(text, "pad", pad);
        }
    }
}

/// How an engine reads between the pixels of a sheet, and beyond its border.
#[derive(Clone, Copy, Debug, PartialEq, Eq, ValueEnum)]
pub enum Filter {
    Linear,
    Nearest,
    Mipmap,
}

#[derive(Clone, Copy, Debug, PartialEq, Eq, ValueEnum)]
pub enum Wrap {
    None,
    X,
    Y,
    Xy,
}

impl Filter {
    fn name(self) -> &'static str {
        match self {
            Filter::Linear => "Linear,Linear",
            Filter::Nearest => "Nearest,Nearest",
            Filter::Mipmap => "MipMapLinearLinear,Linear",
        }
    }
}

impl Wrap {
    fn name(self) -> &'static str {
        match self {
            Wrap::None => "none",
            Wrap::X => "x",
            Wrap::Y => "y",
            Wrap::Xy => "xy",
        }
    }
}

pub fn text(sheet: &Sheet, filter: Filter, wrap: Wrap, is_new: bool) -> String {
    let animated = sheet.animated();
    let region = if is_new { new_region } else { region };
    let mut text = String::new();
    for (number, page) in sheet.pages.iter().enumerate() {
        if number > 0 || !is_new {
            text.push('\n');
        }
        write!(
            text,
            "{}\nsize: {},{}\nformat: RGBA8888\nfilter: {}\nrepeat: {}\n",
            page.image,
            page.width,
            page.height,
            filter.name(),
            wrap.name()
        )
        .unwrap();
        // The old form has no place for it.
        if sheet.is_premultiplied && is_new {
            text.push_str("pma: true\n");
        }
        if is_new {
            writeln!(text, "sha256: {}", page.sum).unwrap();
        }
        for frame in &page.frames {
            match animated.get(frame.name.as_str()) {
                Some((one, number)) => region(&mut text, &one.whole, &number.to_string(), frame),
                None => region(&mut text, &frame.name, "-1", frame),
            }
        }
    }
    text
}
