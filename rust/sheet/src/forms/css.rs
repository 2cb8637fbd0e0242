//! A class for each sprite, and a page that shows them.
use super::escaped;
use crate::sheet::{Frame, Page, Sheet};
use std::collections::HashMap;
use std::fmt::Write;

// Letters, digits, `-` and `_` stay, and each other character becomes `-`.
fn word(text: &str) -> String {
    let is_kept = |letter: char| {
        letter.is_ascii_alphanumeric()
            || letter == '_'
            || letter >= '\u{c0}' && letter.is_alphanumeric()
    };
    text.chars()
        .map(|letter| if is_kept(letter) { letter } else { '-' })
        .collect()
}

// The class of all sprites. A name in CSS begins with no digit and no `-`.
fn common(stem: &str) -> String {
    let word = word(stem);
    match word.chars().next() {
        Some(first) if first == '-' || first.is_numeric() => format!("_{}", word),
        _ => word,
    }
}

fn class(stem: &str, name: &str) -> String {
    format!("{}-{}", common(stem), word(name))
}

/// The names whose classes another one has.
pub fn faults(stem: &str, names: &[&str]) -> Vec<String> {
    let mut first: HashMap<String, &str> = HashMap::new();
    let mut lines = Vec::new();
    for name in names {
        let class = class(stem, name);
        if let Some(other) = first.get(&class) {
            lines.push(format!(
                "{:?} and {:?} have the same class in CSS, {}",
                other, name, class
            ));
        } else {
            first.insert(class, name);
        }
    }
    lines
}

// In a string of CSS.
fn quoted(text: &str) -> String {
    format!("\"{}\"", text.replace('\\', "\\\\").replace('"', "\\\""))
}

// As a path in a URL.
pub(super) fn path(name: &str) -> String {
    let mut path = String::new();
    for byte in name.bytes() {
        if byte.is_ascii_alphanumeric() || b"-._~@".contains(&byte) {
            path.push(byte.into());
        } else {
            write!(path, "%{:02X}", byte).unwrap();
        }
    }
    path
}

// The size of the whole sprite.
fn outer(class: &str, frame: &Frame) -> String {
    let (width, height) = frame.whole;
    format!(
        ".{} {{ width: {}px; height: {}px }}\n",
        class, width, height
    )
}

// What is kept of the sprite is drawn by an element inside, which is turned back where the sprite lies turned. `ratio` pixels of the sheet
// are as wide as one of the page.
fn inner(class: &str, frame: &Frame, ratio: f64) -> String {
    let kept = frame.kept;
    let (wide, high) = frame.lying();
    let part = |pixels: u32| f64::from(pixels) / ratio;
    let turn = match frame.is_turned {
        true => format!(
            " transform-origin: 0 0; transform: translateY({}px) rotate(-90deg);",
            part(kept.height)
        ),
        false => String::new(),
    };
    format!(
        ".{}::before {{ left: {}px; top: {}px; width: {}px; height: {}px; background-position: -{}px -{}px;{} }}\n",
        class,
        part(kept.left),
        part(kept.top),
        part(wide),
        part(high),
        part(frame.x),
        part(frame.y),
        turn
    )
}

// The picture of all sprites on a sheet.
fn picture(stem: &str, page: &Page, ratio: f64) -> String {
    let classes = page
        .frames
        .iter()
        .map(|frame| format!(".{}::before", class(stem, &frame.name)));
    let classes: Vec<String> = classes.collect();
    let size = match ratio == 1.0 {
        true => String::new(),
        false => format!(
            "; background-size: {}px {}px",
            f64::from(page.width) / ratio,
            f64::from(page.height) / ratio
        ),
    };
    format!(
        "/* sha256: {} */\n{} {{ background-image: url({}){} }}\n",
        page.sum,
        classes.join(",\n"),
        quoted(&path(&page.image)),
        size
    )
}

/// Of several scales the smallest is that of the page, and each larger one is for screens with so many more pixels.
pub fn text(stem: &str, sheets: &[&Sheet]) -> String {
    let common = common(stem);
    let mut text = format!(
        "@charset \"utf-8\";\n.{} {{ display: inline-block; position: relative; overflow: hidden }}\n\
         .{}::before {{ content: \"\"; display: block; position: absolute; background-repeat: no-repeat }}\n",
        common, common
    );
    let mut sheets = sheets.to_vec();
    sheets.sort_by(|one, other| one.scale.value().total_cmp(&other.scale.value()));
    let least = sheets.first().map_or(1.0, |sheet| sheet.scale.value());
    for (place, sheet) in sheets.iter().enumerate() {
        let ratio = sheet.scale.value() / least;
        if place > 0 {
            writeln!(text, "@media (min-resolution: {}dppx) {{", ratio).unwrap();
        }
        for page in &sheet.pages {
            for frame in &page.frames {
                let class = class(stem, &frame.name);
                if place == 0 {
                    text.push_str(&outer(&class, frame));
                }
                text.push_str(&inner(&class, frame, ratio));
            }
            text.push_str(&picture(stem, page, ratio));
        }
        if place > 0 {
            text.push_str("}\n");
        }
    }
    text
}

pub fn page(stem: &str, sheet: &Sheet) -> String {
    let mut text = format!(
        "<!DOCTYPE html>\n<meta charset=\"utf-8\">\n<title>{}</title>\n<link rel=\"stylesheet\" href=\"{}.css\">\n\
         <style>i {{ margin: 3px }}</style>\n",
        escaped(stem),
        path(stem)
    );
    for frame in sheet.pages.iter().flat_map(|page| &page.frames) {
        let (common, class) = (common(stem), class(stem, &frame.name));
        writeln!(
            text,
            "<i class=\"{} {}\" title=\"{}\"></i>",
            common,
            class,
            escaped(&frame.name)
        )
        .unwrap();
    }
    text
}
