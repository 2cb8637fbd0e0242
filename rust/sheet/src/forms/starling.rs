//! The XML of Starling's texture atlases.
use super::{escaped, File};
use crate::sheet::{Frame, Sheet};
use std::fmt::Write;

/// Why a name can't stand in XML.
pub fn fault(name: &str) -> Option<String> {
    let is_wrong = name.contains(['\u{fffe}', '\u{ffff}']);
    is_wrong.then(|| format!("{:?}: XML can't contain U+FFFE or U+FFFF", name))
}

// The sides are those of the place in the sheet; the frame is what the sprite lies in, seen from its corner.
fn line(frame: &Frame) -> String {
    let (width, height) = frame.lying();
    let mut line = format!(
        "  <SubTexture name=\"{}\" x=\"{}\" y=\"{}\" width=\"{}\" height=\"{}\"",
        escaped(&frame.name),
        frame.x,
        frame.y,
        width,
        height
    );
    if frame.is_turned {
        line.push_str(" rotated=\"true\"");
    }
    if frame.is_trimmed() {
        let (left, top) = (-i64::from(frame.kept.left), -i64::from(frame.kept.top));
        let (width, height) = frame.whole;
        write!(
            line,
            " frameX=\"{}\" frameY=\"{}\" frameWidth=\"{}\" frameHeight=\"{}\"",
            left, top, width, height
        )
        .unwrap();
    }
    if let Some(anchor) = frame.anchor {
        let (x, y) = (
            anchor.x * f64::from(frame.whole.0),
            anchor.y * f64::from(frame.whole.1),
        );
        write!(line, " pivotX=\"{}\" pivotY=\"{}\"", x, y).unwrap();
    }
    line.push_str("/>\n");
    line
}

pub fn files(sheet: &Sheet) -> Vec<File> {
    let file = |page: &crate::sheet::Page| {
        let lines: String = page.frames.iter().map(line).collect();
        let head = "<?xml version=\"1.0\" encoding=\"UTF-8\"?>\n<TextureAtlas imagePath=\"";
        let text = format!(
            "{}{}\" sha256=\"{}\">\n{}</TextureAtlas>\n",
            head,
            escaped(&page.image),
            page.sum,
            lines
        );
        (page.beside(".xml"), text.into_bytes())
    };
    sheet.pages.iter().map(file).collect()
}
