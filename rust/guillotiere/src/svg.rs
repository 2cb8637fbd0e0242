//! Drawings of an atlas, as SVG.
use crate::{AtlasAllocator, Rectangle};
use std::fmt::Write as _;
use std::io::{Result, Write};
use std::string::String;

/// Writes a drawing of the atlas: a rectangle for each free and for each live one, in colours of their own. Needs the feature `std`,
/// which is on by default.
///
/// ```
/// use guillotiere::{dump_svg, size2, AtlasAllocator};
///
/// let mut atlas = AtlasAllocator::new(size2(64, 64));
/// let _ = atlas.allocate(size2(20, 60));
/// let mut drawing = Vec::new();
/// dump_svg(&atlas, &mut drawing)?;
/// assert!(drawing.starts_with(b"<svg"));
/// # Ok::<(), std::io::Error>(())
/// ```
///
/// # Errors
///
/// Those of `output`.
pub fn dump_svg(atlas: &AtlasAllocator, output: &mut dyn Write) -> Result<()> {
    let size = atlas.size();
    writeln!(
        output,
        r#"<svg xmlns="http://www.w3.org/2000/svg" viewBox="0 0 {} {}">"#,
        size.width, size.height
    )?;
    dump_into_svg(atlas, None, output)?;
    writeln!(output, "</svg>")
}

/// What an atlas holds as SVG, without the beginning and the end of a document, moved and scaled so that it fills `rect`, if that is
/// given. Needs the feature `std`, which is on by default.
///
/// ```
/// use guillotiere::{dump_into_svg, point2, size2, AtlasAllocator, Rectangle};
///
/// let atlas = AtlasAllocator::new(size2(64, 64));
/// let place = Rectangle { min: point2(10, 10), max: point2(20, 20) };
/// let mut drawing = Vec::new();
/// dump_into_svg(&atlas, Some(&place), &mut drawing)?;
/// assert!(drawing.starts_with(b"    <rect x=\"10\" y=\"10\" width=\"10\""));
/// # Ok::<(), std::io::Error>(())
/// ```
///
/// # Errors
///
/// Those of `output`.
pub fn dump_into_svg(
    atlas: &AtlasAllocator,
    rect: Option<&Rectangle>,
    output: &mut dyn Write,
) -> Result<()> {
    let size = atlas.size();
    let whole = Rectangle {
        min: crate::point2(0, 0),
        max: crate::point2(size.width, size.height),
    };
    let frame = Frame::new(&whole, rect.unwrap_or(&whole));
    let mut text = String::new();
    atlas.for_each_free_rectangle(|area| frame.draw(area, "rgb(50,50,50)", &mut text));
    atlas.for_each_allocated_rectangle(|_, area| frame.draw(area, "rgb(70,70,180)", &mut text));
    output.write_all(text.as_bytes())
}

// Where a drawing is: its corner, and how much each side is scaled.
struct Frame {
    corner: (f32, f32),
    scale: (f32, f32),
}

fn length(from: i32, to: i32) -> f32 {
    (i64::from(to) - i64::from(from)) as f32
}

impl Frame {
    fn new(whole: &Rectangle, rect: &Rectangle) -> Frame {
        let width = length(rect.min.x, rect.max.x) / length(whole.min.x, whole.max.x);
        let height = length(rect.min.y, rect.max.y) / length(whole.min.y, whole.max.y);
        Frame {
            corner: (rect.min.x as f32, rect.min.y as f32),
            scale: (width, height),
        }
    }

    fn draw(&self, area: &Rectangle, colour: &str, text: &mut String) {
        let written = writeln!(
            text,
            r#"    <rect x="{}" y="{}" width="{}" height="{}" style="fill:{};stroke:rgb(0,0,0);stroke-width:1" />"#,
            self.corner.0 + area.min.x as f32 * self.scale.0,
            self.corner.1 + area.min.y as f32 * self.scale.1,
            length(area.min.x, area.max.x) * self.scale.0,
            length(area.min.y, area.max.y) * self.scale.1,
            colour
        );
        written.expect("a text takes all that is written");
    }
}
