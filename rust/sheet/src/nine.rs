//! Nine-patches: pictures `.9.png` with lines at their borders that tell what is stretched, and where a text may stand.
use crate::picture::{Part, Picture, Pixel};
use crate::scale::Scale;

/// Pixels from each side.
#[derive(Clone, Copy, Debug, PartialEq, Eq)]
pub struct Sides {
    pub left: u32,
    pub right: u32,
    pub top: u32,
    pub bottom: u32,
}

/// What isn't stretched, and where no text stands, if that is told.
#[derive(Clone, Copy, Debug, PartialEq, Eq)]
pub struct Nine {
    pub split: Sides,
    pub pad: Option<Sides>,
}

const BLACK: Pixel = [0, 0, 0, 255];

/// Whether a file is one, by its ending.
pub fn is_nine(path: &std::path::Path) -> bool {
    let name = path
        .file_name()
        .map(|name| name.to_string_lossy().to_ascii_lowercase());
    name.map_or(false, |name| {
        name.ends_with(".9.png") && name.len() > ".9.png".len()
    })
}

// How many pixels lie before the first black one of a line and after the last; none where none is black.
fn mark(line: &[Pixel]) -> Result<Option<(u32, u32)>, String> {
    if line.iter().any(|pixel| *pixel != BLACK && pixel[3] != 0) {
        return Err("its lines have a pixel that is neither black nor transparent".to_string());
    }
    let first = line.iter().position(|pixel| *pixel == BLACK);
    let last = line.iter().rposition(|pixel| *pixel == BLACK);
    Ok(first
        .zip(last)
        .map(|(first, last)| (first as u32, (line.len() - 1 - last) as u32)))
}

/// The picture without its lines, and what they tell.
pub fn read(picture: &Picture) -> Result<(Picture, Nine), String> {
    let (width, height) = (picture.width, picture.height);
    if width < 3 || height < 3 {
        return Err("a nine-patch has at least 3x3 pixels".to_string());
    }
    let row = |y: u32| (1..width - 1).map(|x| picture.at(x, y)).collect::<Vec<_>>();
    let column = |x: u32| {
        (1..height - 1)
            .map(|y| picture.at(x, y))
            .collect::<Vec<_>>()
    };
    let (across, down) = (mark(&row(0))?, mark(&column(0))?);
    let (below, beside) = (mark(&row(height - 1))?, mark(&column(width - 1))?);
    // Without a mark all is stretched.
    let sides = |across: Option<(u32, u32)>, down: Option<(u32, u32)>| {
        let ((left, right), (top, bottom)) = (across.unwrap_or((0, 0)), down.unwrap_or((0, 0)));
        Sides {
            left,
            right,
            top,
            bottom,
        }
    };
    let split = sides(across, down);
    let is_told = below.is_some() || beside.is_some();
    let pad = Some(sides(below.or(across), beside.or(down))).filter(|pad| is_told && *pad != split);
    let inner = Part {
        left: 1,
        top: 1,
        width: width - 2,
        height: height - 2,
    };
    Ok((picture.part(inner), Nine { split, pad }))
}

impl Nine {
    /// Of a smaller picture.
    pub fn scaled(self, scale: Scale) -> Nine {
        let side = |pixels: u32| (f64::from(pixels) * scale.value()).round() as u32;
        let sides = |sides: Sides| Sides {
            left: side(sides.left),
            right: side(sides.right),
            top: side(sides.top),
            bottom: side(sides.bottom),
        };
        Nine {
            split: sides(self.split),
            pad: self.pad.map(sides),
        }
    }
}

#[cfg(test)]
mod tests {
    use super::{read, Nine, Sides};
    use crate::picture::Picture;

    // `#` is black, `.` is transparent, and each other letter a colour.
    fn picture(lines: &[&str]) -> Picture {
        let pixel = |letter: u8| match letter {
            b'#' => [0, 0, 0, 255],
            b'.' => [9, 9, 9, 0],
            other => [other, 1, 1, 255],
        };
        Picture {
            width: lines[0].len() as u32,
            height: lines.len() as u32,
            pixels: lines
                .iter()
                .flat_map(|line| line.bytes().map(pixel))
                .collect(),
        }
    }

    fn sides(left: u32, right: u32, top: u32, bottom: u32) -> Sides {
        Sides {
            left,
            right,
            top,
            bottom,
        }
    }

    #[test]
    fn reads_lines() {
        let (inner, nine) = read(&picture(&[
            "..##..", ".abcd.", "#efgh#", ".ijkl.", ".##...",
        ]))
        .unwrap();
        assert_eq!(inner, picture(&["abcd", "efgh", "ijkl"]));
        assert_eq!(nine.split, sides(1, 1, 1, 1));
        assert_eq!(nine.pad, Some(sides(0, 2, 1, 1)));
        let (_, nine) = read(&picture(&[".#.", "#a.", "..."])).unwrap();
        assert_eq!(
            nine,
            Nine {
                split: sides(0, 0, 0, 0),
                pad: None
            }
        );
        let (_, nine) = read(&picture(&["...", ".a#", "..."])).unwrap();
        assert_eq!((nine.split, nine.pad), (sides(0, 0, 0, 0), None));
        assert!(read(&picture(&[".x.", "#a.", "..."])).is_err());
        assert!(read(&picture(&["..", ".."])).is_err());
    }

    #[test]
    fn is_smaller() {
        let nine = Nine {
            split: sides(3, 1, 0, 10),
            pad: None,
        };
        assert_eq!(nine.scaled("0.5".parse().unwrap()).split, sides(2, 1, 0, 5));
    }
}
