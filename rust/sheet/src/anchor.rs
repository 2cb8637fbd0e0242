//! Anchors: the point of a picture that lies where the engine puts it.
use crate::fault::{Fault, FILES};
use crate::folder::{self, Named, Patterns};
use std::path::Path;
use std::str::FromStr;

/// The file in the folder of pictures that tells them.
pub const FILE: &str = "anchors.txt";

/// Parts of the width from the left, and of the height from above.
#[derive(Clone, Copy, Debug, PartialEq)]
pub struct Anchor {
    pub x: f64,
    pub y: f64,
}

fn part(text: &str) -> Option<f64> {
    text.parse().ok().filter(|value: &f64| value.abs() <= 1e6)
}

impl FromStr for Anchor {
    type Err = String;

    fn from_str(text: &str) -> Result<Anchor, String> {
        let both = text.split_once(',');
        let anchor = both.and_then(|(x, y)| {
            Some(Anchor {
                x: part(x)?,
                y: part(y)?,
            })
        });
        anchor.ok_or_else(|| {
            "an anchor is X,Y in parts of the width and the height, as 0.5,1".to_string()
        })
    }
}

// A line `PATTERN X Y`.
fn line(text: &str) -> Option<(Patterns, Anchor)> {
    let mut words = text.trim_end().rsplitn(3, ' ');
    let (y, x, pattern) = (words.next()?, words.next()?, words.next()?);
    let anchor = Anchor {
        x: part(x)?,
        y: part(y)?,
    };
    Some((Patterns::new(&[pattern.to_string()]).ok()?, anchor))
}

/// The anchor of each file: that of the last line in the folder's file that is like it, and else `usual`. A line that is like none is told.
pub fn anchors(
    inside: &Path,
    files: &[Named],
    usual: Option<Anchor>,
    notes: &mut Vec<String>,
) -> Result<Vec<Option<Anchor>>, Fault> {
    let path = inside.join(FILE);
    let mut anchors = vec![usual; files.len()];
    for (number, text) in folder::lines(&path)? {
        let told = |what: &str| format!("{}: line {}: {}", path.display(), number, what);
        let (pattern, anchor) =
            line(&text).ok_or_else(|| Fault::new(FILES, told("it isn't PATTERN X Y")))?;
        let mut is_used = false;
        for ((_, file), place) in files.iter().zip(&mut anchors) {
            if pattern.has(file.strip_prefix(inside).unwrap_or(file)) {
                *place = Some(anchor);
                is_used = true;
            }
        }
        if !is_used {
            notes.push(told("no picture is like it"));
        }
    }
    Ok(anchors)
}
