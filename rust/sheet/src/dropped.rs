//! What isn't taken of a file: frames after the first one, and how Exif turns it.
use crate::webp;

/// Whether there are more frames, and whether the first is to be shown turned.
#[derive(Clone, Copy, Debug, Default, PartialEq, Eq)]
pub struct Dropped {
    pub has_frames: bool,
    pub is_turned: bool,
}

// The tag of a TIFF, and so of Exif, that tells how the picture lies; 1 is upright.
const ORIENTATION: u16 = 0x112;

// Two bytes of a TIFF, which says in its first two in which order they come.
fn two(bytes: &[u8], at: usize) -> Option<u16> {
    let two = [*bytes.get(at)?, *bytes.get(at.checked_add(1)?)?];
    Some(match bytes.starts_with(b"II") {
        true => u16::from_le_bytes(two),
        false => u16::from_be_bytes(two),
    })
}

fn four(bytes: &[u8], at: usize) -> Option<usize> {
    let (first, second) = (two(bytes, at)?, two(bytes, at.checked_add(2)?)?);
    let (low, high) = match bytes.starts_with(b"II") {
        true => (first, second),
        false => (second, first),
    };
    Some(usize::from(high) << 16 | usize::from(low))
}

// Of the first directory: its orientation, and whether another directory, of another picture, follows.
fn of_tiff(bytes: &[u8]) -> Option<Dropped> {
    if !bytes.starts_with(b"II\x2a\0") && !bytes.starts_with(b"MM\0\x2a") {
        return None;
    }
    let from = four(bytes, 4)?;
    let count = usize::from(two(bytes, from)?);
    let entry = |number: usize| from + 2 + 12 * number;
    let mut tags = (0..count).filter(|number| two(bytes, entry(*number)) == Some(ORIENTATION));
    let told = tags.next().and_then(|number| two(bytes, entry(number) + 8));
    Some(Dropped {
        has_frames: four(bytes, entry(count)).map_or(false, |next| next != 0),
        is_turned: (2..=8).contains(&told.unwrap_or(1)),
    })
}

// In another file Exif tells of its picture alone; what follows its first directory is a small picture of the same.
fn of_exif(bytes: &[u8]) -> Dropped {
    let inside = bytes.strip_prefix(b"Exif\0\0").unwrap_or(bytes);
    Dropped {
        has_frames: false,
        ..of_tiff(inside).unwrap_or_default()
    }
}

fn of_jpeg(bytes: &[u8]) -> Option<Dropped> {
    let mut at = 2;
    loop {
        let marker = *bytes.get(at + 1)?;
        if bytes[at] != 0xff || marker == 0xda {
            return None;
        }
        let length = u16::from_be_bytes([*bytes.get(at + 2)?, *bytes.get(at + 3)?]);
        let data = bytes.get(at + 4..at + 2 + usize::from(length))?;
        if marker == 0xe1 && data.starts_with(b"Exif\0\0") {
            return Some(of_exif(data));
        }
        at += 2 + usize::from(length);
    }
}

fn of_png(bytes: &[u8]) -> Dropped {
    let mut dropped = Dropped::default();
    let mut rest = &bytes[8..];
    while rest.len() > 12 {
        let length = u32::from_be_bytes([rest[0], rest[1], rest[2], rest[3]]) as usize;
        let data = match length.checked_add(12).and_then(|end| rest.get(8..end - 4)) {
            Some(data) => data,
            None => break,
        };
        match &rest[4..8] {
            b"eXIf" => dropped.is_turned = of_exif(data).is_turned,
            b"acTL" => {
                dropped.has_frames = data
                    .get(..4)
                    .map_or(false, |count| *count > [0, 0, 0, 1][..])
            }
            _ => {}
        }
        rest = rest.get(length + 12..).unwrap_or(&[]);
    }
    dropped
}

// Behind blocks that begin with their length, up to an empty one.
fn behind(bytes: &[u8], mut at: usize) -> Option<usize> {
    loop {
        let length = usize::from(*bytes.get(at)?);
        at += 1 + length;
        if length == 0 {
            return Some(at);
        }
    }
}

// Whether a GIF has a second picture.
fn has_frames(bytes: &[u8]) -> Option<bool> {
    let table = |flags: u8| {
        if flags & 128 == 0 {
            0
        } else {
            6 << (flags & 7)
        }
    };
    let mut at = 13 + table(*bytes.get(10)?);
    let mut count = 0;
    while count < 2 {
        match *bytes.get(at)? {
            0x21 => at = behind(bytes, at + 2)?,
            0x2c => {
                count += 1;
                at = behind(bytes, at + 11 + table(*bytes.get(at + 9)?))?;
            }
            _ => return Some(false),
        }
    }
    Some(true)
}

/// Of a file that is read.
pub fn of(bytes: &[u8]) -> Dropped {
    if bytes.starts_with(b"\x89PNG\r\n\x1a\n") {
        of_png(bytes)
    } else if bytes.starts_with(&[0xff, 0xd8]) {
        of_jpeg(bytes).unwrap_or_default()
    } else if bytes.starts_with(b"GIF8") {
        Dropped {
            has_frames: has_frames(bytes).unwrap_or(false),
            is_turned: false,
        }
    } else if bytes.starts_with(b"RIFF") {
        Dropped {
            has_frames: webp::has_frames(bytes),
            ..webp::exif(bytes).map_or_else(Dropped::default, of_exif)
        }
    } else {
        of_tiff(bytes).unwrap_or_default()
    }
}

/// A line for all names of which frames are dropped, and one for all that aren't turned.
pub fn lines(all: &[(&str, Dropped)]) -> Vec<String> {
    let named = |is: fn(&Dropped) -> bool, one: &str, several: &str| {
        let names: Vec<&str> = all
            .iter()
            .filter(|(_, dropped)| is(dropped))
            .map(|(name, _)| *name)
            .collect();
        match names[..] {
            [] => None,
            [name] => Some(format!("{}: {}", name, one)),
            [name, ..] => Some(format!(
                "{} and {} more: {}",
                name,
                names.len() - 1,
                several
            )),
        }
    };
    let frames = "only the first frame is taken";
    let turned = "how Exif turns it isn't applied";
    let lines = [
        named(|dropped| dropped.has_frames, frames, frames),
        named(
            |dropped| dropped.is_turned,
            turned,
            "how Exif turns them isn't applied",
        ),
    ];
    lines.into_iter().flatten().collect()
}
