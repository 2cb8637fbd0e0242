//! The first frame of an animated WebP, as a file of its own.
use crate::decode::NO_MEMORY;
use crate::picture::Picture;

/// A frame: the size of the whole picture, where the frame lies in it, and the frame's own file.
pub struct First {
    pub width: u32,
    pub height: u32,
    pub left: u32,
    pub top: u32,
    pub file: Vec<u8>,
}

// In VP8X: there are frames; there is alpha.
const ANIMATED: u8 = 2;
const ALPHA: u8 = 16;

fn number(bytes: &[u8]) -> u32 {
    bytes
        .iter()
        .rev()
        .fold(0, |sum, byte| sum << 8 | u32::from(*byte))
}

// The name and the data of the chunk at the beginning, and what follows it.
fn chunk(bytes: &[u8]) -> Option<(&[u8], &[u8], &[u8])> {
    let length = number(bytes.get(4..8)?) as usize;
    let data = bytes.get(8..8usize.checked_add(length)?)?;
    let rest = bytes.get(8 + length + length % 2..).unwrap_or(&[]);
    Some((&bytes[..4], data, rest))
}

// The data of the first chunk of this name.
fn find<'a>(mut bytes: &'a [u8], name: &[u8]) -> Option<&'a [u8]> {
    loop {
        let (found, data, rest) = chunk(bytes)?;
        if found == name {
            return Some(data);
        }
        bytes = rest;
    }
}

fn put(file: &mut Vec<u8>, name: &[u8], data: &[u8]) {
    file.extend(name);
    file.extend((data.len() as u32).to_le_bytes());
    file.extend(data);
    file.extend(&[0][..data.len() % 2]);
}

/// The size of the picture in a file, whatever the head says of the whole; none where there is none.
pub fn inner(bytes: &[u8]) -> Option<(u32, u32)> {
    let rest = bytes.get(12..)?;
    if let Some(data) = find(rest, b"VP8L") {
        let bits = number(data.get(1..5)?);
        return Some(((bits & 0x3fff) + 1, (bits >> 14 & 0x3fff) + 1));
    }
    let data = find(rest, b"VP8 ")?;
    let side = |from: usize| Some(number(data.get(from..from + 2)?) & 0x3fff);
    Some((side(6)?, side(8)?))
}

/// Whether there is a second frame.
pub fn has_frames(bytes: &[u8]) -> bool {
    let mut rest = bytes.get(12..).unwrap_or(&[]);
    let mut count = 0;
    while let Some((name, _, next)) = chunk(rest) {
        count += usize::from(name == b"ANMF");
        rest = next;
    }
    count > 1
}

/// What Exif tells.
pub fn exif(bytes: &[u8]) -> Option<&[u8]> {
    find(bytes.get(12..)?, b"EXIF")
}

/// The first frame; none where the file has no animation.
pub fn first(bytes: &[u8]) -> Option<First> {
    let (name, head, rest) = chunk(bytes.get(12..)?)?;
    if name != b"VP8X" || head.len() < 10 || head[0] & ANIMATED == 0 {
        return None;
    }
    let frame = find(rest, b"ANMF").filter(|frame| frame.len() > 16)?;
    let side = |place: usize| number(&frame[place..place + 3]);
    let (mut body, parts) = (b"WEBP".to_vec(), &frame[16..]);
    if let Some(alpha) = find(parts, b"ALPH") {
        let flags = [&[ALPHA, 0, 0, 0], &frame[6..12]].concat();
        put(&mut body, b"VP8X", &flags);
        put(&mut body, b"ALPH", alpha);
    }
    let kind: &[u8] = if find(parts, b"VP8L").is_some() {
        b"VP8L"
    } else {
        b"VP8 "
    };
    put(&mut body, kind, find(parts, kind)?);
    let mut file = Vec::new();
    put(&mut file, b"RIFF", &body);
    Some(First {
        width: number(&head[4..7]) + 1,
        height: number(&head[7..10]) + 1,
        left: side(0) * 2,
        top: side(3) * 2,
        file,
    })
}

impl First {
    /// The frame, in a picture that is transparent around it.
    pub fn put(&self, frame: &Picture) -> Result<Picture, String> {
        let fits = |from: u32, side: u32, whole: u32| {
            u64::from(from) + u64::from(side) <= u64::from(whole)
        };
        if !fits(self.left, frame.width, self.width) || !fits(self.top, frame.height, self.height) {
            return Err("the file is damaged (its first frame lies outside)".to_string());
        }
        let mut whole = Picture::empty(self.width, self.height).map_err(|_| NO_MEMORY)?;
        whole.draw(frame, self.left, self.top, crate::picture::Lie::Upright, 0);
        Ok(whole)
    }
}
