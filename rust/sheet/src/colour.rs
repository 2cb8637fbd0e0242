//! What the files say of colours, where it is asked for: kept where all say the same, and applied where they differ.
use crate::picture::Picture;
use std::sync::Arc;

/// A chunk of a PNG: its name and its data.
pub type Chunk = ([u8; 4], Vec<u8>);

/// The chunks of a PNG that say what its numbers mean, in the order of their names.
#[derive(Clone, Debug, Default, PartialEq, Eq)]
pub struct Colour {
    chunks: Vec<Chunk>,
    // A colour profile in a file of another kind.
    has_profile: bool,
}

/// What holds for the sheets, and what is to be told of it.
#[derive(Default)]
pub struct Settled {
    pub chunks: Vec<Chunk>,
    pub notes: Vec<String>,
}

const APPLIED: &str = "gAMA is applied, so its numbers change: the sheet is sRGB";
const PASSED_OVER: &str = "iCCP, other primaries in cHRM, and gAMA without cHRM aren't applied; the values are taken as sRGB";

impl Colour {
    /// The chunks gAMA, cHRM, sRGB and iCCP that stand before the pixels.
    pub fn of_png(bytes: &[u8]) -> Colour {
        let mut chunks = Vec::new();
        let mut rest = bytes.get(8..).unwrap_or(&[]);
        while let Some((length, name)) = rest.get(..4).zip(rest.get(4..8)) {
            let length = u32::from_be_bytes([length[0], length[1], length[2], length[3]]) as usize;
            let name = [name[0], name[1], name[2], name[3]];
            let data = match rest.get(8..8usize.saturating_add(length)) {
                Some(data) if &name != b"IDAT" => data,
                _ => break,
            };
            if [b"gAMA", b"cHRM", b"sRGB", b"iCCP"].contains(&&name) {
                chunks.push((name, data.to_vec()));
            }
            rest = rest.get(12 + length..).unwrap_or(&[]);
        }
        chunks.sort();
        Colour {
            chunks,
            has_profile: false,
        }
    }

    pub fn of_others(has_profile: bool) -> Colour {
        Colour {
            chunks: Vec::new(),
            has_profile,
        }
    }

    fn chunk(&self, name: &[u8; 4]) -> Option<&[u8]> {
        self.chunks
            .iter()
            .find(|chunk| &chunk.0 == name)
            .map(|chunk| &chunk.1[..])
    }

    // Whether cHRM has the primaries and the white of sRGB.
    fn has_usual_primaries(&self) -> bool {
        let srgb = [31270u32, 32900, 64000, 33000, 30000, 60000, 15000, 6000];
        let is_near = |data: &[u8]| {
            let given = data
                .chunks_exact(4)
                .map(|d| u32::from_be_bytes([d[0], d[1], d[2], d[3]]));
            data.len() == 32
                && given
                    .zip(srgb)
                    .all(|(given, srgb)| given.abs_diff(srgb) <= 100)
        };
        self.chunk(b"cHRM").map_or(false, is_near)
    }

    // A profile stands above sRGB, and that above cHRM and gAMA.
    fn meaning(&self) -> Meaning {
        let gamma = self
            .chunk(b"gAMA")
            .and_then(|data| data.try_into().ok())
            .map(u32::from_be_bytes);
        if self.has_profile || self.chunk(b"iCCP").is_some() {
            Meaning::Other
        } else if self.chunk(b"sRGB").is_some() || self.chunks.is_empty() {
            Meaning::Srgb
        } else {
            match gamma {
                Some(gamma) if gamma > 0 && self.has_usual_primaries() => Meaning::Gamma(gamma),
                _ => Meaning::Other,
            }
        }
    }
}

// What the numbers of a picture mean.
enum Meaning {
    Srgb,
    // The primaries of sRGB, and this gAMA, in hundred-thousandths.
    Gamma(u32),
    // What isn't applied here: a profile, other primaries, or gAMA without primaries, which browsers pass over as well.
    Other,
}

/// Where all say the same, nothing is changed, and the sheets say it too. Else gAMA beside cHRM is applied, and the sheets are
/// sRGB.
pub fn settle(found: &mut [(String, Arc<Picture>, Colour)]) -> Settled {
    let first = found.first().map(|one| one.2.clone()).unwrap_or_default();
    if !first.has_profile && found.iter().all(|one| one.2 == first) {
        return Settled {
            chunks: first.chunks,
            notes: Vec::new(),
        };
    }
    let (mut applied, mut passed_over) = (Vec::new(), Vec::new());
    for (name, picture, colour) in found.iter_mut() {
        match colour.meaning() {
            Meaning::Srgb => {}
            Meaning::Gamma(gamma) => {
                apply(Arc::make_mut(picture), gamma);
                applied.push(format!("colours differ: {}: {}", name, APPLIED));
            }
            Meaning::Other => {
                passed_over.push(format!("colours differ: {}: {}", name, PASSED_OVER));
            }
        }
    }
    applied.append(&mut passed_over);
    Settled {
        chunks: vec![(*b"sRGB", vec![0])],
        notes: applied,
    }
}

// Brings red, green and blue to sRGB: a number v of 0 to 1 stands for the light v to the power of 1 / gamma.
fn apply(picture: &mut Picture, gamma: u32) {
    let power = 100_000.0 / f64::from(gamma);
    let mut table = [0u8; 256];
    for (value, entry) in table.iter_mut().enumerate() {
        let light = (value as f64 / 255.0).powf(power);
        let encoded = if light <= 0.003_130_8 {
            12.92 * light
        } else {
            1.055 * light.powf(1.0 / 2.4) - 0.055
        };
        *entry = (encoded * 255.0).round().clamp(0.0, 255.0) as u8;
    }
    for pixel in &mut picture.pixels {
        for colour in &mut pixel[..3] {
            *colour = table[*colour as usize];
        }
    }
}

#[cfg(test)]
mod tests {
    use super::{settle, Colour};
    use crate::picture::Picture;
    use std::sync::Arc;

    fn one(name: &str, chunks: &[(&[u8; 4], &[u8])]) -> (String, Arc<Picture>, Colour) {
        let chunks = chunks
            .iter()
            .map(|(name, data)| (**name, data.to_vec()))
            .collect();
        let picture = Picture {
            width: 1,
            height: 1,
            pixels: vec![[0, 20, 128, 255]],
        };
        let colour = Colour {
            chunks,
            has_profile: false,
        };
        (name.to_string(), Arc::new(picture), colour)
    }

    const GAMMA: (&[u8; 4], &[u8]) = (b"gAMA", &[0, 0, 0xb1, 0x8f]);

    fn primaries() -> Vec<u8> {
        let srgb = [31270u32, 32900, 64000, 33000, 30000, 60000, 15000, 6000];
        srgb.iter()
            .flat_map(|number| number.to_be_bytes())
            .collect()
    }

    #[test]
    fn keeps_what_is_equal() {
        let mut found = [one("a", &[GAMMA]), one("b", &[GAMMA])];
        let settled = settle(&mut found);
        assert_eq!(settled.chunks, [(*b"gAMA", vec![0, 0, 0xb1, 0x8f])]);
        assert!(settled.notes.is_empty());
        assert_eq!(found[0].1.pixels, [[0, 20, 128, 255]]);
    }

    #[test]
    fn applies_gamma_where_they_differ() {
        let mut found = [
            one("a", &[(b"cHRM", &primaries()), GAMMA]),
            one("b", &[]),
            one("c", &[(b"sRGB", &[1])]),
        ];
        let settled = settle(&mut found);
        assert_eq!(settled.chunks, [(*b"sRGB", vec![0])]);
        assert_eq!(
            settled.notes,
            ["colours differ: a: gAMA is applied, so its numbers change: the sheet is sRGB"]
        );
        // 20/255 to the power 1/0.45455 is 0.003697; 1.055 times that to 1/2.4, less 0.055, is 0.0473, which is 12.06 of 255.
        // 128/255 gives 0.2195, and that 0.50588, which is 129.00 of 255.
        assert_eq!(found[0].1.pixels[0], [0, 12, 129, 255]);
        assert_eq!(found[1].1.pixels[0], [0, 20, 128, 255]);
    }

    #[test]
    fn names_all_that_change() {
        let both: [(&[u8; 4], &[u8]); 2] = [(b"cHRM", &primaries()), GAMMA];
        let mut found = [one("a", &both), one("b", &both), one("c", &[])];
        let note = |name: &str| format!("colours differ: {}: {}", name, super::APPLIED);
        assert_eq!(settle(&mut found).notes, ["a", "b"].map(note));
    }

    #[test]
    fn tells_of_what_it_does_not_apply() {
        let other = (b"cHRM", &[0; 32][..]);
        let mut found = [
            one("a", &[(b"iCCP", b"x")]),
            one("b", &[]),
            one("c", &[other, GAMMA]),
            one("d", &[GAMMA]),
        ];
        let notes = settle(&mut found).notes;
        let note = |name: &str| format!("colours differ: {}: {}", name, super::PASSED_OVER);
        assert_eq!(notes, ["a", "c", "d"].map(note));
        assert_eq!(found[3].1.pixels[0], [0, 20, 128, 255]);
    }
}
