//! Pixels, and what is done with them.
use crate::heap;
use crate::scale::Scale;
use std::collections::TryReserveError;
use std::hash::{Hash, Hasher};

/// A pixel: red, green, blue and alpha.
pub type Pixel = [u8; 4];

/// Rows of pixels from the top, each from the left.
#[derive(Clone, Debug, PartialEq, Eq)]
pub struct Picture {
    pub width: u32,
    pub height: u32,
    pub pixels: Vec<Pixel>,
}

/// Left, top, width and height of a part of a picture.
#[derive(Clone, Copy, Debug, PartialEq, Eq)]
pub struct Part {
    pub left: u32,
    pub top: u32,
    pub width: u32,
    pub height: u32,
}

/// How a sprite lies in a sheet.
#[derive(Clone, Copy, Debug, PartialEq, Eq)]
pub enum Lie {
    Upright,
    /// Turned by 90 degrees clockwise.
    Clockwise,
    /// Turned by 90 degrees counter-clockwise.
    CounterClockwise,
}

// A pixel at a time; that of the standard library takes longer than reading the files.
impl Hash for Picture {
    fn hash<H: Hasher>(&self, state: &mut H) {
        let add = |sum: u64, pixel: &Pixel| {
            (sum.rotate_left(5) ^ u64::from(u32::from_le_bytes(*pixel)))
                .wrapping_mul(0x517c_c1b7_2722_0a95)
        };
        (self.width, self.height, self.pixels.iter().fold(0, add)).hash(state);
    }
}

impl Picture {
    /// Transparent black, if there is memory for it.
    pub fn empty(width: u32, height: u32) -> Result<Picture, TryReserveError> {
        let count = width as usize * height as usize;
        let mut pixels = heap::list(count)?;
        pixels.resize(count, [0; 4]);
        Ok(Picture {
            width,
            height,
            pixels,
        })
    }

    pub fn at(&self, x: u32, y: u32) -> Pixel {
        self.pixels[y as usize * self.width as usize + x as usize]
    }

    fn row(&self, y: u32) -> &[Pixel] {
        let width = self.width as usize;
        &self.pixels[y as usize * width..][..width]
    }

    /// The whole.
    pub fn whole(&self) -> Part {
        Part {
            left: 0,
            top: 0,
            width: self.width,
            height: self.height,
        }
    }

    /// The smallest part that has all pixels whose alpha is above this; where none is, the first pixel.
    pub fn visible(&self, most: u8) -> Part {
        let is_seen = |pixel: &Pixel| pixel[3] > most;
        let rows: Vec<u32> = (0..self.height)
            .filter(|y| self.row(*y).iter().any(is_seen))
            .collect();
        let (top, bottom) = match (rows.first(), rows.last()) {
            (Some(top), Some(bottom)) => (*top, *bottom),
            _ => {
                return Part {
                    width: 1,
                    height: 1,
                    ..self.whole()
                }
            }
        };
        let (mut left, mut right) = (self.width, 0);
        for y in top..=bottom {
            let row = self.row(y);
            if let Some(first) = row.iter().position(is_seen) {
                left = left.min(first as u32);
                right = right.max(row.iter().rposition(is_seen).unwrap_or(first) as u32);
            }
        }
        Part {
            left,
            top,
            width: right - left + 1,
            height: bottom - top + 1,
        }
    }

    pub fn part(&self, part: Part) -> Picture {
        let columns = part.left as usize..(part.left + part.width) as usize;
        let pixels = (part.top..part.top + part.height)
            .flat_map(|y| self.row(y)[columns.clone()].iter().copied());
        Picture {
            width: part.width,
            height: part.height,
            pixels: pixels.collect(),
        }
    }

    /// Each pixel the mean of those that it covers, weighted by how much of each and by alpha.
    pub fn scaled(&self, scale: Scale) -> Picture {
        let side = |pixels: u32| scale.of(pixels.into()) as u32;
        let (width, height) = (side(self.width), side(self.height));
        let columns = Covered::all(self.width, width);
        let rows = Covered::all(self.height, height);
        let mut pixels = Vec::with_capacity(width as usize * height as usize);
        for row in &rows {
            pixels.extend(columns.iter().map(|column| self.mean(column, row)));
        }
        Picture {
            width,
            height,
            pixels,
        }
    }

    fn mean(&self, column: &Covered, row: &Covered) -> Pixel {
        let (mut colours, mut alphas, mut weights) = ([0u64; 3], 0u64, 0u64);
        for (y, high) in row.weights() {
            for (x, wide) in column.weights() {
                let (pixel, weight) = (self.at(x, y), high * wide);
                let alpha = weight * u64::from(pixel[3]);
                for (sum, colour) in colours.iter_mut().zip(pixel) {
                    *sum += alpha * u64::from(colour);
                }
                alphas += alpha;
                weights += weight;
            }
        }
        let colour = |sum: u64| if alphas == 0 { 0 } else { rounded(sum, alphas) };
        [
            colour(colours[0]),
            colour(colours[1]),
            colour(colours[2]),
            rounded(alphas, weights),
        ]
    }

    /// Draws a sprite with its upper left corner at (`x`, `y`), as it lies, with its outermost pixels repeated `extrude`
    /// times around it.
    pub fn draw(&mut self, sprite: &Picture, x: u32, y: u32, lie: Lie, extrude: u32) {
        let (width, height) = match lie {
            Lie::Upright => (sprite.width, sprite.height),
            _ => (sprite.height, sprite.width),
        };
        for row in 0..height + 2 * extrude {
            let v = row.saturating_sub(extrude).min(height - 1);
            let start = (y - extrude + row) as usize * self.width as usize + (x - extrude) as usize;
            let line = &mut self.pixels[start..][..(width + 2 * extrude) as usize];
            for (column, pixel) in line.iter_mut().enumerate() {
                let u = (column as u32).saturating_sub(extrude).min(width - 1);
                *pixel = match lie {
                    Lie::Upright => sprite.at(u, v),
                    Lie::Clockwise => sprite.at(v, sprite.height - 1 - u),
                    Lie::CounterClockwise => sprite.at(sprite.width - 1 - v, u),
                };
            }
        }
    }

    /// Gives transparent pixels the mean colour of those around them that have one, weighted by alpha, so many pixels far.
    pub fn bleed(&mut self, far: u32) {
        let mut has_colour: Vec<bool> = self.pixels.iter().map(|pixel| pixel[3] != 0).collect();
        for _ in 0..far {
            let filled = self.ring(&has_colour);
            for (place, colour) in filled {
                self.pixels[place][..3].copy_from_slice(&colour);
                has_colour[place] = true;
            }
        }
    }

    // The colours of the pixels that have none and touch one that has.
    fn ring(&self, has_colour: &[bool]) -> Vec<(usize, [u8; 3])> {
        let width = self.width as usize;
        let mut filled = Vec::new();
        for (y, row) in has_colour.chunks_exact(width).enumerate() {
            for (x, _) in row.iter().enumerate().filter(|(_, has)| !**has) {
                let (mut sums, mut weights) = ([0u64; 3], 0u64);
                for v in y.saturating_sub(1)..(y + 2).min(self.height as usize) {
                    for u in x.saturating_sub(1)..(x + 2).min(width) {
                        let place = v * width + u;
                        if has_colour[place] {
                            let pixel = self.pixels[place];
                            // Those that got their colour in an earlier ring have no alpha.
                            let weight = u64::from(pixel[3].max(1));
                            weights += weight;
                            for (sum, colour) in sums.iter_mut().zip(pixel) {
                                *sum += weight * u64::from(colour);
                            }
                        }
                    }
                }
                if weights > 0 {
                    filled.push((y * width + x, sums.map(|sum| rounded(sum, weights))));
                }
            }
        }
        filled
    }

    /// Red, green and blue multiplied by alpha.
    pub fn premultiply(&mut self) {
        for pixel in &mut self.pixels {
            let alpha = u64::from(pixel[3]);
            for colour in &mut pixel[..3] {
                *colour = rounded(u64::from(*colour) * alpha, 255);
            }
        }
    }
}

// The nearest whole number; a half goes up.
fn rounded(sum: u64, by: u64) -> u8 {
    ((2 * sum + by) / (2 * by)) as u8
}

// What one of `count` equal steps over `side` pixels covers, in parts of which each pixel has `count` and each step `side`.
struct Covered {
    begin: u64,
    end: u64,
    count: u64,
}

impl Covered {
    fn all(side: u32, count: u32) -> Vec<Covered> {
        let (side, count) = (u64::from(side), u64::from(count));
        let step = |number| Covered {
            begin: number * side,
            end: (number + 1) * side,
            count,
        };
        (0..count).map(step).collect()
    }

    fn weights(&self) -> impl Iterator<Item = (u32, u64)> + '_ {
        let last = (self.end + self.count - 1) / self.count;
        (self.begin / self.count..last).map(move |pixel| {
            let begin = self.begin.max(pixel * self.count);
            let end = self.end.min((pixel + 1) * self.count);
            (pixel as u32, end - begin)
        })
    }
}

#[cfg(test)]
mod tests {
    use super::{Lie, Part, Picture, Pixel};

    fn grey(value: u8) -> Pixel {
        [value, value, value, 255]
    }

    fn picture(width: u32, values: &[u8]) -> Picture {
        Picture {
            width,
            height: values.len() as u32 / width,
            pixels: values.iter().map(|value| grey(*value)).collect(),
        }
    }

    fn values(picture: &Picture) -> Vec<u8> {
        picture.pixels.iter().map(|pixel| pixel[0]).collect()
    }

    #[test]
    fn draws_turned_and_extruded() {
        let sprite = picture(3, &[1, 2, 3, 4, 5, 6]);
        let mut upright = Picture::empty(3, 2).unwrap();
        upright.draw(&sprite, 0, 0, Lie::Upright, 0);
        assert_eq!(upright, sprite);
        let mut clockwise = Picture::empty(2, 3).unwrap();
        clockwise.draw(&sprite, 0, 0, Lie::Clockwise, 0);
        assert_eq!(values(&clockwise), [4, 1, 5, 2, 6, 3]);
        let mut counter = Picture::empty(2, 3).unwrap();
        counter.draw(&sprite, 0, 0, Lie::CounterClockwise, 0);
        assert_eq!(values(&counter), [3, 6, 2, 5, 1, 4]);
        let mut extruded = Picture::empty(5, 4).unwrap();
        extruded.draw(&sprite, 1, 1, Lie::Upright, 1);
        let rows: [u8; 20] = [1, 1, 2, 3, 3, 1, 1, 2, 3, 3, 4, 4, 5, 6, 6, 4, 4, 5, 6, 6];
        assert_eq!(values(&extruded), rows);
    }

    #[test]
    fn scales_by_area_and_alpha() {
        let half = "0.5".parse().unwrap();
        assert_eq!(values(&picture(2, &[10, 20, 30, 41]).scaled(half)), [25]);
        // Three pixels give two: the middle one is half of each.
        assert_eq!(values(&picture(3, &[0, 90, 30]).scaled(half)), [30, 50]);
        let clear = Picture {
            width: 2,
            height: 1,
            pixels: vec![[200, 100, 0, 255], [0, 0, 255, 0]],
        };
        assert_eq!(clear.scaled(half).pixels, [[200, 100, 0, 128]]);
    }

    #[test]
    fn bleeds() {
        let (red, blue, none) = ([200, 0, 0, 255], [0, 0, 100, 85], [9, 9, 9, 0]);
        let mut one = Picture {
            width: 5,
            height: 1,
            pixels: vec![red, none, blue, none, none],
        };
        one.bleed(1);
        // Between both three parts of four are red.
        assert_eq!(
            one.pixels,
            [red, [150, 0, 25, 0], blue, [0, 0, 100, 0], none]
        );
        one.bleed(2);
        assert_eq!(one.pixels[4], [0, 0, 100, 0]);
    }

    #[test]
    fn premultiplies() {
        let mut one = Picture {
            width: 3,
            height: 1,
            pixels: vec![[255, 128, 1, 128], [9, 9, 9, 0], [7, 8, 9, 255]],
        };
        one.premultiply();
        assert_eq!(
            one.pixels,
            [[128, 64, 1, 128], [0, 0, 0, 0], [7, 8, 9, 255]]
        );
    }

    #[test]
    fn finds_what_is_visible() {
        let mut one = Picture::empty(5, 4).unwrap();
        let first = Part {
            left: 0,
            top: 0,
            width: 1,
            height: 1,
        };
        assert_eq!(one.visible(0), first);
        one.pixels[5 + 3] = grey(7);
        one.pixels[2 * 5 + 1] = [0, 0, 0, 1];
        let part = Part {
            left: 1,
            top: 1,
            width: 3,
            height: 2,
        };
        assert_eq!(one.visible(0), part);
        let seen = Part {
            left: 3,
            width: 1,
            height: 1,
            ..part
        };
        assert_eq!((one.visible(1), one.visible(255)), (seen, first));
        assert_eq!(values(&one.part(part)), [0, 0, 7, 0, 0, 0]);
    }
}
