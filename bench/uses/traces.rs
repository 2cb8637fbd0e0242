//! What four programs draw, frame by frame, from a seed. All of it is of whole numbers, so a seed gives the same anywhere.
use crate::text;
use std::collections::HashMap;

pub struct Random(pub u64);

impl Random {
    /// splitmix64
    fn next(&mut self) -> u64 {
        self.0 = self.0.wrapping_add(0x9e37_79b9_7f4a_7c15);
        let mut z = self.0;
        z = (z ^ (z >> 30)).wrapping_mul(0xbf58_476d_1ce4_e5b9);
        z = (z ^ (z >> 27)).wrapping_mul(0x94d0_49bb_1331_11eb);
        z ^ (z >> 31)
    }

    pub fn below(&mut self, bound: u64) -> u64 {
        (self.next() >> 33) % bound
    }

    /// Both ends included.
    pub fn between(&mut self, low: i64, high: i64) -> i64 {
        low + self.below((high - low + 1) as u64) as i64
    }
}

/// Ranks by Zipf's law: the one of rank r, from 1 on, is drawn r times less often than the first.
pub struct Zipf(Vec<u64>);

impl Zipf {
    pub fn new(ranks: u64) -> Zipf {
        let mut sum = 0;
        Zipf((1..=ranks).map(|rank| { sum += (1 << 20) / rank; sum }).collect())
    }

    pub fn draw(&self, random: &mut Random) -> usize {
        let drawn = random.below(self.0[self.0.len() - 1]);
        self.0.partition_point(|sum| *sum <= drawn)
    }
}

/// The pages that a program has, squares.
#[derive(Clone, Copy)]
pub struct Pages {
    pub side: i32,
    pub largest: i32,
    pub most: u32,
}

/// The keys of each frame, each once, in the order in which they are drawn; and the size of each key.
pub struct Trace {
    pub pages: Pages,
    pub sizes: Vec<(i32, i32)>,
    pub frames: Vec<Vec<u32>>,
}

/// Gives each thing that is drawn the next number, when it is drawn first.
#[derive(Default)]
pub struct Keys {
    numbers: HashMap<u64, u32>,
    sizes: Vec<(i32, i32)>,
    frames: Vec<Vec<u32>>,
    last: Vec<usize>,
}

impl Keys {
    pub fn begin_frame(&mut self) {
        self.frames.push(Vec::new());
    }

    pub fn draw(&mut self, thing: u64, size: impl FnOnce() -> (i32, i32)) {
        let frame = self.frames.len();
        let next = self.numbers.len() as u32;
        let number = *self.numbers.entry(thing).or_insert(next);
        if number == next {
            self.sizes.push(size());
            self.last.push(0);
        }
        if self.last[number as usize] != frame {
            self.last[number as usize] = frame;
            self.frames[frame - 1].push(number);
        }
    }

    pub fn trace(self, side: i32, largest: i32, most: u32) -> Trace {
        Trace { pages: Pages { side, largest, most }, sizes: self.sizes, frames: self.frames }
    }
}

/// 20,000 glyphs with sides of 8 to 20, and of 34 to 44 for 5 in 100, in a document of 60 glyphs a line, of which 24 are seen. Half of
/// them are among 1,500 that are usual; the others are near the topic, which moves on by 7 with each line. A line each two frames.
pub fn glyphs(seed: u64, frames: usize) -> Trace {
    const KINDS: u64 = 20_000;
    let mut random = Random(seed);
    let sizes: Vec<(i32, i32)> = (0..KINDS)
        .map(|_| {
            let (low, high) = if random.below(100) < 5 { (34, 44) } else { (8, 20) };
            (random.between(low, high) as i32, random.between(low, high) as i32)
        })
        .collect();
    let (usual, near) = (Zipf::new(1_500), Zipf::new(3_000));
    let lines: Vec<Vec<u64>> = (0..frames as u64 / 2 + 24)
        .map(|line| {
            (0..60)
                .map(|_| match random.below(2) {
                    0 => usual.draw(&mut random) as u64,
                    _ => (line * 7 + near.draw(&mut random) as u64 * 7) % KINDS,
                })
                .collect()
        })
        .collect();
    let mut keys = Keys::default();
    for frame in 0..frames {
        keys.begin_frame();
        for glyph in lines[frame / 2..frame / 2 + 24].iter().flatten() {
            keys.draw(*glyph, || sizes[*glyph as usize]);
        }
    }
    keys.trace(1024, 1024, 1)
}

// How many thousandths of its largest size an icon has at each step of zoom: each is the one before, times the fourth root of 2.
const ZOOMS: [i64; 8] = [297, 354, 420, 500, 595, 707, 841, 1000];

/// 20,000 icons of 3,000 kinds on a square of 100,000 a side, with sides of 8 to 64, and of 128 to 256 for 2 kinds in 100, at eight
/// steps of zoom, but at least 8 (128). What a window shows, whose middle and zoom move, each 60 frames in another direction.
pub fn map(seed: u64, frames: usize) -> Trace {
    const KINDS: u64 = 3_000;
    let mut random = Random(seed);
    let kinds: Vec<(i64, i64, i64)> = (0..KINDS)
        .map(|_| {
            let (low, high) = if random.below(100) < 2 { (128, 256) } else { (8, 64) };
            (random.between(low, high), random.between(low, high), low)
        })
        .collect();
    let often = Zipf::new(KINDS);
    // Half of the icons are of usual kinds.
    let icons: Vec<(i64, i64, u64)> = (0..20_000)
        .map(|_| {
            let (x, y) = (random.between(0, 99_999), random.between(0, 99_999));
            (x, y, if random.below(2) == 0 { often.draw(&mut random) as u64 } else { random.below(KINDS) })
        })
        .collect();
    let (mut at, mut speed) = ([50_000, 50_000, 4_000], [0; 3]);
    let mut keys = Keys::default();
    for frame in 0..frames {
        if frame % 60 == 0 {
            speed = [random.between(-150, 150), random.between(-150, 150), random.between(-60, 60)];
        }
        for (place, (low, high)) in [(5_000, 95_000), (5_000, 95_000), (0, 7_999)].iter().enumerate() {
            at[place] = (at[place] + speed[place]).clamp(*low, *high);
        }
        let zoom = (at[2] / 1_000) as usize;
        // The window is 700 wide at its largest zoom, of which 1,000 thousandths are a pixel.
        let half = 4_200_000 / ZOOMS[zoom];
        keys.begin_frame();
        let seen = icons.iter().filter(|icon| (icon.0 - at[0]).abs() < half && (icon.1 - at[1]).abs() < half);
        for (_, _, kind) in seen.take(420) {
            let (width, height, low) = kinds[*kind as usize];
            let scaled = |side: i64| (side * ZOOMS[zoom] / 1_000).max(low) as i32;
            keys.draw(zoom as u64 * KINDS + kind, || (scaled(width), scaled(height)));
        }
    }
    keys.trace(1024, 1024, 2)
}

/// A trace by its name; so many frames of it, or, with 0, as many as are measured.
pub fn named(name: &str, seed: u64, frames: usize) -> Trace {
    let frames_or = |usual| if frames == 0 { usual } else { frames };
    match name {
        "text-fast" => text::trace(seed, frames_or(700), &text::FAST),
        "text-slow" => text::trace(seed, frames_or(2_000), &text::SLOW),
        "glyphs" => glyphs(seed, frames_or(4_000)),
        "map" => map(seed, frames_or(4_000)),
        other => panic!("no trace {}", other),
    }
}

/// A sum of all that a trace says (FNV-1a over words).
pub fn sum(trace: &Trace) -> u64 {
    let mut sum = 0xcbf2_9ce4_8422_2325_u64;
    let mut add = |word: u64| sum = (sum ^ word).wrapping_mul(0x100_0000_01b3);
    for (width, height) in &trace.sizes {
        add(*width as u64);
        add(*height as u64);
    }
    for frame in &trace.frames {
        add(frame.len() as u64);
        frame.iter().for_each(|key| add(u64::from(*key)));
    }
    sum
}
