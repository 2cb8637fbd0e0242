//! A text client: lines of several scripts in a window, which scrolls. Each quarter of a pixel that a glyph is moved to the right has
//! pixels of its own, except for emoji.
use crate::traces::{Keys, Random, Trace, Zipf};

const WIDTH: i64 = 1_000;
const HEIGHT: i64 = 700;
// Of the lines, in quarters of a pixel: 11 to 36 pixels.
const SIZES: [i64; 7] = [44, 52, 54, 56, 72, 96, 144];
const FACES: u64 = 2;
const WORDS: u64 = 6_000;
const LINES: u64 = 3_000;
// Scripts with more glyphs than this have usual words, but no usual glyphs.
const LETTERS: u64 = 100;

/// How far a frame moves the text, upwards in pixels and to the left in hundredths.
pub struct Scroll {
    up: i64,
    left: i64,
}

pub const FAST: Scroll = Scroll { up: 23, left: 30 };
pub const SLOW: Scroll = Scroll { up: 5, left: 7 };

/// Hundredths of the size: the sides of glyphs, from and to, and what comes between two of them.
struct Script {
    glyphs: u64,
    letters: (i64, i64),
    width: (i64, i64),
    height: (i64, i64),
    gap: i64,
    quarters: i64,
    // Of ten words so many.
    share: u64,
}

// As Latin, Cyrillic, Greek, Chinese, and emoji.
const SCRIPTS: [Script; 5] = [
    Script { glyphs: 90, letters: (1, 10), width: (20, 80), height: (45, 95), gap: 10, quarters: 4, share: 3 },
    Script { glyphs: 66, letters: (1, 12), width: (40, 90), height: (45, 95), gap: 10, quarters: 4, share: 1 },
    Script { glyphs: 50, letters: (1, 11), width: (30, 80), height: (45, 95), gap: 10, quarters: 4, share: 1 },
    Script { glyphs: 3_500, letters: (1, 3), width: (75, 95), height: (75, 95), gap: 8, quarters: 4, share: 4 },
    Script { glyphs: 300, letters: (1, 1), width: (105, 110), height: (98, 100), gap: 5, quarters: 1, share: 1 },
];

struct Glyph {
    width: i64,
    height: i64,
    advance: i64,
    quarters: i64,
}

/// The glyphs of all scripts, and of each script the words, as numbers of glyphs.
struct Fonts {
    glyphs: Vec<Glyph>,
    words: Vec<Vec<Vec<usize>>>,
}

impl Fonts {
    fn new(random: &mut Random) -> Fonts {
        let mut made = Fonts { glyphs: Vec::new(), words: Vec::new() };
        for script in &SCRIPTS {
            let first = made.glyphs.len();
            for _ in 0..script.glyphs {
                let width = random.between(script.width.0, script.width.1);
                let height = random.between(script.height.0, script.height.1);
                made.glyphs.push(Glyph { width, height, advance: width + script.gap, quarters: script.quarters });
            }
            let often = Zipf::new(script.glyphs);
            let word = |random: &mut Random| -> Vec<usize> {
                let letters = random.between(script.letters.0, script.letters.1);
                let letter = |_| match script.glyphs {
                    0..=LETTERS => first + often.draw(random),
                    many => first + random.below(many) as usize,
                };
                (0..letters).map(letter).collect()
            };
            made.words.push((0..WORDS).map(|_| word(random)).collect());
        }
        made
    }
}

/// A line: which of the faces and of the sizes it has, and its glyphs, each with its place in hundredths of a pixel.
struct Line {
    face: usize,
    size: usize,
    glyphs: Vec<(usize, i64)>,
}

fn line(fonts: &Fonts, often: &Zipf, random: &mut Random) -> Line {
    let size = random.below(SIZES.len() as u64) as usize;
    let mut made = Line { face: random.below(FACES) as usize, size, glyphs: Vec::new() };
    let mut x = 0;
    while x < (WIDTH + 400) * 100 {
        let mut drawn = random.below(10);
        let mut script = 0;
        while drawn >= SCRIPTS[script].share {
            drawn -= SCRIPTS[script].share;
            script += 1;
        }
        for glyph in &fonts.words[script][often.draw(random)] {
            made.glyphs.push((*glyph, x));
            x += fonts.glyphs[*glyph].advance * SIZES[size] / 4;
        }
        x += 30 * SIZES[size] / 4;
    }
    made
}

/// The lines that a window shows.
pub fn trace(seed: u64, frames: usize, scroll: &Scroll) -> Trace {
    let mut random = Random(seed);
    let fonts = Fonts::new(&mut random);
    let often = Zipf::new(WORDS);
    let lines: Vec<Line> = (0..LINES).map(|_| line(&fonts, &often, &mut random)).collect();
    let mut keys = Keys::default();
    let (mut top, mut first) = (0, 0);
    for frame in 0..frames as i64 {
        let line_at = |number: usize| &lines[number % lines.len()];
        let height_of = |number: usize| SIZES[line_at(number).size] / 4 + 4;
        while height_of(first) <= top {
            top -= height_of(first);
            first += 1;
        }
        keys.begin_frame();
        let (mut y, mut number) = (-top, first);
        while y < HEIGHT {
            draw(&mut keys, &fonts, line_at(number), scroll.left * frame % 15_000);
            y += height_of(number);
            number += 1;
        }
        top += scroll.up;
    }
    keys.trace(256, 1024, 2)
}

// What of a line is seen.
fn draw(keys: &mut Keys, fonts: &Fonts, line: &Line, left: i64) {
    for (number, x) in &line.glyphs {
        let glyph = &fonts.glyphs[*number];
        let side = |share: i64| (share * SIZES[line.size] + 399) / 400;
        let at = x - left;
        if at < -100 * side(glyph.width) || at > WIDTH * 100 {
            continue;
        }
        let quarter = at.rem_euclid(100) * glyph.quarters / 100;
        let font = line.face * SIZES.len() + line.size;
        let thing = ((*number * FACES as usize * SIZES.len() + font) * 4) as u64 + quarter as u64;
        // Moved by a part of a pixel, a glyph covers one pixel more.
        let more = i32::from(quarter > 0);
        keys.draw(thing, || (side(glyph.width) as i32 + more, side(glyph.height) as i32));
    }
}
