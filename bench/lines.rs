//! The Rust crate's own code behind the lines of `atlas_tool`, for `bench/compare` and `bench/run`.
//!
//! It is compiled beside the crate's allocator.rs (which isn't in this repository) and a stand-in for `euclid`. It reads
//! commands and writes replies as docs/TOOL.md says. What the crate leaves to its caller is tested here: empty sizes,
//! options, growths that shrink a side, and ids that aren't live. A recorded session is the crate's atlas with names for
//! ids; a replay is answered by what was counted, since the crate's recorder doesn't compile. It expects lines that spell a
//! command; empty ones are skipped.
//!
//! With the arguments `glyph N` it writes N lines of a glyph session instead: requests on an atlas of 2048x2048, and where
//! one has no room, a random box is freed and it is requested again.
#![allow(dead_code)]
extern crate alloc;

mod allocator;

use allocator::{AllocId, AllocatorOptions, AtlasAllocator, SimpleAtlasAllocator, DEFAULT_OPTIONS};
use euclid::size2;
use std::collections::{BTreeMap, HashMap};
use std::io::{BufRead, BufReader, BufWriter, Read, Write};

// What the crate's own root gives allocator.rs.
pub type Point = euclid::Point2D;
pub type Size = euclid::Size2D;
pub type Rectangle = euclid::Box2D;

fn corners(r: &Rectangle) -> String {
    format!("{} {} {} {}", r.min.x, r.min.y, r.max.x, r.max.y)
}

fn is_positive(size: Size) -> bool {
    size.width > 0 && size.height > 0
}

fn is_valid(o: &AllocatorOptions) -> bool {
    is_positive(o.alignment) && o.small_size_threshold <= o.large_size_threshold
}

// What a recorded session counts.
#[derive(Default)]
struct Counts {
    grants: u32,
    freeings: u32,
    without_room: u32,
}

struct Held {
    atlas: AtlasAllocator,
    // The number by which a box is called, and its id; the same without a recording.
    live: BTreeMap<u32, u32>,
    recorded: Option<Counts>,
}

impl Held {
    fn new(atlas: AtlasAllocator, recorded: Option<Counts>) -> Held {
        Held { atlas, live: BTreeMap::new(), recorded }
    }

    // The next number for a box with this id.
    fn number(&mut self, id: u32) -> u32 {
        match self.recorded.as_mut() {
            None => id,
            Some(counts) => {
                counts.grants += 1;
                counts.grants - 1
            }
        }
    }

    // The boxes by rising number.
    fn boxes(&self) -> Vec<(u32, Rectangle)> {
        let mut boxes = Vec::new();
        let numbers: HashMap<u32, u32> = self.live.iter().map(|(number, id)| (*id, *number)).collect();
        self.atlas.for_each_allocated_rectangle(|id, r| boxes.push((numbers[&id.serialize()], *r)));
        if self.recorded.is_some() {
            boxes.sort_by_key(|listed| listed.0);
        }
        boxes
    }

    fn rearrange(&mut self, size: Size, out: &mut impl Write) -> std::io::Result<()> {
        if !is_positive(size) {
            return writeln!(out, "bad call");
        }
        let list = self.atlas.resize_and_rearrange(size);
        let numbers: HashMap<u32, u32> = self.live.iter().map(|(number, id)| (*id, *number)).collect();
        self.live.clear();
        for change in &list.changes {
            let (old, new) = (change.old.id.serialize(), change.new.id.serialize());
            let is_named = self.recorded.is_some();
            let (old, number) = (numbers[&old], if is_named { numbers[&old] } else { new });
            self.live.insert(number, new);
            let (from, to) = (corners(&change.old.rectangle), corners(&change.new.rectangle));
            writeln!(out, "moved {old} {from} to {number} {to}")?;
        }
        for lost in &list.failures {
            writeln!(out, "lost {} {}", numbers[&lost.id.serialize()], corners(&lost.rectangle))?;
        }
        writeln!(out, "changes {} failures {}", list.changes.len(), list.failures.len())
    }

    fn answer(&mut self, words: &[&str], numbers: &[i64], out: &mut impl Write) -> std::io::Result<()> {
        let size = || size2(numbers[0] as i32, numbers[1] as i32);
        if self.recorded.is_some() && matches!(words[0], "clear" | "empty") {
            return writeln!(out, "no atlas");
        }
        match words[0] {
            "alloc" => match self.atlas.allocate(size()) {
                None => {
                    self.recorded.iter_mut().for_each(|counts| counts.without_room += 1);
                    writeln!(out, "none")
                }
                Some(a) => {
                    let number = self.number(a.id.serialize());
                    self.live.insert(number, a.id.serialize());
                    writeln!(out, "id {} at {}", number, corners(&a.rectangle))
                }
            },
            "free" => {
                let Some(id) = self.live.remove(&(numbers[0] as u32)) else {
                    return writeln!(out, "refused not live");
                };
                self.recorded.iter_mut().for_each(|counts| counts.freeings += 1);
                self.atlas.deallocate(AllocId::deserialize(id));
                writeln!(out, "ok")
            }
            "grow" => {
                if size().width < self.atlas.size().width || size().height < self.atlas.size().height {
                    return writeln!(out, "bad call");
                }
                self.atlas.grow(size());
                writeln!(out, "ok")
            }
            "clear" => {
                self.atlas.clear();
                self.live.clear();
                writeln!(out, "ok")
            }
            "rearrange" => {
                let size = self.atlas.size();
                self.rearrange(size, out)
            }
            "resize" => self.rearrange(size(), out),
            "live" => {
                let lines = self.boxes();
                for (number, r) in &lines {
                    writeln!(out, "box {} {}", number, corners(r))?;
                }
                writeln!(out, "live {}", lines.len())
            }
            "holes" => {
                let mut holes = Vec::new();
                self.atlas.for_each_free_rectangle(|r| holes.push(*r));
                holes.sort_by_key(|r| (r.min.y, r.min.x));
                for r in &holes {
                    writeln!(out, "hole {}", corners(r))?;
                }
                writeln!(out, "holes {}", holes.len())
            }
            "size" => writeln!(out, "size {} {}", self.atlas.size().width, self.atlas.size().height),
            "empty" => writeln!(out, "{}", self.atlas.is_empty()),
            other => panic!("no command {other}"),
        }
    }
}

fn make_atlas(numbers: &[i64]) -> Option<AtlasAllocator> {
    let size = size2(numbers[0] as i32, numbers[1] as i32);
    let mut options = DEFAULT_OPTIONS;
    if numbers.len() == 6 {
        options.alignment = size2(numbers[2] as i32, numbers[3] as i32);
        options.small_size_threshold = numbers[4] as i32;
        options.large_size_threshold = numbers[5] as i32;
    }
    (is_positive(size) && is_valid(&options)).then(|| AtlasAllocator::with_options(size, &options))
}

fn answer_lines<R: Read>(input: &mut BufReader<R>, out: &mut impl Write) -> std::io::Result<()> {
    let mut held: Option<Held> = None;
    let mut simple: Option<SimpleAtlasAllocator> = None;
    let mut line = String::new();
    loop {
        // Where no more is at hand, the one who waits for replies gets them.
        if input.buffer().is_empty() {
            out.flush()?;
        }
        line.clear();
        if input.read_line(&mut line)? == 0 {
            return out.flush();
        }
        let text = line.trim_end_matches('\n');
        if text.is_empty() {
            continue;
        }
        let words: Vec<&str> = text.split(' ').collect();
        let numbers: Vec<i64> = words[1..].iter().map(|word| word.parse().expect("a number")).collect();
        match words[0] {
            "simple" => {
                let size = size2(numbers[0] as i32, numbers[1] as i32);
                if is_positive(size) {
                    simple = Some(SimpleAtlasAllocator::new(size));
                    writeln!(out, "ok")?;
                } else {
                    writeln!(out, "bad call")?;
                }
            }
            "take" => match simple.as_mut() {
                None => writeln!(out, "no simple")?,
                Some(it) => match it.allocate(size2(numbers[0] as i32, numbers[1] as i32)) {
                    Some(r) => writeln!(out, "at {}", corners(&r))?,
                    None => writeln!(out, "none")?,
                },
            },
            "from-atlas" => match (held.as_ref(), simple.as_mut()) {
                (None | Some(Held { recorded: Some(_), .. }), _) => writeln!(out, "no atlas")?,
                (Some(_), None) => writeln!(out, "no simple")?,
                (Some(from), Some(it)) => {
                    it.init_from_allocator(&from.atlas);
                    writeln!(out, "ok")?;
                }
            },
            "atlas" => match make_atlas(&numbers) {
                Some(atlas) => {
                    held = Some(Held::new(atlas, None));
                    writeln!(out, "ok")?;
                }
                None => writeln!(out, "bad call")?,
            },
            "record" => match make_atlas(&numbers) {
                Some(atlas) => {
                    held = Some(Held::new(atlas, Some(Counts::default())));
                    writeln!(out, "ok")?;
                }
                None => writeln!(out, "bad call")?,
            },
            "replay" => match held.take() {
                Some(Held { live, recorded: Some(counts), .. }) => writeln!(
                    out,
                    "replayed allocations {} deallocations {} failed {} live {}",
                    counts.grants, counts.freeings, counts.without_room, live.len()
                )?,
                other => {
                    held = other;
                    writeln!(out, "no recording")?;
                }
            },
            _ => match held.as_mut() {
                Some(held) => held.answer(&words, &numbers, out)?,
                None => writeln!(out, "no atlas")?,
            },
        }
    }
}

struct Random(u64);

impl Random {
    /// splitmix64
    fn next(&mut self) -> u64 {
        self.0 = self.0.wrapping_add(0x9e37_79b9_7f4a_7c15);
        let mut z = self.0;
        z = (z ^ (z >> 30)).wrapping_mul(0xbf58_476d_1ce4_e5b9);
        z = (z ^ (z >> 27)).wrapping_mul(0x94d0_49bb_1331_11eb);
        z ^ (z >> 31)
    }

    fn below(&mut self, bound: u64) -> u64 {
        (self.next() >> 33) % bound
    }

    fn side(&mut self) -> i32 {
        8 + self.below(57) as i32
    }
}

fn write_glyphs(count: u64, out: &mut impl Write) -> std::io::Result<()> {
    let mut random = Random(1);
    let mut atlas = AtlasAllocator::new(size2(2048, 2048));
    let mut live = Vec::new();
    let mut size = size2(random.side(), random.side());
    let mut is_full = false;
    writeln!(out, "atlas 2048 2048")?;
    for _ in 1..count {
        if is_full {
            let id: AllocId = live.swap_remove(random.below(live.len() as u64) as usize);
            atlas.deallocate(id);
            writeln!(out, "free {}", id.serialize())?;
            is_full = false;
            continue;
        }
        writeln!(out, "alloc {} {}", size.width, size.height)?;
        match atlas.allocate(size) {
            Some(allocation) => {
                live.push(allocation.id);
                size = size2(random.side(), random.side());
            }
            None => is_full = true,
        }
    }
    out.flush()
}

fn main() {
    let mut out = BufWriter::with_capacity(65536, std::io::stdout().lock());
    let arguments: Vec<String> = std::env::args().collect();
    let done = if arguments.len() == 3 && arguments[1] == "glyph" {
        write_glyphs(arguments[2].parse().expect("a count"), &mut out)
    } else {
        answer_lines(&mut BufReader::with_capacity(65536, std::io::stdin().lock()), &mut out)
    };
    done.expect("input and output");
}
