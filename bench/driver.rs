//! The workloads of `atlas_bench` over the Rust crate's own code, for `bench/run`.
//!
//! It is compiled beside the crate's allocator.rs (which isn't in this repository) and a stand-in for `euclid`. It reads
//! the same lines and writes the same report lines; the checksums differ where the answers do.
#![allow(dead_code)]
extern crate alloc;

mod allocator;
#[path = "cache.rs"]
mod texture_cache;

use allocator::{AllocId, Allocation, AtlasAllocator, ChangeList, SimpleAtlasAllocator};
use euclid::size2;
use std::io::Read;

// What the crate's own root gives allocator.rs.
pub type Point = euclid::Point2D;
pub type Size = euclid::Size2D;
pub type Rectangle = euclid::Box2D;

struct Random(u64);

impl Random {
    /// splitmix64
    fn next(&mut self) -> u64 {
        self.0 = self.0.wrapping_add(0x9e37_79b9_7f4a_7c15);
        let mut z = self.0;
        z = (z ^ (z >> 30)).wrapping_mul(0xbf58_476d_1ce4_e5b9);
        z = (z ^ (z >> 27)).wrapping_mul(0x94d0_49bb_1331_11eb);
        z ^ (z >> 31)
    }

    fn below(&mut self, bound: u64) -> u64 {
        (self.next() >> 33) % bound
    }

    fn between(&mut self, low: i32, high: i32) -> i32 {
        low + self.below((high - low + 1) as u64) as i32
    }
}

struct Answers {
    calls: u64,
    checksum: u64,
}

impl Answers {
    fn new() -> Answers {
        Answers { calls: 0, checksum: 0xcbf2_9ce4_8422_2325 }
    }

    fn add(&mut self, word: u64) {
        self.checksum = (self.checksum ^ word).wrapping_mul(0x100_0000_01b3);
    }

    fn request(&mut self, answer: Option<Allocation>) {
        self.calls += 1;
        match answer {
            Some(allocation) => self.add_grant(&allocation),
            None => self.add(u64::MAX),
        }
    }

    fn take(&mut self, answer: Option<Rectangle>) {
        self.calls += 1;
        match answer {
            Some(rectangle) => self.add_box(rectangle),
            None => self.add(u64::MAX),
        }
    }

    fn add_grant(&mut self, allocation: &Allocation) {
        self.add(u64::from(allocation.id.serialize()));
        self.add_box(allocation.rectangle);
    }

    fn add_box(&mut self, r: Rectangle) {
        self.add((u64::from(r.min.x as u32) << 32) | u64::from(r.min.y as u32));
        self.add((u64::from(r.max.x as u32) << 32) | u64::from(r.max.y as u32));
    }

    fn freed(&mut self) {
        self.calls += 1;
        self.add(u64::MAX - 1);
    }

    fn grown(&mut self) {
        self.calls += 1;
        self.add(u64::MAX - 2);
    }

    fn rearranged(&mut self, list: &ChangeList) {
        self.calls += 1;
        for change in &list.changes {
            self.add_grant(&change.old);
            self.add_grant(&change.new);
        }
        for failure in &list.failures {
            self.add_grant(failure);
        }
        self.add(u64::MAX - 3);
    }
}

#[derive(Clone, Copy)]
enum Kind {
    Glyphs,
    Sprites,
}

fn next_size(kind: Kind, random: &mut Random) -> Size {
    let (low, high) = match kind {
        Kind::Glyphs => (8, 64),
        Kind::Sprites => match random.below(10) {
            0..=5 => (16, 64),
            6..=8 => (32, 96),
            _ => (64, 160),
        },
    };
    let width = random.between(low, high);
    size2(width, random.between(low, high))
}

// With `is_named`, as a recording allocator answers: names 0, 1, 2, .. in place of ids.
fn cache(kind: Kind, side: i32, calls: u32, is_named: bool) -> Answers {
    let mut random = Random(1);
    let mut atlas = AtlasAllocator::new(size2(side, side));
    let mut live = Vec::new();
    let mut names = 0;
    let mut answers = Answers::new();
    let mut size = next_size(kind, &mut random);
    let mut is_full = false;
    for _ in 0..calls {
        if is_full {
            let id: AllocId = live.swap_remove(random.below(live.len() as u64) as usize);
            atlas.deallocate(id);
            answers.freed();
            is_full = false;
            continue;
        }
        let answer = atlas.allocate(size);
        let name = AllocId::deserialize(names);
        answers.request(answer.map(|granted| Allocation { id: if is_named { name } else { granted.id }, ..granted }));
        match answer {
            Some(allocation) => {
                names += 1;
                live.push(allocation.id);
                size = next_size(kind, &mut random);
            }
            None => is_full = true,
        }
    }
    answers
}

fn sizes(kind: Kind, seed: u64, count: u32) -> Vec<Size> {
    let mut random = Random(seed);
    (0..count).map(|_| next_size(kind, &mut random)).collect()
}

fn sheet(kind: Kind, seed: u64, side: i32, count: u32) -> Answers {
    let sizes = sizes(kind, seed, count);
    let mut atlas = SimpleAtlasAllocator::new(size2(side, side));
    let mut answers = Answers::new();
    for size in sizes {
        answers.take(atlas.allocate(size));
    }
    answers
}

fn tiles(turns: u32) -> Answers {
    let mut random = Random(7);
    let mut atlas = AtlasAllocator::new(size2(2048, 2048));
    let mut live = Vec::new();
    let mut answers = Answers::new();
    for _ in 0..16_384 {
        let answer = atlas.allocate(size2(16, 16));
        answers.request(answer);
        live.push(answer.expect("room").id);
    }
    for place in 0..8_192 + turns {
        if place >= 8_192 && place % 2 == 0 {
            let answer = atlas.allocate(size2(16, 16));
            answers.request(answer);
            live.push(answer.expect("room").id);
        } else {
            let id: AllocId = live.swap_remove(random.below(live.len() as u64) as usize);
            atlas.deallocate(id);
            answers.freed();
        }
    }
    answers
}

fn sprite(count: u32, is_sorted: bool) -> Answers {
    let mut sizes = sizes(Kind::Sprites, 2, count);
    if is_sorted {
        sizes.sort_by(|a, b| (b.height, b.width).cmp(&(a.height, a.width)));
    }
    let mut atlas = AtlasAllocator::new(size2(4096, 4096));
    let mut answers = Answers::new();
    for size in sizes {
        answers.request(atlas.allocate(size));
    }
    answers
}

fn rearrange(times: u32) -> Answers {
    let mut atlas = AtlasAllocator::new(size2(4096, 4096));
    let mut answers = Answers::new();
    let mut ids = Vec::new();
    for size in sizes(Kind::Sprites, 2, 5_000) {
        let answer = atlas.allocate(size);
        answers.request(answer);
        if let Some(allocation) = answer {
            ids.push(allocation.id);
        }
    }
    for id in ids.iter().step_by(2) {
        atlas.deallocate(*id);
        answers.freed();
    }
    for _ in 0..times {
        answers.rearranged(&atlas.rearrange());
    }
    answers
}

struct Board {
    atlas: AtlasAllocator,
    ids: Vec<AllocId>,
    answers: Answers,
}

impl Board {
    fn filled(rows: u32) -> Board {
        let mut board =
            Board { atlas: AtlasAllocator::new(size2(1, rows as i32)), ids: Vec::new(), answers: Answers::new() };
        for _ in 0..rows {
            let answer = board.atlas.allocate(size2(1, 1));
            board.answers.request(answer);
            board.ids.push(answer.expect("room").id);
        }
        board
    }

    fn free_others(&mut self, first: usize) {
        for (place, id) in self.ids.iter().enumerate() {
            if place % 2 == first {
                self.atlas.deallocate(*id);
                self.answers.freed();
            }
        }
    }
}

fn column(rows: u32) -> Answers {
    let mut board = Board::filled(rows);
    board.free_others(0);
    board.free_others(1);
    assert!(board.atlas.is_empty());
    board.answers
}

fn search(searches: u32) -> Answers {
    let mut board = Board::filled(400_000);
    board.free_others(0);
    for _ in 0..searches {
        let answer = board.atlas.allocate(size2(1, 2));
        assert!(answer.is_none());
        board.answers.request(answer);
    }
    board.answers
}

fn growth(limit: u32) -> Answers {
    let limit = limit as i32;
    let mut random = Random(4);
    let (mut width, mut height) = (64, 64);
    let mut atlas = AtlasAllocator::new(size2(width, height));
    let mut answers = Answers::new();
    let mut size = size2(random.between(4, 100), random.between(4, 100));
    loop {
        let answer = atlas.allocate(size);
        answers.request(answer);
        if answer.is_some() {
            size = size2(random.between(4, 100), random.between(4, 100));
            continue;
        }
        if width >= limit && height >= limit {
            return answers;
        }
        if width <= height {
            width *= 2;
        } else {
            height *= 2;
        }
        atlas.grow(size2(width, height));
        answers.grown();
    }
}

fn main() {
    let mut text = String::new();
    std::io::stdin().read_to_string(&mut text).expect("input");
    for line in text.lines() {
        let (name, size) = line.split_once(' ').expect("a name and a size");
        let size = size.parse().expect("a size");
        let answers = match name {
            "glyph" => cache(Kind::Glyphs, 2048, size, false),
            "glyph-1024" => cache(Kind::Glyphs, 1024, size, false),
            "glyph-4096" => cache(Kind::Glyphs, 4096, size, false),
            "glyph-8192" => cache(Kind::Glyphs, 8192, size, false),
            "glyph-16384" => cache(Kind::Glyphs, 16384, size, false),
            "mixed-4096" => cache(Kind::Sprites, 4096, size, false),
            "cache" => texture_cache::run(size),
            "tiles" => tiles(size),
            "record" => cache(Kind::Glyphs, 2048, size, true),
            "sprite" => sprite(size, false),
            "sprite-sorted" => sprite(size, true),
            "sheet" => sheet(Kind::Sprites, 2, 4096, size),
            "sheet-16384" => sheet(Kind::Glyphs, 1, 16384, size),
            "column" => column(size),
            "search" => search(size),
            "growth" => growth(size),
            "rearrange" => rearrange(size),
            _ => panic!("no workload {name}"),
        };
        println!("{name} {} {}", answers.calls, answers.checksum);
    }
}
