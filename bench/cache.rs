//! The workload `cache` over the Rust crate's own code, as a Rust program would write such a cache: an atlas a page, a
//! `HashMap` from keys to places in a vector, and its entries linked in the order of their use. For bench/driver.rs.
//!
//! 10,000 glyphs of 8 to 40 pixels a side, with a padding of 1, on up to four pages of 1024x1024. A call looks a glyph
//! up; where the cache hasn't got it, the next call inserts it: on the first page with room, else on a new page, else
//! the least recently used glyphs go, one by one, until there is room, but none that this frame used. A frame has 2,000
//! calls.
use crate::allocator::{AllocId, AtlasAllocator};
use crate::{Answers, Random, Rectangle, Size};
use euclid::size2;
use std::collections::HashMap;
use std::hash::{BuildHasherDefault, Hasher};

pub const PAGE: i32 = 1024;
pub const PAGES: usize = 4;
pub const PADDING: i32 = 1;
const GLYPHS: u64 = 10_000;
pub const CALLS_IN_A_FRAME: u32 = 2_000;
const NONE: u32 = u32::MAX;

// Each doubling of the rank is as likely as the one before, about as by Zipf's law.
pub fn next_rank(random: &mut Random) -> u64 {
    let octave = random.below(14);
    ((1 << octave) - 1 + random.below(1 << octave)) % GLYPHS
}

// An odd factor gives each rank a key of its own.
pub fn key_of(rank: u64) -> u32 {
    (rank as u32).wrapping_mul(0x9e37_79b1)
}

pub fn size_of(key: u32) -> Size {
    size2(8 + ((key >> 3) % 33) as i32, 8 + ((key >> 17) % 33) as i32)
}

/// One multiplication, whose halves are joined.
#[derive(Default)]
struct Folded(u64);

impl Hasher for Folded {
    fn finish(&self) -> u64 {
        self.0
    }

    fn write(&mut self, _bytes: &[u8]) {
        unreachable!("keys are numbers");
    }

    fn write_u32(&mut self, number: u32) {
        let product = u128::from(u64::from(number) ^ 0x9e37_79b9_7f4a_7c15) * 0x5851_f42d_4c95_7f2d;
        self.0 = product as u64 ^ (product >> 64) as u64;
    }
}

struct Entry {
    key: u32,
    page: usize,
    id: AllocId,
    rectangle: Rectangle,
    frame: u64,
    newer: u32,
    older: u32,
}

pub struct Cache {
    page: Size,
    most: usize,
    padding: i32,
    pages: Vec<AtlasAllocator>,
    numbers: HashMap<u32, u32, BuildHasherDefault<Folded>>,
    entries: Vec<Entry>,
    unused: Vec<u32>,
    newest: u32,
    oldest: u32,
    pub frame: u64,
    pub answers: Answers,
}

impl Cache {
    pub fn new() -> Cache {
        Cache::of((PAGE, PAGE), PAGES, PADDING)
    }

    /// With pages of this size, at most so many, and with this padding.
    pub fn of(page: (i32, i32), most: usize, padding: i32) -> Cache {
        Cache {
            page: size2(page.0, page.1),
            most,
            padding,
            pages: Vec::new(),
            numbers: HashMap::default(),
            entries: Vec::new(),
            unused: Vec::new(),
            newest: NONE,
            oldest: NONE,
            frame: 0,
            answers: Answers::new(),
        }
    }

    fn unlink(&mut self, number: u32) {
        let Entry { newer, older, .. } = self.entries[number as usize];
        match newer {
            NONE => self.newest = older,
            _ => self.entries[newer as usize].older = older,
        }
        match older {
            NONE => self.oldest = newer,
            _ => self.entries[older as usize].newer = newer,
        }
    }

    fn link_first(&mut self, number: u32) {
        let first = self.newest;
        let entry = &mut self.entries[number as usize];
        (entry.newer, entry.older) = (NONE, first);
        match first {
            NONE => self.oldest = number,
            _ => self.entries[first as usize].newer = number,
        }
        self.newest = number;
    }

    fn show(&mut self, number: u32) {
        let Entry { page, rectangle, .. } = self.entries[number as usize];
        self.answers.add(page as u64);
        self.answers.add_box(rectangle);
    }

    /// Whether the key is known; it is used in this frame then.
    pub fn get(&mut self, key: u32) -> bool {
        self.answers.calls += 1;
        let Some(&number) = self.numbers.get(&key) else {
            self.answers.add(u64::MAX);
            return false;
        };
        self.entries[number as usize].frame = self.frame;
        self.unlink(number);
        self.link_first(number);
        self.show(number);
        true
    }

    /// Adds a key that isn't known, if there is room for it.
    pub fn insert(&mut self, key: u32, size: Size) {
        self.answers.calls += 1;
        let asked = size2(size.width + 2 * self.padding, size.height + 2 * self.padding);
        loop {
            let granted = (self.pages.iter_mut().enumerate())
                .find_map(|(page, atlas)| atlas.allocate(asked).map(|granted| (page, granted)));
            if let Some((page, granted)) = granted {
                return self.push(key, page, granted.id, granted.rectangle);
            }
            if !self.make_room() {
                return self.answers.add(u64::MAX);
            }
        }
    }

    fn push(&mut self, key: u32, page: usize, id: AllocId, rectangle: Rectangle) {
        let entry = Entry { key, page, id, rectangle, frame: self.frame, newer: NONE, older: NONE };
        let number = match self.unused.pop() {
            Some(number) => {
                self.entries[number as usize] = entry;
                number
            }
            None => {
                self.entries.push(entry);
                self.entries.len() as u32 - 1
            }
        };
        self.numbers.insert(key, number);
        self.link_first(number);
        self.show(number);
    }

    /// Adds a page, or lets the least recently used key go; `false` if neither can be done.
    fn make_room(&mut self) -> bool {
        if self.pages.len() < self.most {
            self.pages.push(AtlasAllocator::new(self.page));
            self.answers.add(u64::MAX - 4);
            return true;
        }
        let number = self.oldest;
        if number == NONE || self.entries[number as usize].frame == self.frame {
            return false;
        }
        self.unlink(number);
        let Entry { key, page, id, .. } = self.entries[number as usize];
        self.pages[page].deallocate(id);
        self.numbers.remove(&key);
        self.unused.push(number);
        self.answers.add((1 << 32) + u64::from(key));
        true
    }
}

/// For bench/worst.
impl Cache {
    pub fn len(&self) -> usize {
        self.numbers.len()
    }

    /// Rearranges a page; each key that lies there moves with its box.
    pub fn repack(&mut self, page: usize) {
        if page < self.pages.len() {
            let list = self.pages[page].rearrange();
            let moved: HashMap<u32, _, BuildHasherDefault<Folded>> =
                list.changes.iter().map(|change| (change.old.id.serialize(), change.new)).collect();
            for entry in self.entries.iter_mut().filter(|entry| entry.page == page) {
                if let Some(new) = moved.get(&entry.id.serialize()) {
                    (entry.id, entry.rectangle) = (new.id, new.rectangle);
                }
            }
        }
    }
}

/// So many calls.
pub fn run(calls: u32) -> Answers {
    let mut random = Random(1);
    let mut cache = Cache::new();
    let mut wanted = None;
    for call in 0..calls {
        if call % CALLS_IN_A_FRAME == 0 {
            cache.frame += 1;
        }
        if let Some(key) = wanted.take() {
            cache.insert(key, size_of(key));
            continue;
        }
        let key = key_of(next_rank(&mut random));
        if !cache.get(key) {
            wanted = Some(key);
        }
    }
    cache.answers
}
