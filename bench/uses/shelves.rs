//! A cache beside which the others are measured: rows of equal height, in which boxes stand side by side.
//!
//! A page is cut into shelves, which are as wide as it is. A box goes onto the lowest shelf that is high enough, but at most half
//! as high again, and has a piece that is wide enough; else an empty shelf is cut off for it, whose height is its own, rounded up. What
//! is freed joins the pieces beside it, and a shelf that is empty joins empty ones. Where no page has room the least recently used keys
//! go, one by one, until there is room.
use crate::playing::{Answer, Cache};
use crate::traces::Pages;
use std::collections::{BTreeMap, HashMap};

pub const PADDING: i32 = 1;

#[derive(Clone, Copy)]
struct Piece {
    x: i32,
    width: i32,
    is_free: bool,
}

struct Shelf {
    height: i32,
    pieces: Vec<Piece>,
}

impl Shelf {
    fn empty(width: i32, height: i32) -> Shelf {
        Shelf { height, pieces: vec![Piece { x: 0, width, is_free: true }] }
    }

    fn is_empty(&self) -> bool {
        self.pieces.len() == 1 && self.pieces[0].is_free
    }

    fn piece_for(&self, width: i32) -> Option<usize> {
        self.pieces.iter().position(|piece| piece.is_free && piece.width >= width)
    }
}

/// Shelves by their tops.
struct Page {
    side: i32,
    shelves: BTreeMap<i32, Shelf>,
}

fn rounded(height: i32) -> i32 {
    let step = match height {
        0..=32 => 4,
        33..=128 => 8,
        _ => 32,
    };
    (height + step - 1) / step * step
}

impl Page {
    fn new(side: i32) -> Page {
        Page { side, shelves: BTreeMap::from([(0, Shelf::empty(side, side))]) }
    }

    /// The left upper corner of a new box.
    fn place(&mut self, width: i32, height: i32) -> Option<(i32, i32)> {
        let wanted = rounded(height).min(self.side);
        let usable = self.shelves.iter().filter(|(_, shelf)| {
            let is_near = shelf.is_empty() || shelf.height <= wanted + wanted / 2;
            shelf.height >= wanted && is_near && shelf.piece_for(width).is_some()
        });
        let (&top, _) = usable.min_by_key(|(_, shelf)| (shelf.is_empty(), shelf.height))?;
        let shelf = self.shelves.get_mut(&top)?;
        let rest = shelf.height - wanted;
        if shelf.is_empty() && rest > 0 {
            shelf.height = wanted;
            self.shelves.insert(top + wanted, Shelf::empty(self.side, rest));
        }
        let pieces = &mut self.shelves.get_mut(&top)?.pieces;
        let at = pieces.iter().position(|piece| piece.is_free && piece.width >= width)?;
        let Piece { x, width: whole, .. } = pieces[at];
        pieces[at] = Piece { x, width, is_free: false };
        if whole > width {
            pieces.insert(at + 1, Piece { x: x + width, width: whole - width, is_free: true });
        }
        Some((x, top))
    }

    fn free(&mut self, x: i32, top: i32) {
        let pieces = &mut self.shelves.get_mut(&top).expect("a shelf").pieces;
        let mut at = pieces.iter().position(|piece| piece.x == x).expect("a piece");
        pieces[at].is_free = true;
        if at > 0 && pieces[at - 1].is_free {
            at -= 1;
            pieces[at].width += pieces.remove(at + 1).width;
        }
        if at + 1 < pieces.len() && pieces[at + 1].is_free {
            pieces[at].width += pieces.remove(at + 1).width;
        }
        self.join(top);
    }

    // Joins a shelf, where it is empty, with empty ones above and below it.
    fn join(&mut self, top: i32) {
        if !self.shelves[&top].is_empty() {
            return;
        }
        let above = self.shelves.range(..top).next_back().filter(|(_, shelf)| shelf.is_empty()).map(|(top, _)| *top);
        let first = above.unwrap_or(top);
        while let Some((&next, _)) = self.shelves.range(first + 1..).next().filter(|(_, shelf)| shelf.is_empty()) {
            let height = self.shelves.remove(&next).expect("a shelf").height;
            self.shelves.get_mut(&first).expect("a shelf").height += height;
        }
    }
}

#[derive(Clone, Copy)]
struct Entry {
    page: usize,
    x: i32,
    top: i32,
    frame: u64,
    used: u64,
}

pub struct Shelves {
    pages: Vec<Page>,
    entries: HashMap<u32, Entry>,
    // The keys by when they were used.
    order: BTreeMap<u64, u32>,
    frame: u64,
    uses: u64,
    evictions: u64,
}

impl Shelves {
    pub fn new(pages: Pages) -> Shelves {
        let pages = (0..pages.most).map(|_| Page::new(pages.largest)).collect();
        Shelves { pages, entries: HashMap::new(), order: BTreeMap::new(), frame: 0, uses: 0, evictions: 0 }
    }

    /// The page and the left upper corner of each key that is held.
    pub fn corners(&self) -> Vec<(u32, usize, i32, i32)> {
        self.entries.iter().map(|(key, entry)| (*key, entry.page, entry.x, entry.top)).collect()
    }

    fn evict_oldest(&mut self) -> Option<usize> {
        let (&used, &key) = self.order.iter().next()?;
        let entry = self.entries[&key];
        if entry.frame == self.frame {
            return None;
        }
        self.order.remove(&used);
        self.entries.remove(&key);
        self.pages[entry.page].free(entry.x, entry.top);
        self.evictions += 1;
        Some(entry.page)
    }
}

impl Cache for Shelves {
    fn begin_frame(&mut self) {
        self.frame += 1;
    }

    // They have no batches, and a new frame has used nothing.
    fn make_room(&mut self, _before: u32, _was_full: bool) {
        self.begin_frame();
    }

    fn mark(&mut self, _key: u32) {}

    fn get(&mut self, key: u32) -> bool {
        self.uses += 1;
        let (frame, now) = (self.frame, self.uses);
        match self.entries.get_mut(&key) {
            Some(entry) => {
                self.order.remove(&entry.used);
                self.order.insert(now, key);
                (entry.frame, entry.used) = (frame, now);
                true
            }
            None => false,
        }
    }

    fn insert(&mut self, key: u32, size: (i32, i32)) -> Answer {
        let (width, height) = (size.0 + 2 * PADDING, size.1 + 2 * PADDING);
        let mut tried = 0..self.pages.len();
        loop {
            for page in tried {
                if let Some((x, top)) = self.pages[page].place(width, height) {
                    self.uses += 1;
                    self.order.insert(self.uses, key);
                    self.entries.insert(key, Entry { page, x, top, frame: self.frame, used: self.uses });
                    return Answer::Placed((width * height) as u64);
                }
            }
            match self.evict_oldest() {
                Some(page) => tried = page..page + 1,
                None => return Answer::FrameFull,
            }
        }
    }

    fn evictions(&self) -> u64 {
        self.evictions
    }
}
