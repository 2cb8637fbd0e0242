//! A plain model of a cache: what a caller knows of it, entry by entry, the most recently used first. It predicts what
//! goes and what grows, but not where a new key comes: it only looks at where it came.

use wollemigo_core::atlas_cache::entries::DefaultHasher;
use wollemigo_core::atlas_cache::{CacheChange, CacheOptions, Counts, Place, TextureCache};
use wollemigo_core::guillotiere::{point2, Rectangle, Size};
use wollemigo_support::alloc::Allocator;

/// What is held under a key.
#[derive(Clone, Copy)]
pub struct Held {
    pub key: u32,
    pub size: Size,
    pub place: Place,
    /// The frame of its last use.
    pub frame: u64,
}

/// What a caller knows of a cache.
pub struct Plain {
    pub options: CacheOptions,
    /// The most recently used first.
    pub held: Vec<Held>,
    pub pages: Vec<Size>,
    /// The most keys that there were at once, which is how many numbers they had.
    pub numbers: usize,
    pub frame: u64,
    pub counts: Counts,
}

/// Whether a size has no pixel.
pub fn is_empty(size: Size) -> bool {
    size.width < 1 || size.height < 1
}

// A side and the padding at both of its ends.
fn padded(side: i32, padding: i32) -> i64 {
    i64::from(side) + 2 * i64::from(padding)
}

// A side that has grown: doubled, up to the largest.
fn doubled(side: i32, largest: i32) -> i32 {
    side.saturating_mul(2).min(largest)
}

// How many pixels a place has, with its padding.
fn area_of(place: Place) -> u64 {
    let (min, max) = (place.rectangle.min, place.rectangle.max);
    u64::from((max.x - min.x) as u32) * u64::from((max.y - min.y) as u32)
}

// A page that has grown: its lesser side, the width of equal ones, or the other one if that is at its largest.
fn grown(page: Size, largest: Size) -> Size {
    let is_lesser = page.width <= page.height || page.height == largest.height;
    if is_lesser && page.width < largest.width {
        return Size {
            width: doubled(page.width, largest.width),
            ..page
        };
    }
    Size {
        height: doubled(page.height, largest.height),
        ..page
    }
}

fn lie_apart(a: Rectangle, b: Rectangle) -> bool {
    let aside = a.max.x <= b.min.x || b.max.x <= a.min.x;
    aside || a.max.y <= b.min.y || b.max.y <= a.min.y
}

fn lies_within(r: Rectangle, page: Size) -> bool {
    let has_corner = 0 <= r.min.x && 0 <= r.min.y;
    has_corner && r.max.x <= page.width && r.max.y <= page.height
}

// Whether an entry of this length lies behind its padding, and has padding behind it, from `outer.0` to `outer.1`.
fn has_padding(outer: (i32, i32), inner: (i32, i32), length: i32, padding: i32) -> bool {
    let (start, end) = (i64::from(inner.0), i64::from(inner.1));
    let begins = start == i64::from(outer.0) + i64::from(padding);
    begins && end == start + i64::from(length) && end + i64::from(padding) <= i64::from(outer.1)
}

// Whether a place shows an entry of this size, in pixels, with its padding.
fn shows(place: Place, size: Size, padding: i32) -> bool {
    let (outer, inner) = (place.rectangle, place.inner);
    let (x, y) = ((outer.min.x, outer.max.x), (outer.min.y, outer.max.y));
    has_padding(x, (inner.min.x, inner.max.x), size.width, padding)
        && has_padding(y, (inner.min.y, inner.max.y), size.height, padding)
}

impl Plain {
    /// Of a new cache.
    pub fn new(options: CacheOptions) -> Plain {
        Plain {
            options,
            held: Vec::new(),
            pages: Vec::new(),
            numbers: 0,
            frame: 0,
            counts: Counts {
                hits: 0,
                misses: 0,
                evictions: 0,
                forced: 0,
            },
        }
    }

    /// Where a key stands among what is held.
    pub fn find(&self, key: u32) -> Option<usize> {
        self.held.iter().position(|held| held.key == key)
    }

    /// The place of a key.
    pub fn place_of(&self, key: u32) -> Option<Place> {
        let at = self.find(key)?;
        Some(self.held[at].place)
    }

    /// A key is used, a hit, or isn't there, a miss: its place.
    pub fn touch(&mut self, key: u32) -> Option<Place> {
        let at = match self.find(key) {
            Some(at) => at,
            None => {
                self.counts.misses += 1;
                return None;
            }
        };
        self.counts.hits += 1;
        let mut used = self.held.remove(at);
        used.frame = self.frame;
        self.held.insert(0, used);
        Some(used.place)
    }

    /// A key goes: its place.
    pub fn remove(&mut self, key: u32) -> Option<Place> {
        let at = self.find(key)?;
        Some(self.held.remove(at).place)
    }

    /// All keys go, and numbers begin again.
    pub fn clear(&mut self) {
        self.held.clear();
        self.numbers = 0;
    }

    // Whether an entry wasn't used for so many frames.
    fn is_unused(&self, held: Held, frames: u64) -> bool {
        self.frame - held.frame >= frames
    }

    /// The keys that weren't used for so many frames go. Whether these changes tell just them, the least recently used
    /// first.
    pub fn trim(&mut self, frames: u64, told: &[CacheChange<u32>]) -> bool {
        for change in told {
            let last = match self.held.pop() {
                Some(last) => last,
                None => return false,
            };
            let (key, place) = (last.key, last.place);
            if *change != (CacheChange::Evicted { key, place }) || !self.is_unused(last, frames) {
                return false;
            }
            self.counts.evictions += 1;
        }
        match self.held.last() {
            Some(last) => !self.is_unused(*last, frames),
            None => true,
        }
    }

    /// So many of the keys that were used last go, all if there are no more. Whether these changes tell just them, the most recently used
    /// first.
    pub fn end_batch(&mut self, keys: usize, told: &[CacheChange<u32>]) -> bool {
        let count = keys.min(self.held.len());
        self.counts.evictions += count as u64;
        let gone = self.held.drain(..count).map(|held| CacheChange::Evicted {
            key: held.key,
            place: held.place,
        });
        gone.eq(told.iter().copied())
    }

    // Whether a key can move from one place to another, on a page before that one.
    fn can_move(&self, held: Held, to: Place) -> bool {
        to.number == held.place.number
            && to.page < held.place.page
            && area_of(to) == area_of(held.place)
            && self.is_free(to)
            && shows(to, held.size, self.options.padding)
    }

    /// Keys of the last page move to pages before it, from so many pixels at most: how many. None unless these changes tell just that, in
    /// the order of use.
    pub fn compact(&mut self, pixels: u64, told: &[CacheChange<u32>]) -> Option<u64> {
        let (mut moved, mut visited) = (0, 0);
        for change in told {
            let (key, from, to) = match *change {
                CacheChange::Moved { key, from, to } => (key, from, to),
                _ => return None,
            };
            let at = self.find(key).filter(|at| *at >= visited)?;
            let is_last = from.page as usize + 1 == self.pages.len();
            if self.held[at].place != from || !is_last || !self.can_move(self.held[at], to) {
                return None;
            }
            self.held[at].place = to;
            moved += area_of(from);
            visited = at + 1;
        }
        Some(moved).filter(|moved| *moved <= pixels)
    }

    /// The sizes of the keys of the last page that take no more than so many pixels.
    pub fn small_on_last(&self, pixels: u64) -> Vec<Size> {
        let last = |held: &&Held| {
            let place = held.place;
            !is_empty(held.size) && place.page as usize + 1 == self.pages.len() && area_of(place) <= pixels
        };
        self.held.iter().filter(last).map(|held| held.size).collect()
    }

    // Whether a key has its place on this page.
    fn uses_page(&self, page: usize) -> bool {
        let on_page = |held: &Held| !is_empty(held.size) && held.place.page as usize == page;
        self.held.iter().any(on_page)
    }

    /// The pages behind the last one with a key go. Whether these changes tell just them, the last page first.
    pub fn shrink(&mut self, told: &[CacheChange<u32>]) -> bool {
        for change in told {
            let page = match *change {
                CacheChange::PageRemoved { page } => page,
                _ => return false,
            };
            let went = self.pages.pop().is_some();
            let last = self.pages.len();
            if !went || last as u64 != u64::from(page) || self.uses_page(last) {
                return false;
            }
        }
        self.pages.is_empty() || self.uses_page(self.pages.len() - 1)
    }

    /// Whether a size, in pixels, fits an empty page of the largest size, padding included.
    pub fn can_stand(&self, size: Size) -> bool {
        let largest = self.options.largest_page;
        let padding = self.options.padding;
        0 < size.width
            && 0 < size.height
            && padded(size.width, padding) <= i64::from(largest.width)
            && padded(size.height, padding) <= i64::from(largest.height)
    }

    // The pixels of a page, and those of them that its keys take.
    fn areas(&self, page: usize) -> (u64, u64) {
        let size = self.pages[page];
        let on_page = |held: &&Held| held.place.page as usize == page;
        let taken = self.held.iter().filter(on_page).map(|held| area_of(held.place));
        (u64::from(size.width as u32) * u64::from(size.height as u32), taken.sum())
    }

    /// Whether some page has as many free pixels as this size has with its padding.
    pub fn has_area(&self, size: Size) -> bool {
        let padding = self.options.padding;
        let asked = padded(size.width, padding) * padded(size.height, padding);
        (0..self.pages.len()).any(|page| {
            let (whole, taken) = self.areas(page);
            asked <= (whole - taken) as i64
        })
    }

    // The first page that isn't at its largest, and its size when it has grown.
    fn growth(&self) -> Option<(u32, Size)> {
        let largest = self.options.largest_page;
        let (number, page) = (0..).zip(&self.pages).find(|(_, page)| **page != largest)?;
        Some((number, grown(*page, largest)))
    }

    // Whether every page is there, and at its largest.
    fn is_full(&self) -> bool {
        self.growth().is_none() && self.pages.len() as u64 == u64::from(self.options.pages)
    }

    // Whether such a page comes next.
    fn adds(&self, page: u32, size: Size) -> bool {
        let is_next = self.pages.len() as u64 == u64::from(page) && page < self.options.pages;
        is_next && self.growth().is_none() && size == self.options.page
    }

    // The least recently used entry with a size that isn't empty.
    fn last_with_pixels(&self) -> Option<Held> {
        let last = self.held.iter().rev().find(|held| !is_empty(held.size));
        last.copied()
    }

    // Whether this entry goes next: the least recently used one that takes room, where this frame didn't use it.
    fn evicts(&self, key: u32, place: Place) -> bool {
        let last = match self.last_with_pixels() {
            Some(last) => last,
            None => return false,
        };
        self.is_full() && last.key == key && last.place == place && last.frame < self.frame
    }

    // A page has this size from now on.
    fn resize(&mut self, page: u32, size: Size) {
        let page = page as usize;
        if page < self.pages.len() {
            self.pages[page] = size;
        }
    }

    /// A change that an insertion told, before which some page had the area or none. Whether it was the next one to be made.
    pub fn follow(&mut self, change: CacheChange<u32>, had_area: bool) -> bool {
        match change {
            CacheChange::PageAdded { page, size } => {
                let is_right = self.adds(page, size);
                self.pages.push(size);
                is_right
            }
            CacheChange::PageGrown { page, size } => {
                let is_right = self.growth() == Some((page, size));
                self.resize(page, size);
                is_right
            }
            CacheChange::Evicted { key, place } => {
                let is_right = self.evicts(key, place);
                self.counts.evictions += 1;
                self.counts.forced += u64::from(had_area);
                self.remove(key).is_some() && is_right
            }
            CacheChange::Moved { .. } | CacheChange::PageRemoved { .. } => false,
        }
    }

    // Whether a place lies within its page and apart from the others of that page.
    fn is_free(&self, place: Place) -> bool {
        let page = self.pages.get(place.page as usize);
        let is_apart = |other: &Held| {
            other.place.page != place.page || lie_apart(other.place.rectangle, place.rectangle)
        };
        page.map_or(false, |page| lies_within(place.rectangle, *page))
            && self.held.iter().all(is_apart)
    }

    /// A new key has this place. Whether it can have it.
    pub fn add(&mut self, key: u32, size: Size, place: Place) -> bool {
        let is_right = self.is_free(place) && shows(place, size, self.options.padding);
        self.join(key, size, place);
        is_right
    }

    /// A new key with an empty size has this place. Whether it can have it: one with nothing in it, on page 0.
    pub fn add_blank(&mut self, key: u32, size: Size, place: Place) -> bool {
        let nothing = Rectangle {
            min: point2(0, 0),
            max: point2(0, 0),
        };
        self.join(key, size, place);
        place.page == 0 && place.rectangle == nothing && place.inner == nothing
    }

    // A new key has this place, and is the most recently used.
    fn join(&mut self, key: u32, size: Size, place: Place) {
        let new = Held {
            key,
            size,
            place,
            frame: self.frame,
        };
        self.held.insert(0, new);
        self.numbers = self.numbers.max(self.held.len());
    }

    /// Whether a new key may get no place: every page is there and at its largest, and this frame uses all keys that take
    /// room.
    pub fn is_exhausted(&self) -> bool {
        let is_used = |held: &Held| held.frame == self.frame || is_empty(held.size);
        self.held.iter().all(is_used) && self.is_full()
    }

    // Whether a cache has these pages.
    fn has_pages<A: Allocator + Copy>(&self, cache: &TextureCache<u32, DefaultHasher, A>) -> bool {
        let count = self.pages.len() as u32;
        let mut numbered = (0..).zip(&self.pages);
        numbered.all(|(number, page)| cache.page_size(number) == Some(*page))
            && cache.pages() == count
            && cache.page_size(count).is_none()
    }

    // Whether a cache tells these areas.
    fn has_areas<A: Allocator + Copy>(&self, cache: &TextureCache<u32, DefaultHasher, A>) -> bool {
        (0..self.pages.len()).all(|page| {
            let (whole, taken) = self.areas(page);
            let told = (cache.live_area(page as u32), cache.free_area(page as u32));
            told == (Some(taken), Some(whole - taken))
        })
    }

    // Whether a number is below those that were given out, and no other key's.
    fn has_own_number(&self, own: Held) -> bool {
        let has_it = |held: &&Held| held.place.number == own.place.number;
        self.held.iter().filter(has_it).count() == 1 && (own.place.number as usize) < self.numbers
    }

    // Whether a cache tells these keys in this order of use.
    fn has_order<A: Allocator + Copy>(&self, cache: &TextureCache<u32, DefaultHasher, A>) -> bool {
        let mut next = cache.newest();
        for held in &self.held {
            if next != Some((held.key, held.place)) {
                return false;
            }
            next = cache.older(&held.key);
        }
        next.is_none()
    }

    // Whether its iterator gives the same, and says all along how many are left; and so does a copy of it.
    fn has_iterator<A: Allocator + Copy>(
        &self,
        cache: &TextureCache<u32, DefaultHasher, A>,
    ) -> bool {
        let mut rest = cache.iter();
        let mut left = self.held.len();
        for held in &self.held {
            let next = Some((held.key, held.place));
            let told = (rest.len(), rest.size_hint());
            if told != (left, (left, Some(left)))
                || rest.copy().next() != next
                || rest.next() != next
            {
                return false;
            }
            left -= 1;
        }
        rest.len() == 0 && rest.next().is_none() && rest.next().is_none()
    }

    /// Whether a cache has these pages and counts, and holds these keys at these places, in this order, and no others.
    pub fn is_picture_of<A: Allocator + Copy>(
        &self,
        cache: &TextureCache<u32, DefaultHasher, A>,
    ) -> bool {
        for held in &self.held {
            if cache.peek(&held.key) != Some(held.place) || !self.has_own_number(*held) {
                return false;
            }
        }
        cache.numbers() as usize == self.numbers
            && cache.len() == self.held.len()
            && self.has_order(cache)
            && self.has_iterator(cache)
            && self.has_pages(cache)
            && self.has_areas(cache)
            && cache.statistics() == self.counts
    }
}
