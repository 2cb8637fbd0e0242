//! Random traces, call by call beside a plain model.

use super::plain::{is_empty, Plain};
use crate::random::next;
use test_memory::Refusing;
use wollemigo_core::atlas_cache::entries::DefaultHasher;
use wollemigo_core::atlas_cache::{
    CacheError, CacheOptions, Changes, Inserted, Place, TextureCache,
};
use wollemigo_core::guillotiere::{size2, Size, DEFAULT_OPTIONS};
use wollemigo_support::alloc::{Allocator, Global};
use wollemigo_support::test::Fail;
use wollemigo_support::vec::Vec;

// How many keys a trace has.
const KEYS: u64 = 40;

/// A cache and its model.
struct Played<A: Allocator + Copy> {
    cache: TextureCache<u32, DefaultHasher, A>,
    changes: Changes<u32, A>,
    plain: Plain,
}

// A size whose sides are from 1 to 14 pixels; of forty sizes six are empty, and two can't stand on a page of a trace.
fn drawn_size(word: u64) -> Size {
    let width = 1 + ((word >> 16) % 14) as i32;
    let height = 1 + ((word >> 24) % 14) as i32;
    match (word >> 32) % 40 {
        0..=2 => size2(0, height),
        3..=5 => size2(width, -height),
        6 => size2(i32::MAX, height),
        7 => size2(width, 1000),
        _ => size2(width, height),
    }
}

// The size that a key is asked with: of eight times seven times its own one.
fn asked_size(key: u32, word: u64) -> Size {
    if (word >> 40) % 8 == 0 {
        return drawn_size(word);
    }
    drawn_size(u64::from(key).wrapping_mul(0x9e37_79b9_7f4a_7c15))
}

impl<A: Allocator + Copy> Played<A> {
    fn new(alloc: A, options: CacheOptions) -> Result<Played<A>, Fail> {
        Ok(Played {
            cache: TextureCache::with_hasher(alloc, options, DefaultHasher::new())?,
            changes: Vec::new(alloc),
            plain: Plain::new(options),
        })
    }

    fn begin_frame(&mut self) {
        self.cache.begin_frame();
        self.plain.frame += 1;
    }

    // The model follows what an insertion of this size told; `false` where that was wrong.
    fn follow(&mut self, size: Size) -> bool {
        let (mut is_right, had_area) = (true, self.plain.has_area(size));
        for change in &self.changes {
            is_right &= self.plain.follow(*change, had_area);
        }
        is_right
    }

    // Inserts a key that is held; `false` where the answer or what was told was wrong.
    fn insert_held(&mut self, key: u32, held: Size, size: Size) -> bool {
        let answer = self.cache.insert(key, size, &mut self.changes);
        let is_right = if size != held {
            answer == Err(CacheError::OtherSize)
        } else {
            let place = self.plain.touch(key);
            place.map_or(false, |place| answer == Ok(Inserted::Held(place)))
        };
        is_right && self.changes.is_empty()
    }

    // Inserts a new key with an empty size, which was answered so.
    fn insert_blank(
        &mut self,
        key: u32,
        size: Size,
        answer: Result<Inserted, CacheError>,
    ) -> Result<bool, CacheError> {
        let place = match answer? {
            Inserted::Placed(place) => place,
            _ => return Ok(false),
        };
        Ok(self.plain.add_blank(key, size, place) && self.changes.is_empty())
    }

    // The same with a key that isn't. The model follows what was told also where memory was refused, the error then.
    fn insert_new(&mut self, key: u32, size: Size) -> Result<bool, CacheError> {
        let answer = self.cache.insert(key, size, &mut self.changes);
        if is_empty(size) {
            return self.insert_blank(key, size, answer);
        }
        if !self.plain.can_stand(size) {
            return Ok(answer == Ok(Inserted::NeverFits) && self.changes.is_empty());
        }
        if !self.follow(size) {
            return Ok(false);
        }
        match answer? {
            Inserted::Placed(place) => Ok(self.plain.add(key, size, place)),
            Inserted::FrameFull => Ok(self.plain.is_exhausted()),
            _ => Ok(false),
        }
    }

    fn insert(&mut self, key: u32, size: Size) -> Result<bool, CacheError> {
        self.changes.clear();
        match self.plain.find(key) {
            Some(at) => {
                let held = self.plain.held[at].size;
                Ok(self.insert_held(key, held, size))
            }
            None => self.insert_new(key, size),
        }
    }

    // What wasn't used for up to three frames goes; `false` where something else was told. Nothing goes where memory is
    // refused, the error then.
    fn trim(&mut self, frames: u64) -> Result<bool, CacheError> {
        self.changes.clear();
        self.cache.trim(frames, &mut self.changes)?;
        Ok(self.plain.trim(frames, &self.changes))
    }

    // A batch ends, and up to three keys go; `false` where something else was told. None goes where memory is refused, the error then.
    fn end_batch(&mut self, keys: usize) -> Result<bool, CacheError> {
        self.changes.clear();
        self.cache.end_batch(keys, &mut self.changes)?;
        Ok(self.plain.end_batch(keys, &self.changes))
    }

    // The pages behind the last one with a key go; `false` where something else was told. None goes where memory is
    // refused, the error then.
    fn shrink(&mut self) -> Result<bool, CacheError> {
        self.changes.clear();
        self.cache.shrink(&mut self.changes)?;
        Ok(self.plain.shrink(&self.changes))
    }

    // Whether a page before the last has room for a key of the last one that takes no more than so many pixels.
    fn has_room_before_last(&self, pixels: u64) -> Result<bool, CacheError> {
        for size in self.plain.small_on_last(pixels) {
            let mut copy = self.cache.clone()?;
            let mut changes = Vec::new(*self.changes.allocator());
            let placed = copy.insert(KEYS as u32, size, &mut changes)?;
            let is_before = |place: Place| place.page + 1 < self.cache.pages();
            if changes.is_empty() && placed.place().map_or(false, is_before) {
                return Ok(true);
            }
        }
        Ok(false)
    }

    // Keys of the last page move to pages before it; `false` where something else was told, or where one that may move has room there yet.
    // The model follows what was told also where memory was refused, the error then.
    fn compact(&mut self, pixels: u64) -> Result<bool, CacheError> {
        self.changes.clear();
        let answer = self.cache.compact(pixels, &mut self.changes);
        let told = match self.plain.compact(pixels, &self.changes) {
            Some(told) => told,
            None => return Ok(false),
        };
        Ok(answer? == told && !self.has_room_before_last(pixels - told)?)
    }

    // A call that comes seldom: of sixteen such calls once all keys go, twice old ones, twice new ones, twice pages, and three times keys move.
    fn turn_seldom(&mut self, key: u32, word: u64) -> Result<bool, CacheError> {
        match (word >> 48) % 16 {
            0 => {
                self.cache.clear();
                self.plain.clear();
                Ok(true)
            }
            1 | 2 => self.trim(1 + (word >> 56) % 3),
            3 | 4 => self.shrink(),
            5 | 6 => self.end_batch(((word >> 56) % 4) as usize),
            7..=9 => self.compact((word >> 56) % 200),
            _ => self.insert(key, asked_size(key, word)),
        }
    }

    // One call on both, by a random word; `false` where the answer was wrong.
    fn turn(&mut self, word: u64) -> Result<bool, CacheError> {
        let key = ((word >> 8) % KEYS) as u32;
        match word % 16 {
            0 => self.begin_frame(),
            1..=5 => return Ok(self.cache.get(&key) == self.plain.touch(key)),
            6 => return Ok(self.cache.peek(&key) == self.plain.place_of(key)),
            7 => return Ok(self.cache.remove(&key) == self.plain.remove(key)),
            8 => return self.turn_seldom(key, word),
            _ => return self.insert(key, asked_size(key, word)),
        }
        Ok(true)
    }

    // Whether so many calls from a seed were answered as the model has it, and each left the cache as the model is.
    fn agrees(&mut self, seed: u64, calls: u32) -> Result<bool, CacheError> {
        let mut state = seed;
        for _call in 0..calls {
            if !self.turn(next(&mut state))? || !self.plain.is_picture_of(&self.cache) {
                return Ok(false);
            }
        }
        Ok(true)
    }
}

// New pages of 16 by 12 pixels, up to `largest`, at most `pages`.
fn options(largest: Size, pages: u32, padding: i32) -> CacheOptions {
    CacheOptions {
        page: size2(16, 12),
        largest_page: largest,
        pages,
        padding,
        atlas: DEFAULT_OPTIONS,
    }
}

// Whether a trace of so many calls agrees with the model, and some evictions in it were forced, but not all.
fn plays(options: CacheOptions, seed: u64, calls: u32) -> Result<bool, Fail> {
    let mut played = Played::new(Global, options)?;
    let is_right = played.agrees(seed, calls)?;
    let counts = played.plain.counts;
    Ok(is_right && 0 < counts.forced && counts.forced < counts.evictions)
}

#[test]
fn on_one_page() -> Result<(), Fail> {
    assert!(plays(options(size2(16, 12), 1, 0), 1, 20_000)?);
    Ok(())
}

#[test]
fn on_a_page_that_grows() -> Result<(), Fail> {
    assert!(plays(options(size2(40, 40), 1, 0), 2, 20_000)?);
    Ok(())
}

#[test]
fn on_two_pages_that_grow() -> Result<(), Fail> {
    assert!(plays(options(size2(24, 32), 2, 1), 3, 20_000)?);
    Ok(())
}

#[test]
fn on_three_pages() -> Result<(), Fail> {
    assert!(plays(options(size2(16, 12), 3, 1), 4, 20_000)?);
    Ok(())
}

// With this seed no key lets more than 16 go: those that do are tested by themselves, since the model has all in the order of use.
#[test]
fn a_long_trace() -> Result<(), Fail> {
    assert!(plays(options(size2(32, 32), 2, 1), 7, 100_000)?);
    Ok(())
}

#[test]
fn with_wide_padding() -> Result<(), Fail> {
    assert!(plays(options(size2(64, 24), 2, 3), 5, 20_000)?);
    Ok(())
}

impl<A: Allocator + Copy> Played<A> {
    // The same of a short trace in which a request for memory may be refused.
    fn withstands(&mut self, seed: u64) -> bool {
        let mut state = seed;
        for _call in 0..60 {
            let is_right = match self.turn(next(&mut state)) {
                Ok(is_right) => is_right,
                Err(error) => error == CacheError::Memory,
            };
            if !is_right || !self.plain.is_picture_of(&self.cache) {
                return false;
            }
        }
        true
    }

    // Every key is looked for and removed; `false` where an answer was wrong, or something is held yet.
    fn empties(&mut self) -> bool {
        for key in 0..KEYS as u32 {
            let place = self.plain.remove(key);
            let is_right = self.cache.get(&key) == place && self.cache.remove(&key) == place;
            if !is_right || self.cache.peek(&key).is_some() {
                return false;
            }
        }
        self.cache.is_empty()
    }

    // Whether an entry of the whole size of each page has room there, one after another, with no change.
    fn has_empty_pages(&mut self) -> Result<bool, CacheError> {
        self.changes.clear();
        let border = 2 * self.plain.options.padding;
        for page in 0..self.cache.pages() {
            let size = match self.cache.page_size(page) {
                Some(size) => size,
                None => return Ok(false),
            };
            let whole = size2(size.width - border, size.height - border);
            let placed = self.cache.insert(page, whole, &mut self.changes)?;
            if !placed.place().map_or(false, |place| place.page == page) {
                return Ok(false);
            }
        }
        Ok(self.changes.is_empty())
    }
}

// What a short trace came to: whether all was well in it, and whether the request with this number was made.
fn refused_once(heap: &Refusing<Global>, seed: u64, number: u32) -> Result<(bool, bool), Fail> {
    heap.refuse_nth(number);
    let mut played = Played::new(heap, options(size2(24, 32), 2, 1))?;
    let withstood = played.withstands(seed);
    let was_refused = heap.is_done();
    heap.refuse_nth(0);
    let has_no_rest = played.empties() && played.has_empty_pages()?;
    Ok((withstood && has_no_rest, was_refused))
}

// Each request for memory of a short trace is refused in turn, until there are none. Whether all was well each time,
// and all memory was given back.
fn is_refused_in_turn(seed: u64) -> Result<bool, Fail> {
    for number in 1..1_000 {
        let heap = Refusing::new(Global);
        let (is_well, was_refused) = refused_once(&heap, seed, number)?;
        let returned = heap.returned() + u64::from(was_refused);
        if !is_well || returned != heap.requests() {
            return Ok(false);
        }
        if !was_refused {
            return Ok(number > 10);
        }
    }
    Ok(false)
}

#[test]
fn each_request_for_memory_is_refused() -> Result<(), Fail> {
    for seed in 1..11 {
        assert!(is_refused_in_turn(seed)?, "seed {seed}");
    }
    Ok(())
}

#[test]
fn looking_and_removing_take_no_memory() -> Result<(), Fail> {
    let heap = Refusing::new(Global);
    let mut played = Played::new(&heap, options(size2(24, 32), 2, 1))?;
    assert!(played.agrees(1, 200)?);
    let made = heap.requests();
    assert!(played.empties());
    assert_eq!(heap.requests(), made);
    Ok(())
}
