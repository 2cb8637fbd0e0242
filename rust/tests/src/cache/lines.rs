//! Calls of a cache from lines: `bindings/tests/cache.lines`, and beside it what is told of them, each line with its replies, which were
//! worked out by hand. `bindings/tests/cache_lines.c` plays the same lines over the exports for C.
//!
//! A line is a word, and numbers, each after one space. KEY, PAGE, COUNT and FRAMES are decimal digits with a value that fits a `u32`; all
//! other numbers may begin with `-`, and fit an `i32`. Sizes are in pixels. Whatever else a line says, it is answered `bad line`, and does
//! nothing. A line that is empty or begins with `#` is a note: it is told as it is. Before there is a cache each call is answered
//! `no cache`.
//!
//! | line | what it calls | reply |
//! |---|---|---|
//! | `cache W H LW LH PAGES PADDING` | `new`: pages of W by H at first and LW by LH at most, instead of an earlier cache | `ok` |
//! | the same and `AW AH SMALL LARGE` | with the alignment and the thresholds of each page's atlas | `ok` |
//! | `options` | `options` | the numbers of the row above |
//! | `insert KEY W H` | `insert` | `placed PLACE`, `held PLACE`, `full` (`FrameFull`), `never` (`NeverFits`) |
//! | `get KEY`, `peek KEY`, `remove KEY` | the calls of these names | PLACE, `none` |
//! | `newest`, `oldest`, `older KEY` | the same | `KEY PLACE`, `none` |
//! | `frame`, `clear`, `batch COUNT` | `begin_frame`, `clear`, `end_batch` | `ok` |
//! | `trim FRAMES`, `shrink`, `reserve COUNT` | the calls of these names | `ok` |
//! | `repack PAGE` | `repack` | `ok`, `none` (there is no such page) |
//! | `len`, `numbers`, `pages` | the same | a number |
//! | `empty` | `is_empty` | `yes`, `no` |
//! | `size PAGE` | `page_size` | `W H`, `none` |
//! | `live PAGE`, `free PAGE`, `unusable PAGE W H` | `live_area`, `free_area`, `unusable_area` | a number of pixels, `none` |
//! | `statistics` | `statistics` | `hits N misses N evictions N forced N` |
//!
//! PLACE is `NUMBER on PAGE at X0 Y0 X1 Y1 inner X0 Y0 X1 Y1`: the entry's number, its page, its rectangle with the padding, and that
//! without. Before a reply comes a line for each change that the call reported, in order: `added PAGE W H`, `grown PAGE W H`, `evicted KEY
//! PLACE`, `moved KEY PLACE to PLACE`, `dropped PAGE`. A refusal is `refused` and the error's words.

use std::str::FromStr;
use wollemigo_core::atlas_cache::{CacheChange, CacheError, CacheOptions, Changes, Inserted, OptionsError, Place, TextureCache};
use wollemigo_core::guillotiere::{size2, AllocatorOptions, Rectangle, Size, DEFAULT_OPTIONS};
use wollemigo_support::alloc::Global;
use wollemigo_support::vec::Vec as Listed;

type Cache = TextureCache<u32>;

// What a line calls, with a key, a page or a count, and a size: its reply.
type Call = fn(&mut Cache, &mut Changes<u32>, u32, Size) -> String;

fn size_words(size: Size) -> String {
    format!("{} {}", size.width, size.height)
}

fn corners(of: Rectangle) -> String {
    format!("{} {} {} {}", of.min.x, of.min.y, of.max.x, of.max.y)
}

fn place_words(place: Place) -> String {
    let (outer, inner) = (corners(place.rectangle), corners(place.inner));
    format!("{} on {} at {} inner {}", place.number, place.page, outer, inner)
}

fn keyed_words((key, place): (u32, Place)) -> String {
    format!("{} {}", key, place_words(place))
}

fn options_words(options: CacheOptions) -> String {
    let (page, largest) = (size_words(options.page), size_words(options.largest_page));
    let (alignment, atlas) = (size_words(options.atlas.alignment), options.atlas);
    let thresholds = format!("{} {}", atlas.small_size_threshold, atlas.large_size_threshold);
    format!("{} {} {} {} {} {}", page, largest, options.pages, options.padding, alignment, thresholds)
}

fn change_words(change: CacheChange<u32>) -> String {
    match change {
        CacheChange::PageAdded { page, size } => format!("added {} {}", page, size_words(size)),
        CacheChange::PageGrown { page, size } => format!("grown {} {}", page, size_words(size)),
        CacheChange::Evicted { key, place } => format!("evicted {}", keyed_words((key, place))),
        CacheChange::Moved { key, from, to } => {
            format!("moved {} to {}", keyed_words((key, from)), place_words(to))
        }
        CacheChange::PageRemoved { page } => format!("dropped {}", page),
    }
}

fn refusal(error: CacheError) -> String {
    let words = match error {
        CacheError::Memory => "memory",
        CacheError::Numbers => "numbers",
        CacheError::Slots => "slots",
        CacheError::OtherSize => "other size",
    };
    format!("refused {}", words)
}

fn fault(error: OptionsError) -> String {
    let words = match error {
        OptionsError::EmptyPage => "empty page",
        OptionsError::LargestPage => "largest page",
        OptionsError::NoPages => "no pages",
        OptionsError::Padding => "padding",
        OptionsError::Atlas => "atlas",
        OptionsError::NothingFits => "nothing fits",
    };
    format!("refused {}", words)
}

fn inserted_words(inserted: Inserted) -> String {
    match inserted {
        Inserted::Placed(place) => format!("placed {}", place_words(place)),
        Inserted::Held(place) => format!("held {}", place_words(place)),
        Inserted::FrameFull => String::from("full"),
        Inserted::NeverFits => String::from("never"),
    }
}

fn done(_: ()) -> String {
    String::from("ok")
}

fn or_none<T>(found: Option<T>, words: fn(T) -> String) -> String {
    found.map_or_else(|| String::from("none"), words)
}

fn or_refusal<T>(answer: Result<T, CacheError>, words: fn(T) -> String) -> String {
    answer.map_or_else(refusal, words)
}

fn statistics(cache: &Cache) -> String {
    let counts = cache.statistics();
    let uses = format!("hits {} misses {}", counts.hits, counts.misses);
    format!("{} evictions {} forced {}", uses, counts.evictions, counts.forced)
}

// The call of a word with so many numbers behind it; None for every other word.
fn call_of(word: &str, numbers: usize) -> Option<Call> {
    let call: Call = match (word, numbers) {
        ("frame", 0) => |cache, _, _, _| done(cache.begin_frame()),
        ("clear", 0) => |cache, _, _, _| done(cache.clear()),
        ("shrink", 0) => |cache, changes, _, _| or_refusal(cache.shrink(changes), done),
        ("options", 0) => |cache, _, _, _| options_words(cache.options()),
        ("len", 0) => |cache, _, _, _| cache.len().to_string(),
        ("empty", 0) => |cache, _, _, _| String::from(if cache.is_empty() { "yes" } else { "no" }),
        ("numbers", 0) => |cache, _, _, _| cache.numbers().to_string(),
        ("pages", 0) => |cache, _, _, _| cache.pages().to_string(),
        ("newest", 0) => |cache, _, _, _| or_none(cache.newest(), keyed_words),
        ("oldest", 0) => |cache, _, _, _| or_none(cache.oldest(), keyed_words),
        ("statistics", 0) => |cache, _, _, _| statistics(cache),
        ("get", 1) => |cache, _, key, _| or_none(cache.get(&key), place_words),
        ("peek", 1) => |cache, _, key, _| or_none(cache.peek(&key), place_words),
        ("remove", 1) => |cache, _, key, _| or_none(cache.remove(&key), place_words),
        ("older", 1) => |cache, _, key, _| or_none(cache.older(&key), keyed_words),
        ("trim", 1) => |cache, changes, frames, _| or_refusal(cache.trim(u64::from(frames), changes), done),
        ("batch", 1) => |cache, changes, count, _| or_refusal(cache.end_batch(count as usize, changes), done),
        ("reserve", 1) => |cache, _, count, _| or_refusal(cache.reserve(count as usize), done),
        ("repack", 1) => |cache, changes, page, _| {
            or_refusal(cache.repack(page, changes), |is_there| or_none(is_there.then(|| ()), done))
        },
        ("size", 1) => |cache, _, page, _| or_none(cache.page_size(page), size_words),
        ("live", 1) => |cache, _, page, _| or_none(cache.live_area(page), |area| area.to_string()),
        ("free", 1) => |cache, _, page, _| or_none(cache.free_area(page), |area| area.to_string()),
        ("insert", 3) => |cache, changes, key, size| or_refusal(cache.insert(key, size, changes), inserted_words),
        ("unusable", 3) => |cache, _, page, size| {
            or_refusal(cache.unusable_area(page, size), |area| or_none(area, |area| area.to_string()))
        },
        _ => return None,
    };
    Some(call)
}

fn number<T: FromStr>(word: &str) -> Option<T> {
    if word.starts_with('+') {
        return None;
    }
    word.parse().ok()
}

// The options of six numbers, or of ten.
fn options_of(words: &[&str]) -> Option<CacheOptions> {
    let numbers: Option<Vec<i32>> = words.iter().map(|word| number(word)).collect();
    let numbers = numbers?;
    let atlas = match *numbers.get(6..)? {
        [] => DEFAULT_OPTIONS,
        [width, height, small_size_threshold, large_size_threshold] => AllocatorOptions {
            alignment: size2(width, height),
            small_size_threshold,
            large_size_threshold,
        },
        _ => return None,
    };
    Some(CacheOptions {
        page: size2(numbers[0], numbers[1]),
        largest_page: size2(numbers[2], numbers[3]),
        pages: u32::try_from(numbers[4]).unwrap_or(0),
        padding: numbers[5],
        atlas,
    })
}

// A cache, once there is one, and what the last call changed.
struct Session {
    cache: Option<Cache>,
    changes: Changes<u32>,
}

impl Session {
    // Makes a cache in place of an earlier one, unless it is refused.
    fn start(&mut self, options: CacheOptions) -> String {
        match TextureCache::new(Global, options) {
            Ok(made) => done(self.cache = Some(made)),
            Err(error) => fault(error),
        }
    }

    // The reply to a line; None where it says no call.
    fn reply(&mut self, line: &str) -> Option<String> {
        let words: Vec<&str> = line.split(' ').collect();
        let (word, numbers) = words.split_first()?;
        if *word == "cache" {
            return Some(self.start(options_of(numbers)?));
        }
        let call = call_of(word, numbers.len())?;
        let (first, size) = match *numbers {
            [] => (0, size2(0, 0)),
            [first] => (number(first)?, size2(0, 0)),
            [first, width, height] => (number(first)?, size2(number(width)?, number(height)?)),
            _ => return None,
        };
        Some(match &mut self.cache {
            Some(cache) => call(cache, &mut self.changes, first, size),
            None => String::from("no cache"),
        })
    }
}

// Each line as it is told, with its replies.
fn told(lines: &str) -> String {
    let mut session = Session { cache: None, changes: Listed::new(Global) };
    let mut told = String::new();
    for line in lines.lines() {
        if line.is_empty() || line.starts_with('#') {
            told += &format!("{}\n", line);
            continue;
        }
        session.changes.clear();
        let reply = session.reply(line).unwrap_or_else(|| String::from("bad line"));
        let changes: String = session.changes.iter().map(|change| change_words(*change) + "\n").collect();
        told += &format!("> {}\n{}{}\n", line, changes, reply);
    }
    told
}

#[test]
fn stored_lines_are_answered_as_worked_out() {
    let lines = include_str!("../../../../bindings/tests/cache.lines");
    let wanted = include_str!("../../../../bindings/tests/cache.replies");
    let told = told(lines);
    for (number, (told, wanted)) in told.lines().zip(wanted.lines()).enumerate() {
        assert_eq!(told, wanted, "line {}", number + 1);
    }
    assert_eq!(told.len(), wanted.len());
    assert!(1000 < wanted.lines().count());
}
