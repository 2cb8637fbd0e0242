//! Plays a trace over a cache, as the loop of the cache's page does, and counts what happens after the first fifth of the frames.
use crate::traces::Trace;

pub enum Answer {
    /// With the pixels that are written.
    Placed(u64),
    FrameFull,
}

/// What a repacking did.
pub struct Repacked {
    pub moved: u64,
    pub pixels: u64,
}

pub trait Cache {
    fn begin_frame(&mut self);
    fn get(&mut self, key: u32) -> bool;
    /// A key that is held stays until this frame has drawn it.
    fn mark(&mut self, key: u32);
    fn insert(&mut self, key: u32, size: (i32, i32)) -> Answer;
    /// What was drawn goes, or a part of it, as a frame was full for a key, and so often before for the same one.
    fn make_room(&mut self, before: u32, was_full: bool);
    /// How many keys went so far.
    fn evictions(&self) -> u64;

    fn pages(&self) -> u32 {
        0
    }

    fn live_area(&self, _page: u32) -> u64 {
        unreachable!("a cache without pages that are repacked")
    }

    fn free_area(&self, _page: u32) -> u64 {
        unreachable!("a cache without pages that are repacked")
    }

    /// What of the free area has no room for this size.
    fn unusable_area(&self, _page: u32, _size: (i32, i32)) -> u64 {
        unreachable!("a cache without pages that are repacked")
    }

    fn repack(&mut self, _page: u32) -> Repacked {
        unreachable!("a cache without pages that are repacked")
    }

    /// Keys of the last page move to pages before it, from so many pixels at most.
    fn compact(&mut self, _pixels: u64) -> Repacked {
        unreachable!("a cache without pages that are emptied")
    }
}

/// Which pages are repacked, at the end of a frame.
#[derive(Clone, Copy)]
pub enum Rule {
    Never,
    /// Each whose free area without room for a usual key is more than the live area by this.
    Unusable(u64),
    /// Each whose free area is more than the live area by this, if a key went in this frame.
    Free(u64),
    /// None, but from so many pixels of the last page keys move to the pages before it.
    Compact(u64),
}

impl Rule {
    /// As `none`, `unusable:4`, `free:4`, or `compact:4096`.
    pub fn named(name: &str) -> Rule {
        let (rule, part) = name.split_once(':').unwrap_or((name, "1"));
        let part = part.parse().expect("a number behind the rule");
        match rule {
            "none" => Rule::Never,
            "unusable" => Rule::Unusable(part),
            "free" => Rule::Free(part),
            "compact" => Rule::Compact(part),
            other => panic!("no rule {}", other),
        }
    }

    fn holds(self, cache: &impl Cache, page: u32, usual: (i32, i32), has_evicted: bool) -> bool {
        match self {
            Rule::Never | Rule::Compact(_) => false,
            Rule::Unusable(part) => cache.unusable_area(page, usual) > cache.live_area(page) / part,
            Rule::Free(part) => has_evicted && cache.free_area(page) > cache.live_area(page) / part,
        }
    }
}

#[derive(Default)]
pub struct Counts {
    pub uses: u64,
    pub misses: u64,
    pub pixels: u64,
    /// Of each call of `insert` how many keys went.
    pub gone: Vec<u64>,
    pub full: u64,
    pub repacks: u64,
    pub moved: u64,
    pub moved_pixels: u64,
    /// Keys that a repacking had no room for.
    pub lost: u64,
}

// Instructions are counted of the two functions that are called so.
#[inline(never)]
fn measured_insert(cache: &mut impl Cache, key: u32, size: (i32, i32)) -> Answer {
    cache.insert(key, size)
}

#[inline(never)]
fn measured_repack(cache: &mut impl Cache, rule: Rule, usual: (i32, i32), has_evicted: bool, counts: &mut Counts) {
    if let Rule::Compact(pixels) = rule {
        let done = cache.compact(pixels);
        counts.repacks += u64::from(done.moved > 0);
        counts.moved += done.moved;
        counts.moved_pixels += done.pixels;
    }
    for page in 0..cache.pages() {
        if rule.holds(cache, page, usual, has_evicted) {
            let before = cache.evictions();
            let done = cache.repack(page);
            counts.repacks += 1;
            counts.moved += done.moved;
            counts.moved_pixels += done.pixels;
            counts.lost += cache.evictions() - before;
        }
    }
}

/// The mean of both sides.
fn usual_size(trace: &Trace) -> (i32, i32) {
    let of = |side: fn(&(i32, i32)) -> i32| {
        let sum: i64 = trace.sizes.iter().map(|size| i64::from(side(size))).sum();
        (sum / trace.sizes.len() as i64) as i32
    };
    (of(|size| size.0), of(|size| size.1))
}

fn insert(cache: &mut impl Cache, key: u32, size: (i32, i32), counts: &mut Counts, is_counted: bool, was_full: bool) {
    for full in 0.. {
        let before = cache.evictions();
        let answer = if is_counted { measured_insert(cache, key, size) } else { cache.insert(key, size) };
        if is_counted {
            counts.gone.push(cache.evictions() - before);
        }
        match answer {
            Answer::Placed(pixels) => {
                counts.pixels += pixels;
                return;
            }
            Answer::FrameFull => {
                counts.full += 1;
                cache.make_room(full, was_full);
            }
        }
    }
}

pub fn play(cache: &mut impl Cache, trace: &Trace, rule: Rule) -> Counts {
    let usual = usual_size(trace);
    let mut counts = Counts::default();
    let first = trace.frames.len() / 5;
    let mut was_full = false;
    for (number, frame) in trace.frames.iter().enumerate() {
        if number == first {
            counts = Counts::default();
        }
        let before = cache.evictions();
        cache.begin_frame();
        if was_full {
            frame.iter().for_each(|key| cache.mark(*key));
        }
        let full = counts.full;
        for key in frame {
            counts.uses += 1;
            if !cache.get(*key) {
                counts.misses += 1;
                insert(cache, *key, trace.sizes[*key as usize], &mut counts, number >= first, was_full);
            }
        }
        was_full = counts.full > full;
        let has_evicted = cache.evictions() > before;
        measured_repack(cache, rule, usual, has_evicted, &mut counts);
    }
    counts
}
