//! A frame that uses more keys than there is room for, drawn again and again: the loop of the cache's page.
use wollemigo_core::atlas_cache::{CacheOptions, Changes, Inserted, TextureCache};
use wollemigo_core::guillotiere::{size2, AllocatorOptions, Size};
use wollemigo_support::alloc::Global;

const SIDE: i32 = 512;
const FRAMES: u64 = 60;
/// So many frames aren't counted.
const FIRST: u64 = 20;

/// What a frame that is full does.
#[derive(Clone, Copy)]
pub enum Loop {
    /// It draws, and begins a frame.
    Frames,
    /// It draws, and ends a batch, in which such a part of the keys goes.
    Batches(usize),
    /// It draws, and ends a batch, in which twice as many keys go each time that a key had no room still; and the next frame marks its
    /// keys as used before it draws.
    Marked(usize),
}

/// In which order a frame uses its keys.
#[derive(Clone, Copy, PartialEq)]
pub enum Order {
    Same,
    Shuffled,
    /// Shuffled, and every four frames use other keys.
    Scenes,
}

pub struct Counts {
    pub keys: u64,
    pub uses: u64,
    pub misses: u64,
    /// How often a frame was full.
    pub full: u64,
}

fn mixed(number: u64) -> u64 {
    let mut bits = number.wrapping_add(1).wrapping_mul(0x9e37_79b9_7f4a_7c15);
    bits = (bits ^ (bits >> 30)).wrapping_mul(0xbf58_476d_1ce4_e5b9);
    bits ^ (bits >> 31)
}

/// The size of a key: of all one, or each side from 6 to 25 pixels.
fn size_of(key: u64, equal: bool) -> Size {
    let side = |bits: u64| 6 + (bits % 20) as i32;
    if equal {
        return size2(14, 14);
    }
    size2(side(mixed(key) >> 8), side(mixed(key) >> 32))
}

fn empty() -> TextureCache<u64> {
    let atlas = AllocatorOptions { alignment: size2(1, 1), small_size_threshold: 32, large_size_threshold: 256 };
    let page = size2(SIDE, SIDE);
    let options = CacheOptions { page, largest_page: page, pages: 4, padding: 1, atlas };
    TextureCache::new(Global, options).ok().expect("usable options")
}

/// How many keys, one after another, fill an empty cache.
fn room(equal: bool) -> u64 {
    let (mut cache, mut changes) = (empty(), Changes::new(Global));
    let placed = |key: &u64| matches!(cache.insert(*key, size_of(*key, equal), &mut changes), Ok(Inserted::Placed(_)));
    (0..).take_while(placed).count() as u64
}

fn shuffle(keys: &mut [u64], frame: u64) {
    for place in (1..keys.len()).rev() {
        let other = mixed(frame << 32 | place as u64) % (place as u64 + 1);
        keys.swap(place, other as usize);
    }
}

fn end_batch(cache: &mut TextureCache<u64>, part: usize) {
    cache.end_batch(cache.len() / part.max(1) + 1, &mut Changes::new(Global)).ok().expect("memory");
}

/// Draws a key: whether it was held, and how often the frame was full before.
fn draw(cache: &mut TextureCache<u64>, key: u64, equal: bool, at_full: Loop, was_full: bool) -> (bool, u64) {
    let mut changes = Changes::new(Global);
    for full in 0.. {
        match cache.insert(key, size_of(key, equal), &mut changes).ok().expect("memory and slots") {
            Inserted::Held(_) => return (true, full),
            Inserted::Placed(_) => return (false, full),
            Inserted::FrameFull => match at_full {
                Loop::Frames => cache.begin_frame(),
                Loop::Batches(part) => end_batch(cache, part),
                Loop::Marked(_) if !was_full => cache.begin_frame(),
                Loop::Marked(part) => end_batch(cache, part >> full),
            },
            Inserted::NeverFits => panic!("key {} fits no page", key),
        }
    }
    unreachable!()
}

fn keys_of(count: u64, frame: u64, order: Order) -> Vec<u64> {
    let first = if order == Order::Scenes { frame / 4 * count } else { 0 };
    let mut keys: Vec<u64> = (first..first + count).collect();
    if order != Order::Same {
        shuffle(&mut keys, frame);
    }
    keys
}

/// Frames that use so many keys of 100 that there is room for.
pub fn play(equal: bool, percent: u64, order: Order, at_full: Loop) -> Counts {
    let mut counts = Counts { keys: room(equal) * percent / 100, uses: 0, misses: 0, full: 0 };
    let mut cache = empty();
    let mut was_full = false;
    for frame in 0..FRAMES {
        let keys = keys_of(counts.keys, frame, order);
        cache.begin_frame();
        if was_full && matches!(at_full, Loop::Marked(_)) {
            keys.iter().for_each(|key| drop(cache.get(key)));
        }
        let mut is_full = false;
        for key in &keys {
            let (held, full) = draw(&mut cache, *key, equal, at_full, was_full);
            is_full |= full > 0;
            if frame >= FIRST {
                counts.uses += 1;
                counts.misses += u64::from(!held);
                counts.full += full;
            }
        }
        was_full = is_full;
    }
    counts.full /= FRAMES - FIRST;
    counts
}
