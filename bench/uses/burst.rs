//! A burst: keys fill eight pages, most of them go, and then page after page is given back, from a few pixels in each frame.
use crate::traces::Random;
use std::time::{Duration, Instant};
use wollemigo_core::atlas_cache::{CacheOptions, Changes, Inserted, TextureCache};
use wollemigo_core::guillotiere::{size2, DEFAULT_OPTIONS};
use wollemigo_support::alloc::Global;

const SIDE: i32 = 1024;
const PAGES: u32 = 8;

// Eight pages that are full of keys with sides of 8 to 64.
fn full(random: &mut Random) -> TextureCache<u32> {
    let page = size2(SIDE, SIDE);
    let options = CacheOptions { page, largest_page: page, pages: PAGES, padding: 1, atlas: DEFAULT_OPTIONS };
    let mut cache = TextureCache::new(Global, options).ok().expect("usable options");
    let mut changes = Changes::new(Global);
    for key in 0.. {
        let size = size2(random.between(8, 64) as i32, random.between(8, 64) as i32);
        if let Ok(Inserted::FrameFull) = cache.insert(key, size, &mut changes) {
            break;
        }
    }
    cache
}

// The time of a repacking of the first page, as it is.
fn repack(cache: &TextureCache<u32>) -> Duration {
    let mut copy = cache.clone().ok().expect("memory");
    let mut changes = Changes::new(Global);
    let begun = Instant::now();
    assert!(copy.repack(0, &mut changes).ok().expect("memory"));
    begun.elapsed()
}

fn live(cache: &TextureCache<u32>) -> u64 {
    (0..cache.pages()).map(|page| cache.live_area(page).expect("a page")).sum()
}

/// Of 1,000 keys 18 stay. Prints how many pixels they take, after how many frames one page was left, how many pixels moved, and the time
/// of the longest call beside that of a whole repacking of a full page.
pub fn tell(seed: u64, pixels: u64) {
    let mut random = Random(seed);
    let mut cache = full(&mut random);
    let (keys, whole) = (cache.len(), repack(&cache));
    let mut changes = Changes::new(Global);
    cache.begin_frame();
    let used: Vec<u32> = (0..keys as u32).filter(|_| random.below(1000) < 18).collect();
    used.iter().for_each(|key| assert!(cache.get(key).is_some()));
    cache.trim(1, &mut changes).ok().expect("memory");
    let (held, before) = (live(&cache), cache.pages());
    let (mut frames, mut moved, mut longest) = (0, 0, Duration::ZERO);
    while cache.pages() > 1 {
        cache.begin_frame();
        used.iter().for_each(|key| assert!(cache.get(key).is_some()));
        changes.clear();
        let begun = Instant::now();
        let now = cache.compact(pixels, &mut changes).ok().expect("memory");
        longest = longest.max(begun.elapsed());
        cache.shrink(&mut changes).ok().expect("memory");
        if now == 0 && changes.is_empty() {
            break;
        }
        frames += 1;
        moved += now;
    }
    println!(
        "keys={} stay={} pages={} pixels={} frames={} left={} moved={} longest_us={:.1} repack_us={:.1}",
        keys, used.len(), before, held, frames, cache.pages(), moved, longest.as_secs_f64() * 1e6, whole.as_secs_f64() * 1e6
    );
}
