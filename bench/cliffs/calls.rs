//! Each public call by itself, with so many live boxes: `calls of=atlas|simple|cache live=N`. A part is a call.
use crate::genome::Genome;
use crate::playing::Run;
use crate::Random;
use std::hint::black_box;
use wollemigo_core::atlas_cache::{CacheOptions, Changes, TextureCache};
use wollemigo_core::guillotiere::{
    size2, AllocId, AtlasAllocator, SimpleAtlasAllocator, Size, DEFAULT_OPTIONS,
};
use wollemigo_support::alloc::Global;

/// How often a call is made that doesn't pass over all boxes.
const OFTEN: u64 = 1000;

fn glyph(random: &mut Random) -> Size {
    size2(8 + random.below(57) as i32, 8 + random.below(57) as i32)
}

/// The side of a square that so many glyphs fill by half.
fn side_for(count: u64) -> i32 {
    ((count * 2 * 36 * 36) as f64).sqrt() as i32 + 64
}

fn often(run: &mut Run, name: &str, play: &mut dyn FnMut(u64)) {
    run.part(name, OFTEN, &mut |limit, _| {
        for turn in 0..OFTEN {
            play(turn);
        }
        limit.done = OFTEN;
    });
}

fn once(run: &mut Run, name: &str, play: &mut dyn FnMut()) {
    run.part(name, 1, &mut |limit, _| {
        play();
        limit.done = 1;
    });
}

/// Live boxes, and as many free ones between them.
fn filled(live: u64, random: &mut Random) -> (AtlasAllocator, Vec<AllocId>) {
    let side = side_for(2 * live);
    let mut atlas = AtlasAllocator::new(Global, size2(side, side)).ok().expect("memory");
    let mut ids = Vec::new();
    for _ in 0..2 * live {
        let granted = atlas.allocate(glyph(random)).ok().expect("memory").expect("room");
        ids.push(granted.id);
    }
    for id in ids.iter().step_by(2) {
        atlas.deallocate(*id).ok().expect("a live id");
    }
    let kept = ids.into_iter().skip(1).step_by(2).collect();
    (atlas, kept)
}

fn changes_of_one(atlas: &mut AtlasAllocator, ids: &mut Vec<AllocId>, run: &mut Run, random: &mut Random) {
    let sizes: Vec<Size> = (0..OFTEN).map(|_| glyph(random)).collect();
    often(run, "allocate", &mut |turn| {
        let granted = atlas.allocate(sizes[turn as usize]).ok().expect("memory").expect("room");
        ids.push(granted.id);
    });
    often(run, "noroom", &mut |_| drop(black_box(atlas.allocate(size2(1, 1 << 29)))));
    often(run, "canfit", &mut |turn| drop(black_box(atlas.can_fit(sizes[turn as usize]))));
    often(run, "get", &mut |turn| drop(black_box(atlas.get(ids[turn as usize]))));
    often(run, "isempty", &mut |_| drop(black_box((atlas.is_empty(), atlas.slots()))));
    often(run, "deallocate", &mut |_| atlas.deallocate(ids.swap_remove(random.below(ids.len() as u64) as usize)).ok().expect("live"));
    often(run, "grow", &mut |_| {
        let size = atlas.size();
        atlas.grow(size2(size.width + 1, size.height + 1)).ok().expect("memory");
    });
    often(run, "reserve", &mut |_| atlas.reserve(1).ok().expect("memory"));
}

fn atlas_calls(live: u64, run: &mut Run) {
    let mut random = Random::new(1);
    often(run, "new", &mut |_| drop(black_box(AtlasAllocator::<Global>::new(Global, size2(1024, 1024)))));
    let (mut atlas, mut ids) = filled(live, &mut random);
    changes_of_one(&mut atlas, &mut ids, run, &mut random);
    once(run, "areas", &mut || drop(black_box((atlas.allocated_area(), atlas.free_area()))));
    once(run, "foreach", &mut || {
        let mut count = 0;
        atlas.for_each_free_rectangle(|_| count += 1);
        atlas.for_each_allocated_rectangle(|_, _| count += 1);
        black_box(count);
    });
    once(run, "allocations", &mut || drop(black_box((atlas.allocations(), atlas.free_rectangles()))));
    once(run, "clone", &mut || drop(black_box(atlas.clone())));
    once(run, "rearrange", &mut || drop(black_box(atlas.rearrange())));
    let all: Vec<AllocId> = atlas.allocations().ok().expect("memory").iter().map(|one| one.id).collect();
    once(run, "deallocateall", &mut || atlas.deallocate_all(&all).ok().expect("live"));
    let (mut again, _) = filled(live, &mut random);
    once(run, "clear", &mut || again.clear().ok().expect("memory"));
    let (mut again, _) = filled(live, &mut random);
    once(run, "reset", &mut || again.reset(size2(1000, 1000), &DEFAULT_OPTIONS).ok().expect("memory"));
}

fn simple_calls(live: u64, run: &mut Run) {
    let mut random = Random::new(1);
    often(run, "new", &mut |_| drop(black_box(SimpleAtlasAllocator::<Global>::new(Global, size2(1024, 1024)))));
    let side = side_for(live);
    let mut simple = SimpleAtlasAllocator::new(Global, size2(side, side)).ok().expect("memory");
    for _ in 0..live {
        black_box(simple.allocate(glyph(&mut random)).ok().expect("memory").is_some());
    }
    let sizes: Vec<Size> = (0..OFTEN).map(|_| glyph(&mut random)).collect();
    often(run, "allocate", &mut |turn| drop(black_box(simple.allocate(sizes[turn as usize]))));
    often(run, "noroom", &mut |_| drop(black_box(simple.allocate(size2(1, 1 << 29)))));
    often(run, "grow", &mut |_| {
        let size = simple.size();
        simple.grow(size2(size.width + 1, size.height + 1)).ok().expect("memory");
    });
    once(run, "isempty", &mut || drop(black_box(simple.is_empty())));
    once(run, "clear", &mut || simple.clear().ok().expect("memory"));
    once(run, "reset", &mut || simple.reset(size2(1000, 1000), &DEFAULT_OPTIONS).ok().expect("memory"));
    let (atlas, _) = filled(live, &mut random);
    once(run, "initfromallocator", &mut || simple.init_from_allocator(&atlas).ok().expect("memory"));
}

fn insert_next(cache: &mut TextureCache<u32>, next: &mut u32, random: &mut Random, changes: &mut Changes<u32>) {
    cache.begin_frame();
    let placed = cache.insert(*next, glyph(random), changes).ok().expect("memory");
    black_box(placed.place());
    changes.clear();
    *next += 1;
}

fn cache_calls(live: u64, run: &mut Run) {
    let (mut random, mut next, mut changes) = (Random::new(1), 0, Changes::new(Global));
    let side = side_for(live) * 2 / 3;
    let page = size2(side, side);
    let options = CacheOptions { page, largest_page: page, pages: 1, padding: 0, atlas: DEFAULT_OPTIONS };
    let mut cache = TextureCache::<u32>::new(Global, options).ok().expect("usable options");
    // More than there is room for.
    for _ in 0..2 * live {
        insert_next(&mut cache, &mut next, &mut random, &mut changes);
    }
    run.holes = cache.len() as u64;
    often(run, "insert", &mut |_| insert_next(&mut cache, &mut next, &mut random, &mut changes));
    // All of these are held.
    let held = next - (live / 4).min(OFTEN) as u32;
    often(run, "get", &mut |turn| drop(black_box(cache.get(&(held + turn as u32 % (next - held))).is_some())));
    often(run, "miss", &mut |turn| drop(black_box(cache.get(&(next + turn as u32)).is_none())));
    often(run, "older", &mut |turn| drop(black_box((cache.older(&(held + turn as u32 % (next - held))), cache.newest(), cache.oldest()))));
    let keys = cache.len() as u64;
    run.part("iter", keys, &mut |limit, _| {
        limit.done = cache.iter().map(black_box).count() as u64;
    });
    run.part("remove", live / 4, &mut |limit, _| {
        limit.done = OFTEN.min(live / 4);
        for turn in 0..limit.done {
            black_box(cache.remove(&(next - 1 - turn as u32)).is_some());
        }
    });
    once(run, "areas", &mut || drop(black_box((cache.live_area(0), cache.free_area(0)))));
    once(run, "unusable", &mut || drop(black_box(cache.unusable_area(0, size2(16, 16)).is_ok())));
    once(run, "clone", &mut || drop(black_box(cache.clone().is_ok())));
    if live <= 100_000 {
        once(run, "repack", &mut || drop(black_box(cache.repack(0, &mut changes).is_ok())));
    }
    changes.clear();
    once(run, "trim", &mut || cache.trim(cache_frames(live), &mut changes).ok().expect("memory"));
    once(run, "shrink", &mut || cache.shrink(&mut changes).ok().expect("memory"));
    once(run, "clear", &mut || cache.clear());
}

// Half of what is held wasn't used for so many frames.
fn cache_frames(live: u64) -> u64 {
    live / 2
}

fn turned(turn: u64) -> Size {
    size2(16 + turn as i32 % 16, 16)
}

/// The calls that pass all slots. A part's calls are the boxes, free or live, that it answers of or may, or the slots.
fn walks(live: u64, run: &mut Run) {
    const TIMES: u64 = 8;
    let (atlas, _) = filled(live, &mut Random::new(1));
    let free = atlas.free_iter().count() as u64;
    run.holes = free;
    let mut part = |name: &str, calls: u64, play: &mut dyn FnMut(u64)| {
        run.part(name, u64::MAX, &mut |limit, _| {
            (0..TIMES).for_each(&mut *play);
            limit.done = TIMES * calls;
        });
    };
    part("unusable", free, &mut |turn| drop(black_box(atlas.unusable_area(turned(turn)))));
    part("largest", free, &mut |_| drop(black_box(atlas.largest_free())));
    part("iter", live, &mut |_| drop(black_box(atlas.iter().map(black_box).count())));
    part("freeiter", free, &mut |_| drop(black_box(atlas.free_iter().map(black_box).count())));
    let image = atlas.image().ok().expect("memory");
    let slots = image.nodes.len() as u64;
    part("image", slots, &mut |_| drop(black_box(atlas.image())));
    part("fromimage", slots, &mut |_| drop(black_box(AtlasAllocator::from_image(Global, &image))));
    let mut simple = SimpleAtlasAllocator::new(Global, size2(1, 1)).ok().expect("memory");
    simple.init_from_allocator(&atlas).ok().expect("memory");
    let boxes = simple.image().ok().expect("memory");
    part("simpleimage", free, &mut |_| drop(black_box(simple.image())));
    part("simplefromimage", free, &mut |_| drop(black_box(SimpleAtlasAllocator::from_image(Global, &boxes))));
}

pub fn play(genome: &Genome, run: &mut Run) {
    let live = genome.scaled("live", 1000);
    match genome.word("of", "atlas") {
        "simple" => simple_calls(live, run),
        "cache" => cache_calls(live, run),
        "walks" => walks(live, run),
        _ => atlas_calls(live, run),
    }
}
