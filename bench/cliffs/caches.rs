//! Caches: `held` keys are inserted, perhaps after `blanks` blank ones, and then `do` is done.
use crate::atlases::{Cache, CacheShape};
use crate::genome::Genome;
use crate::playing::Run;
use crate::sizes::Sizes;
use crate::Random;

struct Keys {
    sizes: Sizes,
    next: u32,
}

impl Keys {
    // Depends on the key alone.
    fn size(&self, key: u32) -> (i32, i32) {
        let (width, height, _) = self.sizes.at(u64::from(key), 1 << 20, &mut Random::new(u64::from(key)));
        (width, height)
    }

    fn insert_next<C: Cache>(&mut self, cache: &mut C) {
        let (width, height) = self.size(self.next);
        cache.begin_frame();
        cache.insert(self.next, width, height);
        self.next += 1;
    }
}

fn shape_of(genome: &Genome) -> CacheShape {
    let pages = genome.number("pages", 4);
    let pages = if genome.word("scale", "both") == "pages" { pages * genome.at } else { pages };
    CacheShape { page: genome.sides("page", "1024x1024"), pages: pages as u32, padding: genome.number("padding", 0) as i32 }
}

fn fill<C: Cache>(genome: &Genome, run: &mut Run, cache: &mut C, keys: &mut Keys) {
    let (blanks, held) = (genome.scaled("blanks", 0), genome.scaled("held", 1000));
    run.part("fill", blanks + held, &mut |limit, _| {
        for blank in 0..blanks {
            cache.insert(u32::MAX - blank as u32, 0, 0);
        }
        limit.done = blanks;
        while limit.goes_on() {
            keys.insert_next(cache);
            limit.done += 1;
        }
    });
    run.holes = cache.len();
}

// Of each two keys that are drawn, about one is held.
fn draw<C: Cache>(cache: &mut C, keys: &mut Keys, random: &mut Random) {
    let key = random.below(2 * u64::from(keys.next)) as u32;
    if !cache.get(key) {
        let (width, height) = keys.size(key);
        cache.insert(key, width, height);
    }
}

pub fn play<C: Cache>(genome: &Genome, run: &mut Run) {
    let mut cache = C::new(shape_of(genome));
    let mut keys = Keys { sizes: Sizes::read(genome.word("fill", "16x16")), next: 0 };
    fill(genome, run, &mut cache, &mut keys);
    let mut random = Random::new(genome.number("seed", 1));
    let (what, pages) = (genome.word("do", "new"), shape_of(genome).pages);
    let first = u64::from(keys.next).saturating_sub(cache.len());
    run.part("ask", genome.number("calls", 1000), &mut |limit, _| match what {
        "repack" => {
            (0..pages).for_each(|page| cache.repack(page));
            limit.done = cache.len();
        }
        "keep" => {
            (0..pages).for_each(|page| drop(cache.more(what, page)));
            limit.done = cache.len();
        }
        "trim" | "clear" => {
            limit.done = cache.len();
            cache.more(what, 0);
        }
        _ => {
            while limit.goes_on() {
                limit.done += 1;
                match what {
                    "new" => keys.insert_next(&mut cache),
                    "draw" => draw(&mut cache, &mut keys, &mut random),
                    "hit" => drop(cache.get((first + random.below(u64::from(keys.next) - first)) as u32)),
                    "unusable" => drop(cache.more(what, random.below(u64::from(pages)) as u32)),
                    other => drop(cache.more(other, random.below(u64::from(keys.next)) as u32)),
                }
            }
        }
    });
    run.sum = cache.sum();
}
