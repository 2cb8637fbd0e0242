//! This repository's cache.
use crate::playing::{Answer, Cache, Repacked};
use crate::traces::Pages;
use wollemigo_core::atlas_cache::{CacheChange, CacheOptions, Changes, Inserted, TextureCache};
use wollemigo_core::guillotiere::{size2, Rectangle, DEFAULT_OPTIONS};
use wollemigo_support::alloc::Global;

fn area_of(rectangle: Rectangle) -> u64 {
    rectangle.width() as u64 * rectangle.height() as u64
}

pub struct Here {
    cache: TextureCache<u32>,
    changes: Changes<u32>,
}

impl Here {
    pub fn new(pages: Pages) -> Here {
        let (page, largest_page) = (size2(pages.side, pages.side), size2(pages.largest, pages.largest));
        let options = CacheOptions { page, largest_page, pages: pages.most, padding: 1, atlas: DEFAULT_OPTIONS };
        let cache = TextureCache::new(Global, options).ok().expect("usable options");
        Here { cache, changes: Changes::new(Global) }
    }
}

impl Cache for Here {
    fn begin_frame(&mut self) {
        self.cache.begin_frame();
    }

    fn get(&mut self, key: u32) -> bool {
        self.cache.get(&key).is_some()
    }

    fn mark(&mut self, key: u32) {
        let _place = self.cache.get(&key);
    }

    fn make_room(&mut self, before: u32, was_full: bool) {
        if !was_full {
            return self.cache.begin_frame();
        }
        let keys = self.cache.len() / (512 >> before).max(1) + 1;
        self.cache.end_batch(keys, &mut Changes::new(Global)).ok().expect("memory");
    }

    fn insert(&mut self, key: u32, size: (i32, i32)) -> Answer {
        self.changes.clear();
        match self.cache.insert(key, size2(size.0, size.1), &mut self.changes) {
            Ok(Inserted::Placed(place)) => Answer::Placed(area_of(place.rectangle)),
            Ok(Inserted::FrameFull) => Answer::FrameFull,
            other => panic!("{:?}", other),
        }
    }

    fn evictions(&self) -> u64 {
        self.cache.statistics().evictions
    }

    fn pages(&self) -> u32 {
        self.cache.pages()
    }

    fn live_area(&self, page: u32) -> u64 {
        self.cache.live_area(page).expect("a page")
    }

    fn free_area(&self, page: u32) -> u64 {
        self.cache.free_area(page).expect("a page")
    }

    fn unusable_area(&self, page: u32, size: (i32, i32)) -> u64 {
        self.cache.unusable_area(page, size2(size.0, size.1)).ok().expect("memory").expect("a page")
    }

    fn compact(&mut self, pixels: u64) -> Repacked {
        self.changes.clear();
        let pixels = self.cache.compact(pixels, &mut self.changes).ok().expect("memory");
        Repacked { moved: self.changes.len() as u64, pixels }
    }

    fn repack(&mut self, page: u32) -> Repacked {
        self.changes.clear();
        assert!(self.cache.repack(page, &mut self.changes).ok().expect("memory"));
        let mut done = Repacked { moved: 0, pixels: 0 };
        for change in self.changes.iter() {
            if let CacheChange::Moved { to, .. } = change {
                done.moved += 1;
                done.pixels += area_of(to.rectangle);
            }
        }
        done
    }
}
