//! This repository's library.
use crate::atlases::{Atlas, CacheShape, Form, Granted, Options, Simple};
use wollemigo_core::atlas_cache::{CacheOptions, Changes, TextureCache};
use wollemigo_core::guillotiere::{
    size2, AllocId, AllocatorOptions, Allocation, AtlasAllocator, Rectangle, SimpleAtlasAllocator, DEFAULT_OPTIONS,
};
use wollemigo_support::alloc::Global;

pub struct Here;

impl Form for Here {
    type Atlas = AtlasAllocator;
    type Simple = SimpleAtlasAllocator;
}

fn options_of(options: Options) -> AllocatorOptions {
    AllocatorOptions {
        alignment: size2(options.alignment.0, options.alignment.1),
        small_size_threshold: options.small,
        large_size_threshold: options.large,
    }
}

pub fn granted(id: u32, area: Rectangle) -> Granted {
    Granted { id, x: area.min.x, y: area.min.y, width: area.width(), height: area.height() }
}

fn granted_by(found: Allocation) -> Granted {
    granted(found.id.serialize(), found.rectangle)
}

impl Atlas for AtlasAllocator {
    fn new(size: (i32, i32), options: Options) -> Self {
        AtlasAllocator::with_options(Global, size2(size.0, size.1), &options_of(options)).ok().expect("memory")
    }

    #[inline]
    fn ask(&mut self, width: i32, height: i32) -> Option<Granted> {
        self.allocate(size2(width, height)).ok().expect("memory").map(granted_by)
    }

    #[inline]
    fn free(&mut self, id: u32) {
        self.deallocate(AllocId::deserialize(id)).ok().expect("a live id");
    }

    #[inline]
    fn can_fit(&self, width: i32, height: i32) -> bool {
        AtlasAllocator::can_fit(self, size2(width, height))
    }

    fn copied(&self) -> Self {
        self.clone().ok().expect("memory")
    }

    fn grow(&mut self, size: (i32, i32)) {
        AtlasAllocator::grow(self, size2(size.0, size.1)).ok().expect("memory");
    }

    fn clear(&mut self) {
        AtlasAllocator::clear(self).ok().expect("memory");
    }

    fn reset(&mut self, size: (i32, i32), options: Options) {
        AtlasAllocator::reset(self, size2(size.0, size.1), &options_of(options)).ok().expect("memory");
    }

    fn rearrange(&mut self) -> u64 {
        AtlasAllocator::rearrange(self).ok().expect("memory").changes.len() as u64
    }

    fn holes(&self) -> u64 {
        let mut count = 0;
        self.for_each_free_rectangle(|_| count += 1);
        count
    }
}

impl Simple<AtlasAllocator> for SimpleAtlasAllocator {
    fn new(size: (i32, i32), options: Options) -> Self {
        SimpleAtlasAllocator::with_options(Global, size2(size.0, size.1), &options_of(options)).ok().expect("memory")
    }

    fn taken_over(atlas: &AtlasAllocator) -> Self {
        let mut simple = SimpleAtlasAllocator::new(Global, size2(1, 1)).ok().expect("memory");
        simple.init_from_allocator(atlas).ok().expect("memory");
        simple
    }

    #[inline]
    fn ask(&mut self, width: i32, height: i32) -> Option<Granted> {
        self.allocate(size2(width, height)).ok().expect("memory").map(|area| granted(0, area))
    }

    fn clear(&mut self) {
        SimpleAtlasAllocator::clear(self).ok().expect("memory");
    }

    fn reset(&mut self, size: (i32, i32), options: Options) {
        SimpleAtlasAllocator::reset(self, size2(size.0, size.1), &options_of(options)).ok().expect("memory");
    }
}

pub struct Cache {
    cache: TextureCache<u32>,
    changes: Changes<u32>,
    sum: u64,
}

impl crate::atlases::Cache for Cache {
    fn new(shape: CacheShape) -> Self {
        let page = size2(shape.page.0, shape.page.1);
        let options =
            CacheOptions { page, largest_page: page, pages: shape.pages, padding: shape.padding, atlas: DEFAULT_OPTIONS };
        let cache = TextureCache::new(Global, options).ok().expect("usable options");
        Cache { cache, changes: Changes::new(Global), sum: 0 }
    }

    fn begin_frame(&mut self) {
        self.cache.begin_frame();
    }

    #[inline]
    fn get(&mut self, key: u32) -> bool {
        self.cache.get(&key).is_some()
    }

    #[inline]
    fn insert(&mut self, key: u32, width: i32, height: i32) {
        let placed = self.cache.insert(key, size2(width, height), &mut self.changes).ok().and_then(|placed| placed.place());
        if let Some(place) = placed {
            self.sum = self.sum.wrapping_mul(31).wrapping_add(place.rectangle.min.x as u64 * 65536 + place.rectangle.min.y as u64);
        }
        self.changes.clear();
    }

    fn repack(&mut self, page: u32) {
        self.cache.repack(page, &mut self.changes).ok().expect("memory");
        self.changes.clear();
    }

    fn more(&mut self, what: &str, number: u32) -> bool {
        match what {
            "keep" => drop(self.cache.repack_keeping_all(number, &mut self.changes).ok().expect("memory")),
            "remove" => drop(self.cache.remove(&number)),
            "trim" => self.cache.trim(0, &mut self.changes).ok().expect("memory"),
            "clear" => self.cache.clear(),
            "shrink" => self.cache.shrink(&mut self.changes).ok().expect("memory"),
            "unusable" => drop(self.cache.unusable_area(number, size2(16, 16))),
            "older" => drop(self.cache.older(&number)),
            _ => return false,
        }
        self.changes.clear();
        true
    }

    fn len(&self) -> u64 {
        self.cache.len() as u64
    }

    fn sum(&self) -> u64 {
        self.sum
    }
}
