//! bench/cache.rs over the Rust crate's own code.
use crate::atlases::{Cache, CacheShape};
use crate::{texture_cache, Rectangle};
use euclid::size2;

/// What bench/cache.rs answers.
pub struct Answers {
    pub calls: u64,
    pub checksum: u64,
}

impl Answers {
    pub fn new() -> Answers {
        Answers { calls: 0, checksum: 0xcbf2_9ce4_8422_2325 }
    }

    pub fn add(&mut self, word: u64) {
        self.checksum = (self.checksum ^ word).wrapping_mul(0x100_0000_01b3);
    }

    pub fn add_box(&mut self, r: Rectangle) {
        self.add((u64::from(r.min.x as u32) << 32) | u64::from(r.min.y as u32));
        self.add((u64::from(r.max.x as u32) << 32) | u64::from(r.max.y as u32));
    }
}

pub struct Pages(texture_cache::Cache);

impl Cache for Pages {
    fn new(shape: CacheShape) -> Self {
        Pages(texture_cache::Cache::of(shape.page, shape.pages as usize, shape.padding))
    }

    fn begin_frame(&mut self) {
        self.0.frame += 1;
    }

    fn get(&mut self, key: u32) -> bool {
        self.0.get(key)
    }

    fn insert(&mut self, key: u32, width: i32, height: i32) {
        self.0.insert(key, size2(width, height));
    }

    fn repack(&mut self, page: u32) {
        self.0.repack(page as usize);
    }

    fn more(&mut self, _: &str, _: u32) -> bool {
        false
    }

    fn len(&self) -> u64 {
        self.0.len() as u64
    }

    fn sum(&self) -> u64 {
        self.0.answers.checksum
    }
}
