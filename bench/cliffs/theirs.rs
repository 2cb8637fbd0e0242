//! The Rust crate's own code, or that of a copy of it beside this module.
use super::allocator::{AllocId, Allocation, AllocatorOptions, AtlasAllocator, SimpleAtlasAllocator};
use crate::atlases::{Atlas, Form, Granted, Options, Simple};
use crate::Rectangle;
use euclid::size2;

pub struct Theirs;

impl Form for Theirs {
    type Atlas = AtlasAllocator;
    type Simple = SimpleAtlasAllocator;
}

fn options_of(options: Options) -> AllocatorOptions {
    AllocatorOptions {
        alignment: size2(options.alignment.0, options.alignment.1),
        small_size_threshold: options.small,
        large_size_threshold: options.large,
    }
}

fn granted(id: u32, area: Rectangle) -> Granted {
    Granted { id, x: area.min.x, y: area.min.y, width: area.width(), height: area.height() }
}

fn granted_by(found: Allocation) -> Granted {
    granted(found.id.serialize(), found.rectangle)
}

impl Atlas for AtlasAllocator {
    fn new(size: (i32, i32), options: Options) -> Self {
        AtlasAllocator::with_options(size2(size.0, size.1), &options_of(options))
    }

    #[inline]
    fn ask(&mut self, width: i32, height: i32) -> Option<Granted> {
        self.allocate(size2(width, height)).map(granted_by)
    }

    #[inline]
    fn free(&mut self, id: u32) {
        self.deallocate(AllocId::deserialize(id));
    }

    fn can_fit(&self, _: i32, _: i32) -> bool {
        panic!("the crate has no such call");
    }

    fn copied(&self) -> Self {
        self.clone()
    }

    fn grow(&mut self, size: (i32, i32)) {
        AtlasAllocator::grow(self, size2(size.0, size.1));
    }

    fn clear(&mut self) {
        AtlasAllocator::clear(self);
    }

    fn reset(&mut self, size: (i32, i32), options: Options) {
        AtlasAllocator::reset(self, size2(size.0, size.1), &options_of(options));
    }

    fn rearrange(&mut self) -> u64 {
        AtlasAllocator::rearrange(self).changes.len() as u64
    }

    fn holes(&self) -> u64 {
        let mut count = 0;
        self.for_each_free_rectangle(|_| count += 1);
        count
    }
}

impl Simple<AtlasAllocator> for SimpleAtlasAllocator {
    fn new(size: (i32, i32), options: Options) -> Self {
        SimpleAtlasAllocator::with_options(size2(size.0, size.1), &options_of(options))
    }

    fn taken_over(atlas: &AtlasAllocator) -> Self {
        let mut simple = SimpleAtlasAllocator::new(size2(1, 1));
        simple.init_from_allocator(atlas);
        simple
    }

    #[inline]
    fn ask(&mut self, width: i32, height: i32) -> Option<Granted> {
        self.allocate(size2(width, height)).map(|area| granted(0, area))
    }

    fn clear(&mut self) {
        SimpleAtlasAllocator::clear(self);
    }

    fn reset(&mut self, size: (i32, i32), options: Options) {
        SimpleAtlasAllocator::reset(self, size2(size.0, size.1), &options_of(options));
    }
}
