//! Textures behind a trait of the program's own, with units of its own, as the renderer of a browser has them: options that are constants,
//! allocators that start again, a simple one that takes over from the other, and drawings of them.
use crate::Random;
use guillotiere::euclid::{self, Box2D, Size2D};
use guillotiere::{
    size2, AllocId, Allocation, AllocatorOptions, AtlasAllocator, Rectangle, SimpleAtlasAllocator,
    Size, DEFAULT_OPTIONS,
};

/// The unit of pixels of the device.
struct DevicePixel;
type DeviceBox = Box2D<i32, DevicePixel>;
type DeviceSize = Size2D<i32, DevicePixel>;

const OPTIONS: AllocatorOptions = AllocatorOptions {
    small_size_threshold: 16,
    large_size_threshold: 128,
    ..DEFAULT_OPTIONS
};
static ALL_OPTIONS: [AllocatorOptions; 2] = [OPTIONS, DEFAULT_OPTIONS];

trait Textures {
    fn made(size: DeviceSize, options: &AllocatorOptions) -> Self;
    fn take(&mut self, size: DeviceSize) -> Option<(Option<AllocId>, DeviceBox)>;
    fn give_back(&mut self, id: Option<AllocId>);
    fn has_nothing(&self) -> bool;
    fn start_again(&mut self);
}

fn plain(size: DeviceSize) -> Size {
    size.to_untyped()
}

fn typed(rectangle: &Rectangle) -> DeviceBox {
    DeviceBox {
        min: euclid::point2(rectangle.min.x, rectangle.min.y),
        max: euclid::point2(rectangle.max.x, rectangle.max.y),
    }
}

impl Textures for AtlasAllocator {
    fn made(size: DeviceSize, options: &AllocatorOptions) -> Self {
        AtlasAllocator::with_options(plain(size), options)
    }

    fn take(&mut self, size: DeviceSize) -> Option<(Option<AllocId>, DeviceBox)> {
        let Allocation { id, rectangle } = self.allocate(plain(size))?;
        Some((Some(id), typed(&rectangle)))
    }

    fn give_back(&mut self, id: Option<AllocId>) {
        self.deallocate(id.unwrap());
    }

    fn has_nothing(&self) -> bool {
        self.is_empty()
    }

    fn start_again(&mut self) {
        self.clear();
    }
}

impl Textures for SimpleAtlasAllocator {
    fn made(size: DeviceSize, options: &AllocatorOptions) -> Self {
        SimpleAtlasAllocator::with_options(plain(size), options)
    }

    fn take(&mut self, size: DeviceSize) -> Option<(Option<AllocId>, DeviceBox)> {
        self.allocate(plain(size))
            .map(|place| (None, typed(&place)))
    }

    fn give_back(&mut self, _: Option<AllocId>) {}

    fn has_nothing(&self) -> bool {
        self.is_empty()
    }

    fn start_again(&mut self) {
        self.clear();
    }
}

fn are_apart(a: &DeviceBox, b: &DeviceBox) -> bool {
    a.max.x <= b.min.x || b.max.x <= a.min.x || a.max.y <= b.min.y || b.max.y <= a.min.y
}

fn fills<T: Textures>(options: &AllocatorOptions) -> usize {
    let mut textures = T::made(DeviceSize::new(512, 512), options);
    let mut random = Random(4);
    let mut held: Vec<(Option<AllocId>, DeviceBox)> = Vec::new();
    for _ in 0..400 {
        let size = DeviceSize::new(random.side(1, 60), random.side(1, 60));
        if let Some((id, place)) = textures.take(size) {
            assert_eq!(place.size(), size);
            assert!(held.iter().all(|(_, other)| are_apart(&place, other)));
            held.push((id, place));
        }
    }
    assert!(!textures.has_nothing());
    let count = held.len();
    held.into_iter().for_each(|(id, _)| textures.give_back(id));
    textures.start_again();
    assert!(textures.has_nothing() && textures.take(DeviceSize::new(512, 512)).is_some());
    count
}

#[test]
fn both_allocators_serve_one_trait() {
    for options in &ALL_OPTIONS {
        assert!(fills::<AtlasAllocator>(options) > 100);
        assert!(fills::<SimpleAtlasAllocator>(options) > 100);
    }
}

#[test]
fn a_simple_allocator_goes_on_where_the_atlas_is() {
    let mut atlas = AtlasAllocator::made(DeviceSize::new(128, 128), &OPTIONS);
    let (_, held) = atlas.take(DeviceSize::new(128, 50)).unwrap();
    let mut frame = SimpleAtlasAllocator::made(DeviceSize::new(1, 1), &DEFAULT_OPTIONS);
    frame.init_from_allocator(&atlas);
    while let Some((_, place)) = frame.take(DeviceSize::new(30, 20)) {
        assert!(are_apart(&place, &held));
    }
    atlas.reset(size2(64, 64), &OPTIONS);
    assert!(atlas.is_empty() && atlas.size() == size2(64, 64));
}

#[cfg(feature = "std")]
#[test]
fn each_box_is_drawn() {
    let mut atlas = AtlasAllocator::new(size2(64, 64));
    for _ in 0..3 {
        let _ = atlas.allocate(size2(20, 20)).unwrap();
    }
    let (mut boxes, mut drawing) = (3, Vec::new());
    atlas.for_each_free_rectangle(|_| boxes += 1);
    guillotiere::dump_svg(&atlas, &mut drawing).unwrap();
    let drawing = String::from_utf8(drawing).unwrap();
    assert_eq!(drawing.matches("<rect").count(), boxes);
}
