//! An atlas of images that grows, and one of glyphs that is rearranged into a larger one, as a renderer of vector graphics has them: pixels
//! are copied as the list of changes says.
use crate::Random;
use guillotiere::{size2, AllocId, AtlasAllocator, ChangeList, Rectangle, Size};
use std::collections::HashMap;

struct Atlas {
    allocator: AtlasAllocator,
    places: HashMap<u32, AllocId>,
    pixels: HashMap<(i32, i32), u32>,
}

impl Atlas {
    fn new(side: i32) -> Atlas {
        Atlas {
            allocator: AtlasAllocator::new(size2(side, side)),
            places: HashMap::new(),
            pixels: HashMap::new(),
        }
    }

    fn put(&mut self, number: u32, size: Size) -> bool {
        match self.allocator.allocate(size) {
            Some(granted) => {
                self.places.insert(number, granted.id);
                paint(&mut self.pixels, &granted.rectangle, number);
                true
            }
            None => false,
        }
    }

    fn follow(&mut self, list: &ChangeList) {
        let names: HashMap<AllocId, u32> = self.places.drain().map(|(n, id)| (id, n)).collect();
        let before = std::mem::take(&mut self.pixels);
        for change in &list.changes {
            let (old, new) = (&change.old.rectangle, &change.new.rectangle);
            for y in 0..old.size().height {
                for x in 0..old.size().width {
                    let pixel = before[&(old.min.x + x, old.min.y + y)];
                    let to = (new.min.x + x, new.min.y + y);
                    assert_eq!(self.pixels.insert(to, pixel), None);
                }
            }
            self.places.insert(names[&change.old.id], change.new.id);
        }
        assert!(list.failures.iter().all(|x| names.contains_key(&x.id)));
    }

    fn check(&self) {
        let size = self.allocator.size();
        for (number, id) in &self.places {
            let place = self.allocator[*id];
            assert!(place.max.x <= size.width && place.max.y <= size.height);
            for y in place.min.y..place.max.y {
                for x in place.min.x..place.max.x {
                    assert_eq!(self.pixels[&(x, y)], *number);
                }
            }
        }
    }
}

fn paint(pixels: &mut HashMap<(i32, i32), u32>, place: &Rectangle, number: u32) {
    for y in place.min.y..place.max.y {
        for x in place.min.x..place.max.x {
            pixels.insert((x, y), number);
        }
    }
}

#[test]
fn an_atlas_of_images_grows() {
    let (mut atlas, mut random) = (Atlas::new(64), Random(2));
    for number in 0..200 {
        let size = size2(random.side(1, 40), random.side(1, 40));
        while !atlas.put(number, size) {
            let side = 2 * atlas.allocator.size().width;
            atlas.allocator.grow(size2(side, side));
        }
    }
    atlas.check();
    assert!(atlas.allocator.size().width >= 512 && atlas.places.len() == 200);
    let mut live = 0;
    atlas.allocator.for_each_allocated_rectangle(|id, place| {
        assert_eq!(atlas.allocator[id], *place);
        live += 1;
    });
    assert_eq!(live, 200);
}

#[test]
fn an_atlas_of_glyphs_is_rearranged() {
    let (mut atlas, mut random) = (Atlas::new(64), Random(3));
    for number in 0..300 {
        let size = size2(random.side(4, 20), random.side(4, 20));
        if !atlas.put(number, size) {
            let list = atlas.allocator.rearrange();
            assert_eq!(list.changes.len() + list.failures.len(), atlas.places.len());
            follow_by_number(&mut atlas, &list);
        }
        if number % 60 == 59 {
            let side = atlas.allocator.size().width + 32;
            let list = atlas.allocator.resize_and_rearrange(size2(side, side));
            follow_by_number(&mut atlas, &list);
        }
        if number % 3 == 0 {
            let oldest = atlas.places.keys().min().copied();
            if let Some(id) = oldest.and_then(|oldest| atlas.places.remove(&oldest)) {
                atlas.allocator.deallocate(id);
            }
        }
    }
    atlas.check();
    assert!(atlas.places.len() > 20);
    let list = atlas.allocator.resize_and_rearrange(size2(20, 20));
    assert!(
        !list.failures.is_empty() && list.changes.len() + list.failures.len() == atlas.places.len()
    );
}

fn follow_by_number(atlas: &mut Atlas, list: &ChangeList) {
    atlas.follow(list);
    atlas.check();
}
