//! A client of the cache whose device is lost now and then, with its textures: they are made again from what the cache holds.
#![cfg(feature = "cache")]

use guillotiere::cache::{CacheChange, CacheOptions, Inserted, Place, TextureCache};
use guillotiere::{point2, size2, AllocatorOptions, Rectangle, Size};

struct Random(u64);

impl Random {
    fn below(&mut self, bound: u32) -> u32 {
        self.0 = self
            .0
            .wrapping_mul(6_364_136_223_846_793_005)
            .wrapping_add(1_442_695_040_888_963_407);
        (self.0 >> 33) as u32 % bound
    }
}

/// What a pixel of a fresh texture has: nothing of use.
const GARBAGE: u32 = u32::MAX;

struct Texture {
    size: Size,
    pixels: Vec<u32>,
}

impl Texture {
    fn new(size: Size) -> Texture {
        Texture {
            size,
            pixels: vec![GARBAGE; (size.width * size.height) as usize],
        }
    }

    fn at(&mut self, x: i32, y: i32) -> &mut u32 {
        &mut self.pixels[(y * self.size.width + x) as usize]
    }

    fn copy(&mut self, from: &mut Texture, old: &Rectangle, new: &Rectangle) {
        for y in 0..old.size().height {
            for x in 0..old.size().width {
                *self.at(new.min.x + x, new.min.y + y) = *from.at(old.min.x + x, old.min.y + y);
            }
        }
    }
}

/// A key's picture: its size, and each pixel.
fn sides(key: u32) -> Size {
    match key % 7 {
        0 => size2(0, 3),
        _ => size2(3 + (key * 5 % 17) as i32, 3 + (key * 7 % 13) as i32),
    }
}

fn pixel(key: u32, x: i32, y: i32) -> u32 {
    key << 16 | (x as u32) << 8 | y as u32
}

struct Client {
    glyphs: TextureCache<u32>,
    device: Vec<Texture>,
    lost: u32,
}

impl Client {
    fn new() -> Client {
        let options = CacheOptions {
            largest_page: size2(64, 64),
            pages: 3,
            padding: 1,
            atlas: AllocatorOptions::default(),
            ..CacheOptions::new(size2(32, 32))
        };
        Client {
            glyphs: TextureCache::new(&options).unwrap(),
            device: Vec::new(),
            lost: 0,
        }
    }

    fn follow(&mut self) {
        let mut before: Vec<Texture> = Vec::new();
        for change in self.glyphs.drain_changes() {
            match change {
                CacheChange::PageAdded { size, .. } => self.device.push(Texture::new(size)),
                CacheChange::PageGrown { page, size } => {
                    let mut old =
                        std::mem::replace(&mut self.device[page as usize], Texture::new(size));
                    let all = Rectangle {
                        min: point2(0, 0),
                        max: point2(old.size.width, old.size.height),
                    };
                    self.device[page as usize].copy(&mut old, &all, &all);
                }
                CacheChange::Evicted { .. } => {}
                CacheChange::Moved { from, to, .. } => {
                    let texture = &mut self.device[from.page as usize];
                    if before.is_empty() {
                        before.push(Texture {
                            size: texture.size,
                            pixels: texture.pixels.clone(),
                        });
                    }
                    texture.copy(&mut before[0], &from.rectangle, &to.rectangle);
                }
                CacheChange::PageRemoved { .. } => drop(self.device.pop()),
            }
        }
    }

    fn write(&mut self, key: u32, place: Place) {
        write(&mut self.device, key, place);
    }

    /// The textures that were there are gone, and so is what waited to be done to them.
    fn lose(&mut self) {
        self.device.clear();
        while self.glyphs.next_change().is_some() {}
        let sizes = (0..self.glyphs.pages()).map(|page| self.glyphs.page_size(page).unwrap());
        self.device.extend(sizes.map(Texture::new));
        for (key, place) in self.glyphs.iter() {
            write(&mut self.device, key, place);
        }
        self.lost += 1;
    }

    fn draw(&mut self, key: u32) {
        let place = match self.glyphs.insert(key, sides(key)).unwrap() {
            Inserted::Held(place) => place,
            Inserted::Placed(place) => {
                self.follow();
                self.write(key, place);
                place
            }
            Inserted::FrameFull => return self.follow(),
            Inserted::NeverFits => panic!("{} is too large", key),
        };
        self.follow();
        self.check(key, place);
    }

    fn check(&mut self, key: u32, place: Place) {
        let min = place.inner.min;
        for y in 0..place.inner.size().height {
            for x in 0..place.inner.size().width {
                let found = *self.device[place.page as usize].at(min.x + x, min.y + y);
                assert_eq!(found, pixel(key, x, y), "key {} at {}, {}", key, x, y);
            }
        }
    }
}

fn write(device: &mut [Texture], key: u32, place: Place) {
    let min = place.inner.min;
    for y in 0..place.inner.size().height {
        for x in 0..place.inner.size().width {
            *device[place.page as usize].at(min.x + x, min.y + y) = pixel(key, x, y);
        }
    }
}

#[test]
fn textures_are_made_again_from_what_is_held() {
    let (mut client, mut random) = (Client::new(), Random(5));
    for frame in 0..400 {
        client.glyphs.begin_frame();
        for _ in 0..30 {
            client.draw(random.below(300));
        }
        if frame % 5 == 0 && client.glyphs.pages() > 0 {
            let page = random.below(client.glyphs.pages());
            assert!(client.glyphs.repack(page).unwrap());
            // Sometimes before its changes are followed.
            if random.below(2) == 0 {
                client.follow();
            }
        }
        if frame % 7 == 0 || frame % 5 == 0 {
            client.lose();
        }
        if frame % 50 == 0 {
            client.glyphs.trim(1).unwrap();
            client.follow();
            client.glyphs.shrink().unwrap();
            client.follow();
        }
        let held: Vec<(u32, Place)> = client.glyphs.iter().collect();
        for (key, place) in held {
            client.check(key, place);
        }
    }
    let counts = client.glyphs.statistics();
    assert!(client.lost > 100 && counts.evictions > 1000 && client.glyphs.pages() == 3);
}
