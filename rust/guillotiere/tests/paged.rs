//! Several pages: worked by hand; random calls, each compared with the same over atlases in a list; each request for memory refused in turn.
use guillotiere::*;

mod granting;
use granting::granting;

struct Random(u64);

impl Random {
    fn below(&mut self, bound: u32) -> u32 {
        self.0 = self
            .0
            .wrapping_mul(6_364_136_223_846_793_005)
            .wrapping_add(1_442_695_040_888_963_407);
        (self.0 >> 33) as u32 % bound
    }
}

fn side(random: &mut Random, most: u32) -> i32 {
    1 + random.below(most) as i32
}

/// Pages by their rules: a request asks one after another, and where none has room, a new one; the last ones without a live id go.
struct Plain {
    pages: Vec<AtlasAllocator>,
    size: Size,
    most: usize,
}

impl Plain {
    fn allocate(&mut self, size: Size) -> Option<PageAllocation> {
        let of = |page: usize, granted: Allocation| PageAllocation {
            page: page as u32,
            id: granted.id,
            rectangle: granted.rectangle,
        };
        for (page, atlas) in self.pages.iter_mut().enumerate() {
            if let Some(granted) = atlas.allocate(size) {
                return Some(of(page, granted));
            }
        }
        if self.pages.len() == self.most {
            return None;
        }
        let mut atlas = AtlasAllocator::new(self.size);
        let granted = atlas.allocate(size)?;
        self.pages.push(atlas);
        Some(of(self.pages.len() - 1, granted))
    }

    fn shrink(&mut self) -> u32 {
        while self.pages.last().map_or(false, AtlasAllocator::is_empty) {
            self.pages.pop();
        }
        self.pages.len() as u32
    }

    fn live(&self) -> Vec<PageAllocation> {
        let pages = self.pages.iter().enumerate();
        let walks = pages.flat_map(|(page, atlas)| {
            atlas.iter().map(move |live| PageAllocation {
                page: page as u32,
                id: live.id,
                rectangle: live.rectangle,
            })
        });
        walks.collect()
    }
}

fn same(layers: &PagedAtlas, plain: &Plain) {
    assert!(layers.iter().eq(plain.live()));
    assert_eq!(layers.page_count() as usize, plain.pages.len());
    for (page, atlas) in plain.pages.iter().enumerate() {
        assert_eq!(layers.page_size(page as u32), Some(atlas.size()));
    }
    assert_eq!(layers.page_size(layers.page_count()), None);
    for live in layers {
        assert_eq!(layers.get(live.page, live.id), Some(live.rectangle));
    }
}

fn step(layers: &mut PagedAtlas, plain: &mut Plain, random: &mut Random) {
    let live = plain.live();
    match random.below(40) {
        0..=18 => {
            let size = size2(side(random, 40), side(random, 40));
            assert_eq!(layers.allocate(size), plain.allocate(size));
        }
        19..=34 => {
            if let Some(gone) = live.get(random.below(live.len().max(1) as u32) as usize) {
                layers.deallocate(gone.page, gone.id);
                plain.pages[gone.page as usize].deallocate(gone.id);
                let again = layers.try_deallocate(gone.page, gone.id);
                assert_eq!(again, Err(AtlasError::NotLive));
            }
        }
        35 => assert_eq!(layers.shrink(), plain.shrink()),
        36 | 37 => {
            let page = random.below(5);
            let size = size2(60 + side(random, 9), 60 + side(random, 9));
            let wanted = match plain.pages.get_mut(page as usize) {
                Some(atlas) => atlas.try_grow(size),
                None => Err(AtlasError::NoPage),
            };
            assert_eq!(layers.try_grow(page, size), wanted);
        }
        38 => {
            let id = AllocId::deserialize(random.below(60));
            let known = live.iter().any(|it| (it.page, it.id) == (7, id));
            assert!(!known && layers.get(7, id).is_none());
        }
        _ if random.below(6) == 0 => {
            layers.clear();
            plain.pages.iter_mut().for_each(AtlasAllocator::clear);
        }
        _ => assert_eq!(layers.allocate(size2(0, 5)), None),
    }
}

#[test]
fn random_calls_answer_as_atlases_in_a_list() {
    let mut random = Random(3);
    for most in [0, 1, 2, 4, 64] {
        let mut layers = PagedAtlas::new(size2(64, 64), most);
        let mut plain = Plain {
            pages: Vec::new(),
            size: size2(64, 64),
            most: most as usize,
        };
        for _ in 0..3000 {
            step(&mut layers, &mut plain, &mut random);
            same(&layers, &plain);
        }
    }
}

#[test]
fn pages_come_and_go() {
    let mut layers = PagedAtlas::new(size2(64, 64), 3);
    assert_eq!((layers.page_count(), layers.shrink()), (0, 0));
    let wide = [(); 3].map(|()| layers.allocate(size2(64, 40)).unwrap());
    assert_eq!(wide.map(|it| it.page), [0, 1, 2]);
    assert!(wide.iter().all(|it| it.rectangle == wide[0].rectangle));
    assert_eq!(layers.allocate(size2(64, 40)), None); // three pages, and no more
    let low = layers.allocate(size2(64, 24)).unwrap();
    assert_eq!((low.page, low.rectangle.min), (0, point2(0, 40)));
    // What doesn't fit an empty page adds none.
    assert_eq!(
        PagedAtlas::new(size2(64, 64), 3).allocate(size2(65, 1)),
        None
    );
    layers.deallocate(1, wide[1].id);
    assert_eq!(layers.shrink(), 3); // the page behind it is in use
    layers.deallocate(2, wide[2].id);
    assert_eq!((layers.shrink(), layers.page_count()), (1, 1));
    assert!(layers.iter().eq([wide[0], low]));
    layers.clear();
    assert_eq!((layers.iter().count(), layers.page_count()), (0, 1));
    assert_eq!((layers.shrink(), layers.page_size(0)), (0, None));
    assert_eq!(layers.allocate(size2(64, 64)).unwrap().page, 0);
}

// Pages of 64 by 64 pixels, worked by hand: a request and, where it is granted, the page and the corner.
#[test]
fn rows_of_requests() {
    let mut layers = PagedAtlas::new(size2(64, 64), 2);
    let row = |layers: &mut PagedAtlas, width, height, wanted: Option<(u32, i32, i32)>| {
        let granted = layers.allocate(size2(width, height));
        let min = |it: PageAllocation| (it.page, it.rectangle.min.x, it.rectangle.min.y);
        assert_eq!(granted.map(min), wanted, "{} by {}", width, height);
        granted
    };
    row(&mut layers, 65, 1, None); // no room on an empty page: none is made
    assert_eq!(layers.page_count(), 0);
    row(&mut layers, 64, 40, Some((0, 0, 0))); // 24 rows of pixels are left on page 0
    let high = row(&mut layers, 64, 30, Some((1, 0, 0))).unwrap(); // and 34 on page 1
    row(&mut layers, 64, 24, Some((0, 0, 40)));
    row(&mut layers, 64, 34, Some((1, 0, 30)));
    row(&mut layers, 1, 1, None); // both are full, and there may be no third
    layers.grow(1, size2(70, 64));
    row(&mut layers, 6, 64, Some((1, 64, 0))); // beside what was there
    row(&mut layers, 64, 30, None);
    layers.deallocate(1, high.id);
    row(&mut layers, 64, 30, Some((1, 0, 0)));
    assert_eq!((layers.shrink(), layers.page_count()), (2, 2));
}

#[test]
fn walks_are_copied() {
    let mut layers = PagedAtlas::new(size2(8, 8), 4);
    let all = [(); 3].map(|()| layers.allocate(size2(8, 5)).unwrap());
    let mut walk = layers.iter();
    assert_eq!(walk.next(), Some(all[0]));
    assert!(walk.clone().eq([all[1], all[2]]));
    assert!(walk.by_ref().eq([all[1], all[2]]));
    assert_eq!((walk.next(), walk.next()), (None, None));
    assert_eq!(format!("{:?}", layers.iter()), format!("{:?}", all));
}

#[test]
fn conditions_are_told() {
    let bad = |size, options: &AllocatorOptions| {
        PagedAtlas::try_with_options(size, options, 1).unwrap_err()
    };
    let alignment = AllocatorOptions {
        alignment: size2(4, 0),
        ..DEFAULT_OPTIONS
    };
    let thresholds = AllocatorOptions {
        small_size_threshold: 9,
        large_size_threshold: 8,
        ..DEFAULT_OPTIONS
    };
    assert_eq!(bad(size2(0, 9), &thresholds), AtlasError::EmptySize);
    assert_eq!(bad(size2(9, 9), &alignment), AtlasError::Alignment);
    assert_eq!(bad(size2(9, 9), &thresholds), AtlasError::Thresholds);
    assert!(PagedAtlas::try_new(size2(9, -1), 1).is_err());
    let mut layers = PagedAtlas::new(size2(9, 9), 2);
    assert_eq!(layers.try_grow(0, size2(9, 9)), Err(AtlasError::NoPage));
    let held = layers.allocate(size2(3, 3)).unwrap();
    assert_eq!(layers.try_grow(0, size2(8, 99)), Err(AtlasError::Shrinks));
    assert_eq!(layers.try_deallocate(1, held.id), Err(AtlasError::NotLive));
    assert_eq!(layers.page_size(0), Some(size2(9, 9)));
    assert_eq!(AtlasError::NoPage.to_string(), "there is no such page");
}

#[test]
fn alignment_holds_on_each_page() {
    let options = AllocatorOptions {
        alignment: size2(16, 8),
        ..DEFAULT_OPTIONS
    };
    let mut layers = PagedAtlas::with_options(size2(64, 32), &options, 2);
    for _ in 0..2 {
        let granted = layers.allocate(size2(49, 25)).unwrap();
        assert_eq!(granted.rectangle.size(), size2(64, 32));
    }
}

// Each request for memory refused in turn: what was live is so, and later calls do as if the refused one hadn't been.
#[test]
fn refused_memory_changes_nothing() {
    let mut refused = 0;
    for granted in 0..200 {
        let mut layers = PagedAtlas::new(size2(64, 64), 8);
        let held = layers.allocate(size2(60, 60)).unwrap();
        let answer = granting(granted, || {
            (0..40).try_for_each(|_| layers.try_allocate(size2(9, 33)).map(drop))
        });
        let live: Vec<PageAllocation> = layers.iter().collect();
        assert!(live.contains(&held));
        match answer {
            Ok(()) => break,
            Err(error) => assert_eq!(error, AtlasError::Memory),
        }
        refused += 1;
        let next = layers.allocate(size2(9, 33)).unwrap();
        assert_eq!(layers.iter().count(), live.len() + 1);
        layers.deallocate(next.page, next.id);
        assert!(layers.iter().eq(live));
        layers.shrink();
        layers.clear();
        assert_eq!(layers.shrink(), 0);
    }
    assert!((4..200).contains(&refused), "{}", refused);
}
