//! Rectangles under keys.
#![cfg(feature = "cache")]
use guillotiere::cache::*;
use guillotiere::*;

fn area(x: i32, y: i32, width: i32, height: i32) -> Rectangle {
    Rectangle {
        min: point2(x, y),
        max: point2(x + width, y + height),
    }
}

// One page, of 16 by 16, which grows to 16 by 32.
fn one_page() -> CacheOptions {
    CacheOptions {
        page: size2(16, 16),
        largest_page: size2(16, 32),
        pages: 1,
        padding: 0,
        atlas: DEFAULT_OPTIONS,
    }
}

#[test]
fn pages_come_and_grow() {
    let mut cache = TextureCache::new(&one_page()).unwrap();
    cache.begin_frame();
    let inserted = cache.insert(7, size2(16, 32)).unwrap();
    assert_eq!(
        inserted,
        Inserted::Placed(Place {
            number: 0,
            page: 0,
            rectangle: area(0, 0, 16, 32),
            inner: area(0, 0, 16, 32)
        })
    );
    assert_eq!(
        cache.next_change(),
        Some(CacheChange::PageAdded {
            page: 0,
            size: size2(16, 16)
        })
    );
    assert_eq!(
        cache.next_change(),
        Some(CacheChange::PageGrown {
            page: 0,
            size: size2(16, 32)
        })
    );
    assert_eq!(cache.next_change(), None);
    assert_eq!(
        (cache.pages(), cache.page_size(0), cache.page_size(1)),
        (1, Some(size2(16, 32)), None)
    );
}

#[test]
fn the_least_recently_used_key_gives_way() {
    let mut cache = TextureCache::new(&one_page()).unwrap();
    cache.begin_frame();
    let place = cache.insert(7, size2(16, 32)).unwrap().place().unwrap();
    assert_eq!(cache.insert(8, size2(1, 1)), Ok(Inserted::FrameFull));
    cache.begin_frame();
    assert!(matches!(
        cache.insert(8, size2(1, 1)),
        Ok(Inserted::Placed(_))
    ));
    let changes: Vec<CacheChange> = std::iter::from_fn(|| cache.next_change()).collect();
    assert_eq!(changes[2..], [CacheChange::Evicted { key: 7, place }]);
    assert!(cache.get(8).is_some() && cache.get(7).is_none() && cache.peek(8).is_some());
    assert_eq!(
        cache.statistics(),
        Counts {
            hits: 1,
            misses: 1,
            evictions: 1,
            forced: 0
        }
    );
}

// Of 3 frames with 2 keys each, the first finds none held: a miss of each, where they are asked for first, and 4 hits.
#[test]
fn two_loops_have_one_hit_rate() {
    let frames = |is_asked_first: bool| {
        let mut cache = TextureCache::new(&one_page()).unwrap();
        for _ in 0..3 {
            cache.begin_frame();
            for key in [7, 8] {
                if !is_asked_first || cache.get(key).is_none() {
                    assert!(cache.insert(key, size2(3, 4)).unwrap().place().is_some());
                }
            }
        }
        cache.statistics()
    };
    let counts = |hits, misses| Counts { hits, misses, ..Counts::default() };
    assert_eq!([frames(true), frames(false)], [counts(4, 2), counts(4, 0)]);
}

#[test]
fn keys_go() {
    let mut cache = TextureCache::new(&one_page()).unwrap();
    let place = cache.insert(7, size2(2, 3)).unwrap().place();
    assert_eq!(cache.insert(7, size2(3, 2)), Err(CacheError::OtherSize));
    assert_eq!(
        cache.insert(7, size2(2, 3)),
        Ok(Inserted::Held(place.unwrap()))
    );
    assert_eq!((cache.remove(7), cache.remove(7)), (place, None));
    let place = cache.insert(8, size2(2, 3)).unwrap().place().unwrap();
    cache.trim(0).unwrap();
    while let Some(change) = cache.next_change() {
        assert!(
            matches!(change, CacheChange::PageAdded { .. })
                || change == CacheChange::Evicted { key: 8, place }
        );
    }
    let _ = cache.insert(9, size2(2, 3)).unwrap();
    assert_eq!((cache.len(), cache.is_empty()), (1, false));
    assert_eq!((cache.repack(0), cache.repack(9)), (Ok(true), Ok(false)));
    assert!(
        matches!(cache.next_change(), Some(CacheChange::Moved { key: 9, from, to }) if from == to)
    );
    cache.clear();
    assert_eq!((cache.len(), cache.is_empty()), (0, true));
}

#[test]
fn sizes_that_get_no_place() {
    let mut cache = TextureCache::new(&one_page()).unwrap();
    cache.begin_frame();
    let rows = [
        (size2(17, 1), Inserted::NeverFits),
        (size2(1, 33), Inserted::NeverFits),
    ];
    for (size, answer) in rows {
        assert_eq!(cache.insert(1, size), Ok(answer), "{:?}", size);
        assert_eq!(answer.place(), None);
    }
    assert_eq!((cache.len(), cache.numbers(), cache.pages()), (0, 0, 0));
}

#[test]
fn blank_keys() {
    let mut cache = TextureCache::new(&one_page()).unwrap();
    cache.begin_frame();
    let space = cache.insert(1, size2(0, 9)).unwrap();
    let place = space.place().unwrap();
    assert_eq!((place.number, place.page), (0, 0));
    assert!(place.rectangle.is_empty() && place.inner.is_empty());
    assert_eq!((cache.next_change(), cache.pages()), (None, 0));
    assert_eq!(cache.insert(1, size2(0, 9)), Ok(Inserted::Held(place)));
    assert_eq!(cache.insert(1, size2(1, 9)), Err(CacheError::OtherSize));
    let _ = cache.insert(2, size2(16, 32)).unwrap();
    cache.begin_frame();
    let _ = cache.insert(3, size2(16, 32)).unwrap();
    assert_eq!((cache.get(1), cache.get(2)), (Some(place), None));
    cache.trim(0).unwrap();
    assert!(cache.is_empty());
}

#[test]
fn numbers_are_dense() {
    let mut cache = TextureCache::new(&one_page()).unwrap();
    let number = |cache: &TextureCache, key| cache.peek(key).unwrap().number;
    for key in 0..3 {
        let _ = cache.insert(key, size2(1, 1)).unwrap();
        assert_eq!(number(&cache, key), key as u32);
    }
    cache.remove(1);
    let _ = cache.insert(9, size2(1, 1)).unwrap();
    assert_eq!((number(&cache, 9), number(&cache, 2)), (1, 2));
    assert_eq!(cache.numbers(), 3);
}

#[test]
fn the_options_that_it_was_made_with() {
    let mut options = one_page();
    options.padding = 1;
    options.atlas.small_size_threshold = 5;
    let cache = TextureCache::<u64>::new(&options).unwrap();
    assert_eq!(cache.options(), options);
}

#[test]
fn options_that_are_wrong() {
    let error = |options| TextureCache::<u64>::new(&options).err();
    assert_eq!(
        error(CacheOptions {
            page: size2(0, 1),
            ..one_page()
        }),
        Some(OptionsError::EmptyPage)
    );
    assert_eq!(
        error(CacheOptions {
            page: size2(17, 1),
            ..one_page()
        }),
        Some(OptionsError::LargestPage)
    );
    assert_eq!(
        error(CacheOptions {
            pages: 0,
            ..one_page()
        }),
        Some(OptionsError::NoPages)
    );
    assert_eq!(
        error(CacheOptions {
            padding: -1,
            ..one_page()
        }),
        Some(OptionsError::Padding)
    );
    let atlas = AllocatorOptions {
        alignment: size2(0, 1),
        ..DEFAULT_OPTIONS
    };
    assert_eq!(
        error(CacheOptions {
            atlas,
            ..one_page()
        }),
        Some(OptionsError::Atlas)
    );
    let wide = CacheOptions {
        padding: 8,
        ..one_page()
    };
    assert_eq!(error(wide), Some(OptionsError::NothingFits));
}

#[test]
fn pages_at_the_end_that_hold_nothing_go() {
    let options = CacheOptions {
        largest_page: size2(16, 16),
        pages: 3,
        ..one_page()
    };
    let mut cache = TextureCache::new(&options).unwrap();
    for key in [1, 2, 3] {
        let _ = cache.insert(key, size2(16, 16)).unwrap();
    }
    while cache.next_change().is_some() {}
    cache.remove(1);
    cache.remove(3);
    assert_eq!(cache.shrink(), Ok(()));
    let gone = |page| Some(CacheChange::PageRemoved { page });
    assert_eq!((cache.next_change(), cache.next_change()), (gone(2), None));
    assert_eq!(cache.pages(), 2);
    cache.clear();
    assert_eq!(cache.shrink(), Ok(()));
    assert_eq!(
        (cache.next_change(), cache.next_change()),
        (gone(1), gone(0))
    );
    assert_eq!(cache.pages(), 0);
}

// The padding of all sides is rounded up with the size: 1 + 1 + 1 to 4.
#[test]
fn padding_before_the_rounding() {
    for (side, fits) in [(3, false), (4, true)] {
        let atlas = AllocatorOptions {
            alignment: size2(4, 4),
            ..DEFAULT_OPTIONS
        };
        let options = CacheOptions {
            padding: 1,
            atlas,
            ..CacheOptions::new(size2(side, side))
        };
        let found = TextureCache::new(&options);
        assert_eq!(found.is_ok(), fits);
        if let Ok(mut cache) = found {
            let place = cache.insert(7, size2(1, 1)).unwrap().place().unwrap();
            assert_eq!(place.rectangle.size(), size2(4, 4));
            assert_eq!(cache.insert(8, size2(3, 1)), Ok(Inserted::NeverFits));
        }
    }
}

#[test]
fn free_area_of_no_use() {
    let mut cache = TextureCache::new(&one_page()).unwrap();
    let _ = cache.insert(7, size2(8, 16)).unwrap();
    assert_eq!(cache.unusable_area(0, size2(9, 9)), Ok(Some(128)));
    assert_eq!(cache.unusable_area(0, size2(8, 16)), Ok(Some(0)));
    assert_eq!(cache.unusable_area(0, size2(-3, -9)), Ok(Some(0)));
    assert_eq!(cache.unusable_area(1, size2(8, 16)), Ok(None));
}

// On a page of 16 by 16 a key takes 8 by 8 with its border, so that 192 pixels are free. A second one has room only once it is gone: that
// eviction is forced if the second one takes 192 pixels or less.
#[test]
fn evictions_are_forced_where_a_page_has_the_area() {
    let forced_by = |padding, width, height| {
        let mut cache = TextureCache::new(&CacheOptions { pages: 1, padding, ..CacheOptions::new(size2(16, 16)) }).unwrap();
        let side = 8 - 2 * padding;
        assert!(matches!(cache.insert(1, size2(side, side)), Ok(Inserted::Placed(_))));
        cache.begin_frame();
        assert!(matches!(cache.insert(2, size2(width, height)), Ok(Inserted::Placed(_))));
        let counts = cache.statistics();
        assert_eq!(counts.evictions, 1);
        counts.forced
    };
    assert_eq!((forced_by(0, 16, 12), forced_by(0, 16, 13)), (1, 0)); // 192 and 208 pixels
    assert_eq!((forced_by(1, 14, 10), forced_by(1, 14, 11)), (1, 0)); // the same with the border; 154 without
}

// Two keys of 16 by 4 leave 16 by 8, as many pixels as 8 by 16 has: both are forced to go. What a trim evicts isn't forced.
#[test]
fn two_forced_evictions_count_as_two() {
    let mut cache = TextureCache::new(&CacheOptions { pages: 1, ..CacheOptions::new(size2(16, 16)) }).unwrap();
    for key in [1, 2] {
        assert!(matches!(cache.insert(key, size2(16, 4)), Ok(Inserted::Placed(_))));
    }
    cache.begin_frame();
    assert!(matches!(cache.insert(3, size2(8, 16)), Ok(Inserted::Placed(_))));
    let counted = |counts: Counts| (counts.evictions, counts.forced);
    assert_eq!(counted(cache.statistics()), (2, 2));
    cache.trim(0).unwrap();
    assert_eq!(counted(cache.statistics()), (3, 2));
}

// Key 2, the largest, comes first to the corner, and 3, 6 by 8, to its right; for 1, as large as 3, a strip of 7 rows is left below. So all
// stays as it is, while 1 is there; once it is gone, the two move.
#[test]
fn a_repacking_that_keeps_all() {
    let mut cache = TextureCache::new(&CacheOptions::new(size2(16, 16))).unwrap();
    let sizes = [(1, size2(6, 8)), (2, size2(10, 9)), (3, size2(6, 8))];
    for (key, size) in sizes {
        assert!(matches!(cache.insert(key, size), Ok(Inserted::Placed(_))));
    }
    let before: Vec<_> = cache.iter().collect();
    assert_eq!(cache.drain_changes().len(), 1);
    assert_eq!(cache.repack_keeping_all(0), Ok(false));
    assert_eq!(cache.repack_keeping_all(1), Ok(false));
    assert_eq!(cache.drain_changes().len(), 0);
    assert!(cache.iter().eq(before));
    let evictions = cache.statistics().evictions;
    cache.remove(1);
    assert_eq!(cache.repack_keeping_all(0), Ok(true));
    assert_eq!(cache.drain_changes().len(), 2);
    assert_eq!(cache.statistics().evictions, evictions);
    let corner = |key| cache.peek(key).unwrap().rectangle.min;
    assert_eq!((corner(3), corner(2)), (point2(10, 0), point2(0, 0)));
}

// What was used last goes first, each key reported; the frame goes on, so what is left of it stays.
#[test]
fn a_batch_ends_in_a_frame_that_goes_on() {
    let mut cache = TextureCache::new(&CacheOptions { pages: 1, ..CacheOptions::new(size2(32, 32)) }).unwrap();
    cache.begin_frame();
    let halves = |key| (key, size2(32, 16));
    for (key, size) in ['a', 'b'].map(halves) {
        assert!(matches!(cache.insert(key, size), Ok(Inserted::Placed(_))));
    }
    assert_eq!(cache.insert('c', size2(32, 16)), Ok(Inserted::FrameFull));
    cache.drain_changes().for_each(drop);
    let from = cache.peek('b').unwrap();
    assert_eq!(cache.end_batch(1), Ok(()));
    assert!(cache.drain_changes().eq([CacheChange::Evicted { key: 'b', place: from }]));
    assert!(matches!(cache.insert('c', size2(32, 16)), Ok(Inserted::Placed(_))));
    assert_eq!(cache.insert('b', size2(32, 16)), Ok(Inserted::FrameFull));
    assert!(cache.keys().eq(['c', 'a']));
    assert_eq!(cache.end_batch(9), Ok(()));
    assert!(cache.is_empty());
}

// What is left of a burst moves from the last page to the pages before it, so many pixels in each call; then the page goes.
#[test]
fn a_last_page_is_emptied_a_few_pixels_at_a_time() {
    let options = CacheOptions { pages: 2, padding: 0, ..CacheOptions::new(size2(16, 16)) };
    let mut cache = TextureCache::new(&CacheOptions { largest_page: size2(16, 16), ..options }).unwrap();
    for (key, size) in [(1, size2(16, 8)), (2, size2(16, 8)), (3, size2(8, 8)), (4, size2(8, 8))] {
        assert!(matches!(cache.insert(key, size), Ok(Inserted::Placed(_))));
    }
    cache.remove(2);
    while cache.next_change().is_some() {}
    assert_eq!(cache.compact(63), Ok(0));
    for (key, corner) in [(4, point2(0, 8)), (3, point2(8, 8))] {
        assert_eq!(cache.shrink(), Ok(()));
        assert_eq!(cache.drain_changes().len(), 0);
        let from = cache.peek(key).unwrap();
        assert_eq!(cache.compact(64), Ok(64));
        let to = cache.peek(key).unwrap();
        assert_eq!((from.page, to.page, to.rectangle.min), (1, 0, corner));
        assert!(cache.drain_changes().eq([CacheChange::Moved { key, from, to }]));
    }
    assert_eq!(cache.shrink(), Ok(()));
    assert!(cache.drain_changes().eq([CacheChange::PageRemoved { page: 1 }]));
    assert!(cache.keys().eq([4, 3, 1]));
}

// A renderer that copies by one picture of the page for each call has the right pixels, also where two repackings came before.
#[test]
fn changes_of_two_calls_are_not_mixed() {
    let mut cache = TextureCache::new(&CacheOptions::new(size2(64, 64))).unwrap();
    let mut page = vec![0; 64 * 64];
    for (key, side) in (1..).zip([9, 23, 14, 5, 31]) {
        let place = cache.insert(key, size2(side, 7)).unwrap().place().unwrap();
        for at in points(place.rectangle) {
            page[at] = key;
        }
    }
    assert_eq!(cache.drain_changes().len(), 1);
    assert_eq!(cache.repack(0), Ok(true));
    assert!(cache.remove(2).is_some());
    assert_eq!(cache.repack(0), Ok(true));
    let mut moved = Vec::new();
    loop {
        let before = page.clone();
        let changes = cache.drain_changes();
        moved.push(changes.len());
        if changes.len() == 0 {
            break;
        }
        for change in changes {
            match change {
                CacheChange::Moved { from, to, .. } => {
                    for (old, new) in points(from.rectangle).zip(points(to.rectangle)) {
                        page[new] = before[old];
                    }
                }
                other => panic!("{:?}", other),
            }
        }
    }
    assert_eq!(moved, [5, 4, 0]);
    for (key, place) in &cache {
        assert!(points(place.rectangle).all(|at| page[at] == key));
    }
}

#[test]
fn a_drain_hands_over_all_of_one_call() {
    let mut cache = TextureCache::new(&CacheOptions::new(size2(16, 16))).unwrap();
    for key in 1..=3 {
        let _ = cache.insert(key, size2(4, 4)).unwrap();
    }
    cache.repack(0).unwrap();
    cache.trim(0).unwrap();
    cache.shrink().unwrap();
    assert!(matches!(
        cache.next_change(),
        Some(CacheChange::PageAdded { page: 0, .. })
    ));
    assert!(matches!(
        cache.next_change(),
        Some(CacheChange::Moved { .. })
    ));
    let rest = cache.drain_changes();
    assert_eq!((rest.len(), rest.size_hint()), (2, (2, Some(2))));
    drop(rest);
    let evicted: Vec<u64> = cache
        .drain_changes()
        .map(|change| match change {
            CacheChange::Evicted { key, .. } => key,
            other => panic!("{:?}", other),
        })
        .collect();
    assert_eq!(evicted, [1, 2, 3]);
    let last: Vec<CacheChange> = cache.drain_changes().collect();
    assert_eq!(last, [CacheChange::PageRemoved { page: 0 }]);
    assert_eq!(cache.drain_changes().next(), None);
    assert_eq!(cache.next_change(), None);
}

#[test]
fn a_copy_goes_on_by_itself() {
    let mut cache = TextureCache::new(&one_page()).unwrap();
    let place = cache.insert(7, size2(3, 4)).unwrap().place();
    let mut copy = cache.clone();
    let added = CacheChange::PageAdded {
        page: 0,
        size: size2(16, 16),
    };
    assert!(cache.drain_changes().eq([added]));
    assert!(copy.drain_changes().eq([added])); // no one had taken it yet
    assert_eq!(copy.remove(7), place);
    assert_eq!((cache.get(7), copy.get(7)), (place, None));
    assert_eq!((cache.live_area(0), copy.live_area(0)), (Some(12), Some(0)));
    let counts = [&cache, &copy].map(|it| (it.statistics().hits, it.statistics().misses));
    assert_eq!(counts, [(1, 0), (0, 1)]);
}

#[test]
fn keys_by_their_use() {
    let mut cache = TextureCache::new(&one_page()).unwrap();
    for key in 1..=4 {
        let _ = cache.insert(key, size2(1, 1)).unwrap();
    }
    cache.get(2);
    let keys: Vec<u64> = cache.keys().collect();
    assert_eq!(keys, [2, 4, 3, 1]);
    assert_eq!((cache.iter().len(), cache.keys().len()), (4, 4));
    for (key, place) in &cache {
        assert_eq!(
            (cache.peek(key), cache.contains_key(key)),
            (Some(place), true)
        );
    }
    assert!(!cache.contains_key(5));
    let mut entries = cache.iter();
    entries.next();
    assert_eq!(entries.size_hint(), (3, Some(3)));
    assert_eq!(format!("{:?}", cache.keys()), "[2, 4, 3, 1]");
    cache.clear();
    assert_eq!((cache.iter().next(), cache.keys().next()), (None, None));
}

// What `newest` and `older` give, one after another.
fn followed(cache: &TextureCache) -> Vec<(u64, Place)> {
    std::iter::successors(cache.newest(), |(key, _)| cache.older(*key)).collect()
}

#[test]
fn an_iterator_gives_what_newest_and_older_give() {
    let mut cache = TextureCache::new(&CacheOptions::new(size2(64, 64))).unwrap();
    assert_eq!((cache.iter().len(), cache.iter().next()), (0, None));
    for key in 0..9 {
        let side = (key % 3) as i32 * 5; // every third key is blank
        let _ = cache.insert(key, size2(side, 4)).unwrap();
    }
    for key in [0, 4, 3] {
        cache.get(key);
    }
    cache.remove(5);
    let keys: Vec<u64> = cache.keys().collect();
    assert_eq!(keys, [3, 4, 0, 8, 7, 6, 2, 1]);
    let entries: Vec<(u64, Place)> = cache.iter().collect();
    assert_eq!(entries, followed(&cache));
    let blank: Vec<u64> = (cache.iter().filter(|(_, place)| place.inner.is_empty()))
        .map(|(key, _)| key)
        .collect();
    assert_eq!(blank, [3, 0, 6]);
    let mut rest = cache.iter();
    for left in (0..8).rev() {
        assert!(rest.next().is_some());
        assert_eq!(rest.size_hint(), (left, Some(left)));
        assert!(rest.clone().eq(entries[8 - left..].iter().copied()));
    }
    assert_eq!((rest.next(), rest.next(), rest.len()), (None, None, 0));
}

fn points(area: Rectangle) -> impl Iterator<Item = usize> {
    (area.min.y..area.max.y)
        .flat_map(move |y| (area.min.x..area.max.x).map(move |x| (y * 64 + x) as usize))
}
