//! An insertion that needs the room of many: sixteen keys go in the order of use, and then what lies in one box.

use wollemigo_core::atlas_cache::entries::DefaultHasher;
use wollemigo_core::atlas_cache::{CacheChange, CacheOptions, Inserted, Place, TextureCache};
use wollemigo_core::guillotiere::{size2, Rectangle, DEFAULT_OPTIONS};
use wollemigo_support::alloc::Global;
use wollemigo_support::test::Fail;
use wollemigo_support::vec::Vec;

const SMALL: u32 = 1024;

// So many keys go in the order of use before one box is cleared.
const OLDEST_FIRST: usize = 16;

// What an insertion of a large key, behind small ones that fill a page, answered; which keys went, in their order; and which stay.
struct Outcome {
    answer: Inserted,
    gone: std::vec::Vec<(u32, Place)>,
    kept: std::vec::Vec<(u32, Place)>,
}

// A page of 256 by 256 is full of keys of 8 by 8, which were used in a scattered order. In the next frame those are used that `is_used` says.
fn insert_large(side: i32, is_used: fn(u32) -> bool) -> Result<Outcome, Fail> {
    let options = CacheOptions {
        page: size2(256, 256),
        largest_page: size2(256, 256),
        pages: 1,
        padding: 0,
        atlas: DEFAULT_OPTIONS,
    };
    let mut cache = TextureCache::with_hasher(Global, options, DefaultHasher::new())?;
    let mut changes = Vec::new(Global);
    for key in 0..SMALL {
        cache.insert(key, size2(8, 8), &mut changes)?;
    }
    cache.begin_frame();
    for turn in 0..SMALL {
        // 389 and 1024 have no common divisor, so that each key comes once.
        cache.get(&(turn * 389 % SMALL));
    }
    cache.begin_frame();
    for key in (0..SMALL).filter(|key| is_used(*key)) {
        cache.get(&key);
    }
    changes.clear();
    let answer = cache.insert(SMALL, size2(side, side), &mut changes)?;
    let gone = changes.iter().map(|change| match *change {
        CacheChange::Evicted { key, place } => (key, place),
        _ => panic!("a change that evicts nothing"),
    });
    let gone = gone.collect();
    let held = (0..SMALL).filter_map(|key| cache.peek(&key).map(|place| (key, place)));
    Ok(Outcome { answer, gone, kept: held.collect() })
}

// The least rectangle around these.
fn around(places: &[(u32, Place)]) -> Rectangle {
    let mut whole = places[0].1.rectangle;
    for (_, place) in places {
        whole.min.x = whole.min.x.min(place.rectangle.min.x);
        whole.min.y = whole.min.y.min(place.rectangle.min.y);
        whole.max.x = whole.max.x.max(place.rectangle.max.x);
        whole.max.y = whole.max.y.max(place.rectangle.max.y);
    }
    whole
}

fn lie_apart(a: Rectangle, b: Rectangle) -> bool {
    a.max.x <= b.min.x || b.max.x <= a.min.x || a.max.y <= b.min.y || b.max.y <= a.min.y
}

#[test]
fn what_goes_after_sixteen_lies_in_one_box() -> Result<(), Fail> {
    for side in [16, 24, 40, 64, 128] {
        let Outcome { answer, gone, kept } = insert_large(side, |_| false)?;
        let place = match answer {
            Inserted::Placed(place) => place,
            other => panic!("no place for {} by {}: {:?}", side, side, other),
        };
        assert!(gone.len() > OLDEST_FIRST, "{side}: {} went", gone.len());
        for (turn, (key, _)) in gone[..OLDEST_FIRST].iter().enumerate() {
            assert_eq!(*key, turn as u32 * 389 % SMALL);
        }
        let cleared = around(&gone[OLDEST_FIRST..]);
        assert!(kept.iter().all(|(_, other)| lie_apart(other.rectangle, cleared)));
        assert!(kept.iter().all(|(_, other)| lie_apart(other.rectangle, place.rectangle)));
        assert_eq!(gone.len() + kept.len(), SMALL as usize);
    }
    Ok(())
}

#[test]
fn a_frame_that_leaves_no_room_loses_sixteen_keys_at_most() -> Result<(), Fail> {
    let Outcome { answer, gone, kept } = insert_large(128, |key| key % 10 == 0)?;
    assert_eq!(answer, Inserted::FrameFull);
    assert!(gone.len() <= OLDEST_FIRST && gone.iter().all(|(key, _)| key % 10 != 0));
    assert_eq!(gone.len() + kept.len(), SMALL as usize);
    Ok(())
}
