//! The workload `cache` over the package's own cache, for `bench/counts --package`: the keys, the frames and the answers of bench/cache.rs,
//! in whose place the driver takes it.
#[path = "by_hand.rs"]
mod by_hand;

use self::by_hand::{key_of, next_rank, size_of, CALLS_IN_A_FRAME, PADDING, PAGE, PAGES};
use crate::{Answers, Random};
use guillotiere::cache::{CacheChange, CacheOptions, Place, TextureCache};
use guillotiere::size2;

struct Cache {
    cache: TextureCache<u32>,
    answers: Answers,
}

impl Cache {
    fn new() -> Cache {
        let pages = PAGES as u32;
        let options = CacheOptions { pages, padding: PADDING, ..CacheOptions::new(size2(PAGE, PAGE)) };
        Cache { cache: TextureCache::new(&options).expect("options"), answers: Answers::new() }
    }

    fn answer(&mut self, place: Option<Place>) {
        self.answers.calls += 1;
        match place {
            Some(place) => {
                self.answers.add(u64::from(place.page));
                self.answers.add_box(place.rectangle);
            }
            None => self.answers.add(u64::MAX),
        }
    }

    fn get(&mut self, key: u32) -> bool {
        let place = self.cache.get(key);
        self.answer(place);
        place.is_some()
    }

    fn insert(&mut self, key: u32) {
        let inserted = self.cache.insert(key, size_of(key)).expect("memory");
        for change in self.cache.drain_changes() {
            match change {
                CacheChange::PageAdded { .. } => self.answers.add(u64::MAX - 4),
                CacheChange::Evicted { key, .. } => self.answers.add((1 << 32) + u64::from(key)),
                other => panic!("{other:?}"),
            }
        }
        self.answer(inserted.place());
    }
}

/// So many calls.
pub fn run(calls: u32) -> Answers {
    let mut random = Random(1);
    let mut cache = Cache::new();
    let mut wanted = None;
    for call in 0..calls {
        if call % CALLS_IN_A_FRAME == 0 {
            cache.cache.begin_frame();
        }
        if let Some(key) = wanted {
            cache.insert(key);
            wanted = None;
        } else {
            let key = key_of(next_rank(&mut random));
            if !cache.get(key) {
                wanted = Some(key);
            }
        }
    }
    cache.answers
}
