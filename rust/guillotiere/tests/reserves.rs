//! When a cache asks for memory: where the library's call below asks for some, and never where all was taken before.
#![cfg(feature = "cache")]
use guillotiere::cache::*;
use guillotiere::*;
use wollemigo_core::atlas_cache as library;
use wollemigo_core::guillotiere as values;
use wollemigo_support::alloc::Global;
use wollemigo_support::vec::Vec as LibraryVec;

mod granting;
use granting::granting;

struct Random(u64);

impl Random {
    fn below(&mut self, end: u64) -> u64 {
        self.0 ^= self.0 << 13;
        self.0 ^= self.0 >> 7;
        self.0 ^= self.0 << 17;
        self.0 % end
    }
}

// At most two pages, which grow from 16 by 16 to 32 by 32.
fn two_pages() -> CacheOptions {
    CacheOptions {
        page: size2(16, 16),
        largest_page: size2(32, 32),
        pages: 2,
        padding: 0,
        atlas: DEFAULT_OPTIONS,
    }
}

// A cache of the package, and the library's with its list of changes.
struct Pair {
    ours: TextureCache<u64>,
    below: library::TextureCache<u64>,
    changes: LibraryVec<library::CacheChange<u64>, Global>,
    // Of each call since the last drain that added some, how many.
    added: Vec<usize>,
}

#[derive(Clone, Copy, Debug)]
enum Call {
    Insert(u64, i32, i32),
    Get(u64),
    Remove(u64),
    BeginFrame,
    Trim(u64),
    Shrink,
    Repack(u32),
    Clear,
    Reserve(usize),
    ReserveSlots(u32),
    ReserveChanges(usize),
}

// What is told of a place: its number, its page, and where it begins.
type Told = Option<(u32, u32, i32, i32)>;

fn told(place: Place) -> Told {
    let min = place.rectangle.min;
    Some((place.number, place.page, min.x, min.y))
}

fn told_below(place: library::Place) -> Told {
    let min = place.rectangle.min;
    Some((place.number, place.page, min.x, min.y))
}

fn answer(cache: &mut TextureCache<u64>, call: Call) -> Result<Told, CacheError> {
    let nothing = |done: Result<(), CacheError>| done.map(|()| None);
    match call {
        Call::Insert(key, width, height) => {
            let inserted = cache.insert(key, size2(width, height))?;
            Ok(inserted.place().and_then(told))
        }
        Call::Get(key) => Ok(cache.get(key).and_then(told)),
        Call::Remove(key) => Ok(cache.remove(key).and_then(told)),
        Call::BeginFrame => {
            cache.begin_frame();
            Ok(None)
        }
        Call::Trim(frames) => nothing(cache.trim(frames)),
        Call::Shrink => nothing(cache.shrink()),
        Call::Repack(page) => nothing(cache.repack(page).map(drop)),
        Call::Clear => {
            cache.clear();
            Ok(None)
        }
        Call::Reserve(many) => nothing(cache.reserve(many)),
        Call::ReserveSlots(many) => nothing(cache.reserve_slots(many)),
        Call::ReserveChanges(many) => nothing(cache.reserve_changes(many)),
    }
}

fn answer_below(pair: &mut Pair, call: Call) -> Result<Told, CacheError> {
    let nothing =
        |done: Result<(), library::CacheError>| done.map(|()| None).map_err(CacheError::from);
    let (cache, changes) = (&mut pair.below, &mut pair.changes);
    match call {
        Call::Insert(key, width, height) => {
            let inserted = cache.insert(key, values::size2(width, height), changes);
            Ok(inserted?.place().and_then(told_below))
        }
        Call::Get(key) => Ok(cache.get(&key).and_then(told_below)),
        Call::Remove(key) => Ok(cache.remove(&key).and_then(told_below)),
        Call::BeginFrame => {
            cache.begin_frame();
            Ok(None)
        }
        Call::Trim(frames) => nothing(cache.trim(frames, changes)),
        Call::Shrink => nothing(cache.shrink(changes)),
        Call::Repack(page) => nothing(cache.repack(page, changes).map(drop)),
        Call::Clear => {
            cache.clear();
            Ok(None)
        }
        Call::Reserve(many) => nothing(cache.reserve(many)),
        Call::ReserveSlots(many) => nothing(cache.reserve_slots(many)),
        Call::ReserveChanges(many) => nothing(
            changes
                .reserve(many)
                .map_err(|_| library::CacheError::Memory),
        ),
    }
}

impl Pair {
    fn new() -> Pair {
        let options = library::CacheOptions {
            page: values::size2(16, 16),
            largest_page: values::size2(32, 32),
            pages: 2,
            padding: 0,
            atlas: values::DEFAULT_OPTIONS,
        };
        Pair {
            ours: TextureCache::new(&two_pages()).unwrap(),
            below: library::TextureCache::new(Global, options).unwrap(),
            changes: LibraryVec::new(Global),
            added: Vec::new(),
        }
    }

    // Makes a call of both, with each request for memory refused in turn: both answer alike. Returns how many requests it takes.
    fn make(&mut self, call: Call) -> usize {
        for requests in 0.. {
            let before = self.changes.len();
            let theirs = granting(requests, || answer_below(self, call));
            let ours = granting(requests, || answer(&mut self.ours, call));
            assert_eq!(ours, theirs, "{:?} with {} requests", call, requests);
            self.added
                .extend(Some(self.changes.len() - before).filter(|added| *added > 0));
            if theirs != Err(CacheError::Memory) {
                return requests;
            }
        }
        unreachable!()
    }

    // Follows the changes of both: each drain has those of one call.
    fn drain(&mut self) {
        let mut all = self.changes.as_slice().iter();
        for added in self.added.drain(..) {
            let drained: Vec<CacheChange> = self.ours.drain_changes().collect();
            assert_eq!(drained.len(), added);
            drained
                .iter()
                .zip(&mut all)
                .for_each(|(ours, theirs)| assert_same(ours, theirs));
        }
        assert_eq!((self.ours.drain_changes().len(), all.len()), (0, 0));
        self.changes.clear();
    }
}

fn assert_same(ours: &CacheChange, theirs: &library::CacheChange<u64>) {
    use library::CacheChange as Theirs;
    let sides = |size: &values::Size| size2(size.width, size.height);
    let is_same = match (ours, theirs) {
        (
            CacheChange::PageAdded { page, size },
            Theirs::PageAdded {
                page: its,
                size: other,
            },
        )
        | (
            CacheChange::PageGrown { page, size },
            Theirs::PageGrown {
                page: its,
                size: other,
            },
        ) => (page, *size) == (its, sides(other)),
        (
            CacheChange::Evicted { key, place },
            Theirs::Evicted {
                key: its,
                place: other,
            },
        ) => (key, told(*place)) == (its, told_below(*other)),
        (
            CacheChange::Moved { key, from, to },
            Theirs::Moved {
                key: its,
                from: old,
                to: new,
            },
        ) => (key, told(*from), told(*to)) == (its, told_below(*old), told_below(*new)),
        (CacheChange::PageRemoved { page }, Theirs::PageRemoved { page: its }) => page == its,
        _ => false,
    };
    assert!(is_same, "{:?} {:?}", ours, theirs);
}

fn next_call(random: &mut Random) -> Call {
    let key = random.below(60);
    let many = random.below(40);
    match random.below(100) {
        0..=64 => Call::Insert(key, (key % 7) as i32 * 2, (key % 5) as i32 * 3),
        65..=72 => Call::Get(key),
        73..=77 => Call::Remove(key),
        78..=87 => Call::BeginFrame,
        88..=89 => Call::Trim(random.below(6)),
        90..=91 => Call::Shrink,
        92..=93 => Call::Repack(random.below(3) as u32),
        94 => Call::Clear,
        95..=96 => Call::Reserve(many as usize),
        97 => Call::ReserveSlots(many as u32),
        _ => Call::ReserveChanges(many as usize),
    }
}

// Random calls, whose changes wait for a while.
#[test]
fn memory_is_asked_for_where_the_call_below_asks() {
    let (mut asked, mut unasked) = (0, 0);
    for seed in 1..=20 {
        let (mut random, mut pair) = (Random(seed << 32 | 0x7f4a_7c15), Pair::new());
        for _ in 0..400 {
            let requests = pair.make(next_call(&mut random));
            *(if requests > 0 {
                &mut asked
            } else {
                &mut unasked
            }) += 1;
            if random.below(30) == 0 {
                pair.drain();
            }
        }
        pair.drain();
    }
    assert!(asked > 500 && unasked > 5000, "{} {}", asked, unasked);
}

// Each insertion of a new key adds a page, so that many calls have changes that wait; the key that is held asks for no memory.
#[test]
fn a_held_key_asks_for_no_memory_whatever_waits() {
    let options = CacheOptions {
        pages: 40,
        ..CacheOptions::new(size2(16, 16))
    };
    let mut cache = TextureCache::new(&options).unwrap();
    for key in 0..40_u64 {
        let place = cache.insert(key, size2(16, 16)).unwrap().place().unwrap();
        let held = granting(0, || cache.insert(key, size2(16, 16)));
        assert_eq!(held, Ok(Inserted::Held(place)), "{}", key);
        assert_eq!(
            granting(0, || cache.insert(key, size2(16, 15))),
            Err(CacheError::OtherSize)
        );
        assert_eq!(
            granting(0, || cache.insert(99, size2(17, 1))),
            Ok(Inserted::NeverFits)
        );
        assert_eq!(granting(0, || cache.repack(99)), Ok(false));
    }
    for page in 0..40 {
        let size = size2(16, 16);
        assert!(granting(0, || cache
            .drain_changes()
            .eq([CacheChange::PageAdded { page, size }])));
    }
}

// Once the three reserves were taken, and every page is there and at its largest, no insertion is refused, whatever it evicts.
#[test]
fn insertions_ask_for_no_memory_after_the_three_reserves() {
    let (mut cache, mut random) = (TextureCache::new(&two_pages()).unwrap(), Random(7));
    for key in 0..2_u64 {
        let _ = cache.insert(key, size2(32, 32)).unwrap();
    }
    assert_eq!(
        [0, 1].map(|page| cache.page_size(page)),
        [Some(size2(32, 32)); 2]
    );
    let mut next = 2;
    for n in [1, 2, 7, 40, 100] {
        for _ in 0..20 {
            cache.reserve(n).unwrap();
            cache.reserve_slots(4 * n as u32).unwrap();
            cache.reserve_changes(cache.len() + n).unwrap();
            granting(0, || {
                for _ in 0..n {
                    next += 1;
                    let size = size2(random.below(12) as i32, 1 + random.below(12) as i32);
                    assert!(cache.insert(next, size).is_ok());
                    match random.below(12) {
                        0 => drop(cache.remove(next - 1)),
                        1 => cache.trim(2).unwrap(),
                        2 => cache.begin_frame(),
                        3 => drop(cache.get(next - 2)),
                        _ => {}
                    }
                }
            });
            while granting(0, || cache.drain_changes().len()) > 0 {}
        }
    }
    assert!(cache.statistics().evictions > 1000);
}

// A trim needs room for a change of each key, a shrinking for one of each page.
#[test]
fn trims_and_shrinkings_ask_for_no_memory_where_changes_have_room() {
    let options = CacheOptions {
        pages: 3,
        ..CacheOptions::new(size2(16, 16))
    };
    let mut cache = TextureCache::new(&options).unwrap();
    for key in 0..3_u64 {
        let _ = cache.insert(key, size2(16, 16)).unwrap();
    }
    assert_eq!(granting(0, || cache.trim(1)), Err(CacheError::Memory));
    cache.reserve_changes(6).unwrap();
    assert_eq!(
        granting(0, || (cache.trim(0), cache.shrink())),
        (Ok(()), Ok(()))
    );
    let counts = [(); 6].map(|()| cache.drain_changes().len());
    assert_eq!(counts, [1, 1, 1, 3, 3, 0]);
    assert_eq!((cache.len(), cache.pages()), (0, 0));
}

#[test]
fn reserves_are_refused() {
    let mut cache = TextureCache::<u64>::new(&CacheOptions::new(size2(16, 16))).unwrap();
    assert_eq!(granting(0, || cache.reserve(1)), Err(CacheError::Memory));
    assert_eq!(
        granting(0, || cache.reserve_changes(1)),
        Err(CacheError::Memory)
    );
    assert_eq!(granting(0, || cache.reserve_slots(u32::MAX)), Ok(())); // there is no page
    let place = cache.insert(7, size2(3, 4)).unwrap().place();
    assert_eq!(
        granting(0, || cache.reserve_slots(100)),
        Err(CacheError::Memory)
    );
    assert_eq!(cache.reserve_slots(16_777_216), Err(CacheError::Slots)); // one is used
    assert_eq!(cache.reserve_changes(usize::MAX), Err(CacheError::Memory));
    assert_eq!(
        (cache.len(), cache.peek(7), cache.drain_changes().len()),
        (1, place, 1)
    );
}
