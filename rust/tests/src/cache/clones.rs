//! A copy of a cache, beside the cache and a second one that was called alike.

use crate::random::next;
use test_memory::Refusing;
use wollemigo_core::atlas_cache::entries::DefaultHasher;
use wollemigo_core::atlas_cache::{CacheOptions, Changes, TextureCache};
use wollemigo_core::guillotiere::{size2, Size, DEFAULT_OPTIONS};
use wollemigo_support::alloc::{Allocator, Global};
use wollemigo_support::test::Fail;
use wollemigo_support::vec::Vec as LibraryVec;

// How many keys a session has.
const KEYS: u64 = 40;

type Cache<A> = TextureCache<u32, DefaultHasher, A>;

fn new<A: Allocator + Copy>(alloc: A, padding: i32) -> Result<Cache<A>, Fail> {
    let options = CacheOptions {
        page: size2(16, 12),
        largest_page: size2(32, 32),
        pages: 2,
        padding,
        atlas: DEFAULT_OPTIONS,
    };
    Ok(TextureCache::with_hasher(
        alloc,
        options,
        DefaultHasher::new(),
    )?)
}

// A size whose sides are from 0 to 14 pixels.
fn drawn_size(word: u64) -> Size {
    size2(((word >> 16) % 15) as i32, ((word >> 24) % 15) as i32)
}

// One call by a random word: its answer, and the changes that it reported.
fn told<A: Allocator + Copy>(cache: &mut Cache<A>, alloc: A, word: u64) -> String {
    let key = ((word >> 8) % KEYS) as u32;
    let mut changes: Changes<u32, A> = LibraryVec::new(alloc);
    let answer = match word % 16 {
        0 => format!("{:?}", cache.begin_frame()),
        1..=4 => format!("{:?}", cache.get(&key)),
        5 => format!("{:?}", cache.remove(&key)),
        6 if (word >> 48) % 8 == 0 => format!("{:?}", cache.clear()),
        6 if (word >> 48) % 8 < 3 => {
            let keys = ((word >> 56) % 3) as usize;
            format!("{:?}", cache.end_batch(keys, &mut changes))
        }
        6 => format!("{:?}", cache.trim(1 + (word >> 56) % 3, &mut changes)),
        7 => format!(
            "{:?}",
            cache.repack(((word >> 48) % 2) as u32, &mut changes)
        ),
        8 => format!("{:?}", cache.shrink(&mut changes)),
        _ => format!("{:?}", cache.insert(key, drawn_size(word), &mut changes)),
    };
    format!("{} {:?}", answer, changes.as_slice())
}

// All that a cache answers about itself.
fn shown<A: Allocator + Copy>(cache: &Cache<A>) -> String {
    let places: Vec<_> = (0..KEYS as u32).map(|key| cache.peek(&key)).collect();
    let order = std::iter::successors(cache.newest(), |(key, _)| cache.older(key));
    let pages = (0..cache.pages()).map(|page| {
        (
            cache.page_size(page),
            cache.live_area(page),
            cache.free_area(page),
        )
    });
    let counts = (cache.statistics(), cache.numbers(), cache.len());
    format!(
        "{:?} {:?} {:?} {:?}",
        places,
        order.map(|(key, _)| key).collect::<Vec<_>>(),
        pages.collect::<Vec<_>>(),
        counts
    )
}

// What so many calls from a seed are answered, and what each leaves.
fn session<A: Allocator + Copy>(
    cache: &mut Cache<A>,
    alloc: A,
    seed: u64,
    calls: u32,
) -> Vec<(String, String)> {
    let mut state = seed;
    (0..calls)
        .map(|_| (told(cache, alloc, next(&mut state)), shown(cache)))
        .collect()
}

// The copy has a session of its own, then the cache has the same one: both are answered as the second cache is.
fn copy_goes_on(seed: u64, padding: i32) -> Result<(), Fail> {
    let (mut one, mut other) = (new(Global, padding)?, new(Global, padding)?);
    for turn in 0..20 {
        let (first, then) = (seed + 2 * turn, seed + 2 * turn + 1);
        assert_eq!(
            session(&mut one, Global, first, 100),
            session(&mut other, Global, first, 100)
        );
        let mut copy = one.clone()?;
        assert_eq!(shown(&copy), shown(&one));
        let answers = session(&mut other, Global, then, 200);
        assert!(session(&mut copy, Global, then, 200) == answers);
        assert!(session(&mut one, Global, then, 200) == answers);
        if turn % 2 == 0 {
            one = copy;
        }
    }
    Ok(())
}

#[test]
fn without_padding() -> Result<(), Fail> {
    copy_goes_on(1, 0)
}

#[test]
fn with_padding() -> Result<(), Fail> {
    copy_goes_on(1000, 1)
}

// Where `repack` of a copy evicts none, a repacking that keeps all does the same; where it would evict one, it changes nothing.
fn keeps_all(seed: u64, padding: i32) -> Result<(), Fail> {
    let mut cache = new(Global, padding)?;
    let (mut state, mut seen) = (seed, [0, 0]);
    for _ in 0..5_000 {
        let _ = told(&mut cache, Global, next(&mut state));
        let page = (next(&mut state) % 2) as u32;
        let mut copy = cache.clone()?;
        let (mut wanted, mut changes) = (LibraryVec::new(Global), LibraryVec::new(Global));
        let is_there = copy.repack(page, &mut wanted)?;
        let loses = copy.statistics().evictions > cache.statistics().evictions;
        let before = shown(&cache);
        let done = cache.repack_keeping_all(page, &mut changes)?;
        assert_eq!(done, is_there && !loses);
        if done {
            assert!(changes.as_slice() == wanted.as_slice() && shown(&cache) == shown(&copy));
        } else {
            assert!(changes.is_empty() && shown(&cache) == before);
        }
        seen[usize::from(loses)] += usize::from(is_there);
    }
    assert!(seen[0] > 100 && seen[1] > 100, "{:?}", seen);
    Ok(())
}

#[test]
fn a_repacking_keeps_all_or_does_nothing() -> Result<(), Fail> {
    keeps_all(1, 0)?;
    keeps_all(1000, 1)
}

// Each request for memory is refused in turn: the cache stays, and all memory is given back.
#[test]
fn where_memory_is_refused() -> Result<(), Fail> {
    let heap = Refusing::new(Global);
    let mut cache = new(&heap, 1)?;
    let _ = session(&mut cache, &heap, 7, 300);
    let (before, taken) = (shown(&cache), heap.requests() - heap.returned());
    for number in 1.. {
        heap.refuse_nth(number);
        let copy = cache.clone();
        assert_eq!(shown(&cache), before);
        if heap.is_done() {
            assert!(copy.is_err());
            continue;
        }
        assert_eq!(shown(&copy?), before);
        // What was refused each time was asked for, and not given back.
        assert_eq!(
            heap.requests() - heap.returned(),
            taken + u64::from(number) - 1
        );
        return Ok(());
    }
    Ok(())
}
