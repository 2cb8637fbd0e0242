//! Maps and sets: models of them, and what they ask for.

mod common;

use common::{refuse_in_turn, requests, Random};
use std::hash::{BuildHasher, Hash, Hasher};
use test_memory::Refusing;
use wollemigo_support::alloc::{AllocFailed, Global};
use wollemigo_support::collections::{BTreeMap, BTreeSet, HashMap};
use wollemigo_support::hash::{BuildHasherDefault, FoldHasher};

type Lent<'a> = &'a Refusing<Global>;

// A hasher by which many keys meet: few hashes, all near the end of the places.
#[derive(Clone, Copy, Debug)]
struct Meeting;

struct MeetingHasher(u64);

impl BuildHasher for Meeting {
    type Hasher = MeetingHasher;

    fn build_hasher(&self) -> MeetingHasher {
        MeetingHasher(0)
    }
}

impl Hasher for MeetingHasher {
    fn finish(&self) -> u64 {
        u64::MAX - self.0 % 3
    }

    fn write(&mut self, bytes: &[u8]) {
        self.0 = bytes
            .iter()
            .fold(self.0, |sum, byte| sum + u64::from(*byte));
    }
}

// One call on a map by hashes and on its model; whether memory was refused.
fn call<S: BuildHasher>(
    map: &mut HashMap<u16, u64, S, Lent>,
    model: &mut std::collections::HashMap<u16, u64>,
    random: &mut Random,
) -> bool {
    let key = random.below(60) as u16;
    let value = random.below(1 << 40);
    let before = map.len();
    let is_refused = match random.below(12) {
        0..=4 => match map.insert(key, value) {
            Ok(was) => {
                assert_eq!(was, model.insert(key, value));
                false
            }
            Err(failed) => {
                assert_eq!(
                    failed,
                    AllocFailed {
                        value: (key, value)
                    }
                );
                assert!(!model.contains_key(&key) && before == map.capacity());
                true
            }
        },
        5..=8 => {
            assert_eq!(map.remove(&key), model.remove(&key));
            false
        }
        9 => map.reserve(key as usize / 8).is_err(),
        10 if value % 8 == 0 => {
            map.clear();
            model.clear();
            false
        }
        _ => {
            assert_eq!(
                map.get_mut(&key).map(|place| *place = value).is_some(),
                model.contains_key(&key)
            );
            model.entry(key).and_modify(|place| *place = value);
            false
        }
    };
    assert!((0..60).all(|key| map.get(&key) == model.get(&key)));
    assert_eq!((map.len(), map.iter().count()), (model.len(), model.len()));
    is_refused
}

fn plays_as_rusts_map<S: BuildHasher + Copy>(hasher: S) {
    for seed in 0..10 {
        refuse_in_turn(|heap| {
            let mut random = Random::new(seed);
            let mut map = HashMap::with_hasher(heap, hasher);
            let mut model = std::collections::HashMap::new();
            (0..400)
                .map(|_| u64::from(call(&mut map, &mut model, &mut random)))
                .sum()
        });
    }
}

#[test]
fn does_what_rusts_map_does_whichever_request_is_refused() {
    plays_as_rusts_map(BuildHasherDefault::<FoldHasher>::new());
}

#[test]
fn does_so_where_many_keys_have_one_hash() {
    plays_as_rusts_map(Meeting);
}

#[test]
fn an_insertion_where_there_is_room_asks_for_nothing_whatever_was_removed() {
    let heap = Refusing::new(Global);
    let mut map: HashMap<u64, u64, _, Lent> = HashMap::new(&heap);
    assert_eq!(requests(&heap, || map.reserve(100)), (1, Ok(())));
    heap.refuse_every();
    let capacity = map.capacity() as u64;
    for number in 0..100_000u64 {
        map.remove(&number.wrapping_sub(capacity));
        assert_eq!(map.insert(number, number), Ok(None));
    }
    assert_eq!(map.len() as u64, capacity);
    map.clear();
    assert_eq!((map.capacity() as u64, map.get(&99_999)), (capacity, None));
    assert_eq!(heap.requests(), 1);
}

#[test]
fn a_capacity_is_three_quarters_of_a_power_of_two() {
    for (reserved, expected) in [
        (0, 0),
        (1, 3),
        (3, 3),
        (4, 6),
        (6, 6),
        (7, 12),
        (12, 12),
        (96, 96),
        (97, 192),
    ] {
        let mut map: HashMap<u8, u8> = HashMap::new(Global);
        map.reserve(reserved).unwrap();
        assert_eq!(map.capacity(), expected, "{reserved}");
    }
    let mut map: HashMap<u8, u8> = HashMap::new(Global);
    assert!(map.reserve(usize::MAX).is_err() && map.reserve(usize::MAX / 32).is_err());
    assert_eq!(map.capacity(), 0);
}

#[test]
fn maps_by_hashes_are_equal_by_their_entries() {
    let (mut one, mut other) = (HashMap::new(Global), HashMap::new(Global));
    for key in 0..20u32 {
        one.insert(key, "a").unwrap();
        other.insert(19 - key, "a").unwrap();
    }
    assert!(one == other);
    other.insert(3, "b").unwrap();
    assert!(one != other && other.get(&3) == Some(&"b"));
    let mut small = HashMap::new(Global);
    small.insert(1, 2).unwrap();
    assert_eq!(std::format!("{small:?}"), "{1: 2}");
    assert_eq!(
        (&small)
            .into_iter()
            .map(|(key, value)| key + value)
            .sum::<i32>(),
        3
    );
}

#[test]
fn hashes_of_near_keys_lie_apart() {
    let build = BuildHasherDefault::<FoldHasher>::new();
    let hash = |key: u32| {
        let mut state = build.build_hasher();
        state.write_u32(key);
        state.finish() & 0xffff
    };
    let mut seen: std::vec::Vec<u64> = (0..1000).map(hash).collect();
    seen.sort_unstable();
    seen.dedup();
    // 1000 of 65,536 at random meet some 8 times.
    assert!(seen.len() > 970, "{}", seen.len());
}

// A key that is equal to others by its first number alone.
#[derive(Clone, Copy, Debug)]
struct Named(u32, &'static str);

impl PartialEq for Named {
    fn eq(&self, other: &Named) -> bool {
        self.0 == other.0
    }
}

impl Eq for Named {}

impl PartialOrd for Named {
    fn partial_cmp(&self, other: &Named) -> Option<std::cmp::Ordering> {
        Some(self.cmp(other))
    }
}

impl Ord for Named {
    fn cmp(&self, other: &Named) -> std::cmp::Ordering {
        self.0.cmp(&other.0)
    }
}

impl Hash for Named {
    fn hash<H: Hasher>(&self, state: &mut H) {
        self.0.hash(state);
    }
}

#[test]
fn a_key_that_is_there_stays_and_asks_for_nothing() {
    let heap = Refusing::new(Global);
    let (mut hashed, mut ordered) = (HashMap::new(&heap), BTreeMap::new(&heap));
    let mut set = BTreeSet::new(&heap);
    let (first, again) = (Named(1, "first"), Named(1, "again"));
    hashed.insert(first, 'a').unwrap();
    ordered.insert(first, 'a').unwrap();
    set.insert(first).unwrap();
    heap.refuse_every();
    assert_eq!(hashed.insert(again, 'b'), Ok(Some('a')));
    assert_eq!(ordered.insert(again, 'b'), Ok(Some('a')));
    assert_eq!(set.insert(again), Ok(false));
    assert!(hashed
        .iter()
        .all(|(key, value)| (key.1, *value) == ("first", 'b')));
    assert!(ordered
        .iter()
        .all(|(key, value)| (key.1, *value) == ("first", 'b')));
    assert!(set.iter().all(|key| key.1 == "first"));
}

// One call on a map in order and on its model; whether memory was refused.
fn call_ordered(
    map: &mut BTreeMap<u16, u64, Lent>,
    model: &mut std::collections::BTreeMap<u16, u64>,
    random: &mut Random,
) -> bool {
    let key = random.below(60) as u16;
    let value = random.below(1 << 40);
    let is_refused = match random.below(10) {
        0..=4 => match map.insert(key, value) {
            Ok(was) => {
                assert_eq!(was, model.insert(key, value));
                false
            }
            Err(failed) => {
                assert!(
                    failed
                        == AllocFailed {
                            value: (key, value)
                        }
                        && !model.contains_key(&key)
                );
                true
            }
        },
        5..=7 => {
            assert_eq!(map.remove(&key), model.remove(&key));
            false
        }
        8 => map.reserve(key as usize / 8).is_err(),
        _ => {
            assert_eq!(
                map.get_mut(&key).map(|place| *place = value).is_some(),
                model.contains_key(&key)
            );
            model.entry(key).and_modify(|place| *place = value);
            false
        }
    };
    assert!(
        map.iter().eq(model.iter())
            && map.keys().eq(model.keys())
            && map.values().eq(model.values())
    );
    assert!((0..60).all(|key| map.get(&key) == model.get(&key)));
    is_refused
}

#[test]
fn does_what_rusts_ordered_map_does_whichever_request_is_refused() {
    for seed in 0..10 {
        refuse_in_turn(|heap| {
            let mut random = Random::new(seed);
            let (mut map, mut model) = (BTreeMap::new(heap), std::collections::BTreeMap::new());
            (0..400)
                .map(|_| u64::from(call_ordered(&mut map, &mut model, &mut random)))
                .sum()
        });
    }
}

#[test]
fn a_set_has_each_item_once_and_in_order() {
    refuse_in_turn(|heap| {
        let (mut set, mut model) = (BTreeSet::new(heap), std::collections::BTreeSet::new());
        let (mut random, mut refused) = (Random::new(5), 0);
        for _ in 0..300 {
            let item = random.below(40);
            match random.below(3) {
                0 => assert_eq!(set.remove(&item), model.remove(&item)),
                _ => match set.insert(item) {
                    Ok(is_new) => assert_eq!(is_new, model.insert(item)),
                    Err(AllocFailed { value }) => {
                        assert_eq!((value, model.contains(&item)), (item, false));
                        refused += 1;
                    }
                },
            }
            assert!(set.iter().eq(model.iter()) && set.contains(&item) == model.contains(&item));
        }
        refused
    });
}
