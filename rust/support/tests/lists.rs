//! Lists: how they grow, what a refusal leaves, and a model of them.

mod common;

use common::{refuse_in_turn, requests, Random};
use test_memory::Refusing;
use wollemigo_support::alloc::{AllocError, AllocFailed, Global};
use wollemigo_support::vec::{CollectIn, Vec};

type Lent<'a> = &'a Refusing<Global>;

// The capacities that so many pushes of one item each go through.
fn capacities<T: Copy>(item: T, pushes: usize) -> std::vec::Vec<usize> {
    let mut list = Vec::new(Global);
    let mut seen = std::vec::Vec::new();
    for _ in 0..pushes {
        list.push(item).unwrap();
        if seen.last() != Some(&list.capacity()) {
            seen.push(list.capacity());
        }
    }
    seen
}

#[test]
fn grows_to_twice_as_much_from_a_least_that_its_items_say() {
    assert_eq!(capacities(0u8, 40), [8, 16, 32, 64]);
    assert_eq!(capacities(0u16, 40), [4, 8, 16, 32, 64]);
    assert_eq!(capacities([0u8; 1024], 9), [4, 8, 16]);
    assert_eq!(capacities([0u8; 1025], 5), [1, 2, 4, 8]);
}

#[test]
fn reserves_twice_as_much_or_what_is_needed() {
    for (capacity, items, additional, expected) in [
        (0, 0, 0, 0),
        (0, 0, 1, 4),
        (0, 0, 5, 5),
        (5, 0, 5, 5),
        (5, 3, 3, 10),
        (5, 5, 6, 11),
        (10, 1, 9, 10),
    ] {
        let mut list = Vec::with_capacity(Global, capacity).unwrap();
        list.resize(items, 7u32).unwrap();
        list.reserve(additional).unwrap();
        assert_eq!(list.capacity(), expected, "{capacity} {items} {additional}");
        assert_eq!(list.len(), items);
    }
}

#[test]
fn reserves_exactly_what_is_needed() {
    for (capacity, items, additional, expected) in [
        (0, 0, 0, 0),
        (0, 0, 1, 1),
        (1, 1, 7, 8),
        (5, 0, 5, 5),
        (5, 3, 3, 6),
        (10, 1, 9, 10),
    ] {
        let mut list = Vec::with_capacity(Global, capacity).unwrap();
        list.resize(items, 7u32).unwrap();
        list.reserve_exact(additional).unwrap();
        assert_eq!(list.capacity(), expected, "{capacity} {items} {additional}");
        assert_eq!(list.len(), items);
    }
    let heap = Refusing::new(Global);
    let mut list = Vec::with_capacity(&heap, 1).unwrap();
    list.push_reserved(5);
    heap.refuse_every();
    assert_eq!(list.reserve_exact(1), Err(AllocError));
    assert_eq!(list.reserve_exact(usize::MAX), Err(AllocError));
    assert_eq!(list, [5]);
    assert_eq!(list.capacity(), 1);
}

#[test]
fn asks_for_nothing_where_there_is_room() {
    let heap = Refusing::new(Global);
    let (made, mut list) = requests(&heap, || Vec::with_capacity(&heap, 6).unwrap());
    assert_eq!(made, 1);
    heap.refuse_every();
    list.push(1).unwrap();
    list.push_reserved(2);
    list.insert(0, 3).unwrap();
    list.extend_from_slice(&[4, 5]).unwrap();
    list.reserve(1).unwrap();
    list.extend([6]).unwrap();
    assert_eq!(list, [3, 1, 2, 4, 5, 6]);
    list.truncate(3);
    list.resize(6, 0).unwrap();
    assert_eq!(heap.requests(), 1);
    drop(list);
    assert_eq!(heap.returned(), 1);
}

#[test]
fn takes_no_memory_for_nothing() {
    let heap = Refusing::new(Global);
    heap.refuse_every();
    assert_eq!(
        Vec::<u8, Lent>::with_capacity(&heap, 0).unwrap().capacity(),
        0
    );
    assert!(Vec::<u8, Lent>::from_slice(&heap, &[]).unwrap().is_empty());
    assert!(Vec::<u8, Lent>::new(&heap).clone().unwrap().is_empty());
    let mut units = Vec::new(&heap);
    units.resize(1000, ()).unwrap();
    assert_eq!(units.len(), 1000);
    drop(units);
    assert_eq!((heap.requests(), heap.returned()), (0, 0));
}

#[test]
fn a_refusal_hands_the_value_back_and_leaves_the_list() {
    let heap = Refusing::new(Global);
    let mut list = Vec::from_slice(&heap, &[1u32, 2]).unwrap();
    heap.refuse_every();
    assert_eq!(list.push(3), Err(AllocFailed { value: 3 }));
    assert_eq!(list.insert(1, 4), Err(AllocFailed { value: 4 }));
    assert_eq!(list.reserve(1), Err(AllocError));
    assert_eq!(list.extend_from_slice(&[5]), Err(AllocError));
    assert_eq!(list.resize(3, 6), Err(AllocError));
    assert_eq!(list.clone().map(drop), Err(AllocError));
    let mut other = Vec::new(&heap);
    assert_eq!(other.append(&mut list), Err(AllocError));
    assert_eq!((list.as_slice(), list.capacity()), (&[1, 2][..], 2));
    assert_eq!(
        Vec::from_array(&heap, [7, 8]).map(drop),
        Err(AllocFailed { value: [7, 8] })
    );
    drop(list);
    assert_eq!(heap.returned(), 1);
}

#[test]
fn more_than_there_is_gives_an_err() {
    let heap = Refusing::new(Global);
    for capacity in [isize::MAX as usize, usize::MAX / 2, usize::MAX] {
        assert_eq!(
            Vec::<u8, Lent>::with_capacity(&heap, capacity).map(drop),
            Err(AllocError)
        );
        assert_eq!(
            Vec::<u64, Lent>::with_capacity(&heap, capacity).map(drop),
            Err(AllocError)
        );
    }
    let mut list = Vec::from_slice(&heap, &[1u8]).unwrap();
    assert_eq!(list.reserve(usize::MAX), Err(AllocError));
    assert_eq!(list, [1]);
    drop(list);
    assert_eq!(heap.returned(), heap.requests());
}

// An iterator that promises more than it has.
struct Boasting(u32);

impl Iterator for Boasting {
    type Item = u32;

    fn next(&mut self) -> Option<u32> {
        self.0 = self.0.checked_sub(1)?;
        Some(self.0)
    }

    fn size_hint(&self) -> (usize, Option<usize>) {
        (usize::MAX, None)
    }
}

#[test]
fn gathers_by_what_the_iterator_promises() {
    let heap = Refusing::new(Global);
    let (made, list) = requests(&heap, || (0..100u32).collect_in(&heap).unwrap());
    assert_eq!((made, list.len(), list.capacity()), (1, 100, 100));
    // 4 places do for the three items, after a promise that can't be kept.
    let list = Boasting(3).collect_in(&heap).unwrap();
    assert_eq!((list.as_slice(), list.capacity()), (&[2, 1, 0][..], 4));
    assert!((0..0u32).collect_in(&heap).unwrap().is_empty());
}

#[test]
fn what_came_before_a_refusal_stays_appended() {
    let heap = Refusing::new(Global);
    let mut list = Vec::from_slice(&heap, &[9]).unwrap();
    list.reserve(2).unwrap();
    let room = list.capacity() as u32 - 1;
    heap.refuse_every();
    assert_eq!(list.extend(0..100), Err(AllocError));
    assert!(list.iter().copied().eq([9].iter().copied().chain(0..room)));
}

#[test]
fn items_that_leave_give_the_block_back_at_their_end() {
    let heap = Refusing::new(Global);
    let list = Vec::from_slice(&heap, &[1, 2, 3]).unwrap();
    let mut items = list.into_iter();
    assert_eq!(
        (items.next(), items.next_back(), items.len()),
        (Some(1), Some(3), 1)
    );
    assert_eq!(heap.returned(), 0);
    drop(items);
    assert_eq!((heap.requests(), heap.returned()), (1, 1));
}

#[test]
#[should_panic(expected = "without room")]
fn a_reserved_push_without_room_panics() {
    let mut list = Vec::from_slice(Global, &[1]).unwrap();
    list.push_reserved(2);
}

#[test]
fn is_equal_to_what_has_its_items() {
    let heap = Refusing::new(Global);
    let list = Vec::from_slice(Global, &[1, 2]).unwrap();
    let lent = Vec::from_slice(&heap, &[1, 2]).unwrap();
    let slice = &[1, 2][..];
    assert!(list == lent && list == [1, 2] && list == *slice && list == slice);
    assert!(list != Vec::from_slice(Global, &[1]).unwrap() && list != [2, 1]);
    assert_eq!(std::format!("{list:?}"), "[1, 2]");
}

// One call on the list and on its model; whether memory was refused. Both are the same before and after.
fn call(list: &mut Vec<u16, Lent>, model: &mut std::vec::Vec<u16>, random: &mut Random) -> bool {
    let value = random.below(1000) as u16;
    let many = random.below(7) as usize;
    let at = random.below(model.len() as u64 + 1) as usize;
    let some = [value; 7];
    let done = match random.below(14) {
        0..=2 => list
            .push(value)
            .map_err(AllocError::from)
            .map(|()| model.push(value)),
        3 => list
            .insert(at, value)
            .map_err(AllocError::from)
            .map(|()| model.insert(at, value)),
        4 => list
            .extend_from_slice(&some[..many])
            .map(|()| model.extend_from_slice(&some[..many])),
        5 => list
            .resize(at + many, value)
            .map(|()| model.resize(at + many, value)),
        6 => list.reserve(many),
        7 => list.clone().map(|copy| *list = copy),
        other => {
            take_out(other, list, model, at);
            Ok(())
        }
    };
    assert_eq!(list.as_slice(), model.as_slice());
    assert!(list.capacity() >= list.len());
    done.is_err()
}

fn take_out(which: u64, list: &mut Vec<u16, Lent>, model: &mut std::vec::Vec<u16>, at: usize) {
    match which {
        8 if at < model.len() => assert_eq!(list.remove(at), model.remove(at)),
        9 if at < model.len() => assert_eq!(list.swap_remove(at), model.swap_remove(at)),
        10 => assert_eq!(list.pop(), model.pop()),
        11 => assert!(list.drain(at / 2..at).eq(model.drain(at / 2..at))),
        12 => {
            list.retain(|value| value % 3 != 0);
            model.retain(|value| value % 3 != 0);
        }
        13 if at < 2 => {
            list.clear();
            model.clear();
        }
        _ => {}
    }
}

#[test]
fn does_what_rusts_list_does_whichever_request_is_refused() {
    for seed in 0..20 {
        refuse_in_turn(|heap| {
            let mut random = Random::new(seed);
            let (mut list, mut model) = (Vec::new(heap), std::vec::Vec::new());
            (0..300)
                .map(|_| u64::from(call(&mut list, &mut model, &mut random)))
                .sum()
        });
    }
}
