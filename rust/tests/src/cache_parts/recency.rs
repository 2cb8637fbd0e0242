//! The order of entries by their use.

use crate::random::next;
use test_memory::Refusing;
use wollemigo_core::atlas_cache::recency::Recency;
use wollemigo_core::atlas_cache::CacheError;
use wollemigo_support::alloc::Global;
use wollemigo_support::test::Fail;

// The entry that so many were used after.
fn nth(recency: &Recency, place: usize) -> Option<u32> {
    let mut at = recency.newest();
    for _ in 0..place {
        at = recency.older(at?);
    }
    at
}

// The entry that so many were used before, since the oldest.
fn nth_newer(recency: &Recency, place: usize) -> Option<u32> {
    let mut at = recency.oldest();
    for _ in 0..place {
        at = recency.newer(at?);
    }
    at
}

fn three() -> Result<Recency, CacheError> {
    let mut recency = Recency::new(Global);
    for _ in 0..3 {
        recency.push()?;
    }
    Ok(recency)
}

fn shown(recency: &Recency) -> [Option<u32>; 4] {
    [
        nth(recency, 0),
        nth(recency, 1),
        nth(recency, 2),
        recency.oldest(),
    ]
}

fn touch(recency: &mut Recency, place: usize) {
    if let Some(number) = nth(recency, place) {
        recency.touch(number);
    }
}

fn remove(recency: &mut Recency, place: usize) {
    if let Some(number) = nth(recency, place) {
        recency.remove(number);
    }
}

#[test]
fn a_new_entry_comes_first() -> Result<(), Fail> {
    let recency = three()?;
    assert_eq!(shown(&recency), [Some(2), Some(1), Some(0), Some(0)]);
    assert_eq!(recency.len(), 3);
    Ok(())
}

// Entries 2, 1 and 0: after the oldest, 0, entry 1 was used, and none after 2.
#[test]
fn the_order_is_walked_back() -> Result<(), Fail> {
    let recency = three()?;
    let back = [
        nth_newer(&recency, 0),
        nth_newer(&recency, 1),
        nth_newer(&recency, 2),
    ];
    assert_eq!(back, [Some(0), Some(1), Some(2)]);
    assert_eq!(nth_newer(&recency, 3), None);
    Ok(())
}

#[test]
fn a_used_entry_comes_first() -> Result<(), Fail> {
    let mut recency = three()?;
    touch(&mut recency, 1);
    assert_eq!(shown(&recency), [Some(1), Some(2), Some(0), Some(0)]);
    touch(&mut recency, 2);
    assert_eq!(shown(&recency), [Some(0), Some(1), Some(2), Some(2)]);
    Ok(())
}

#[test]
fn a_number_comes_back() -> Result<(), Fail> {
    let mut recency = three()?;
    remove(&mut recency, 1);
    assert_eq!(shown(&recency), [Some(2), Some(0), None, Some(0)]);
    assert_eq!(recency.push()?, 1);
    assert_eq!(recency.push()?, 3);
    assert_eq!(shown(&recency), [Some(3), Some(1), Some(2), Some(0)]);
    Ok(())
}

#[test]
fn a_cleared_order_begins_again() -> Result<(), Fail> {
    let mut recency = three()?;
    recency.clear();
    assert!(recency.is_empty());
    assert_eq!(shown(&recency), [None, None, None, None]);
    assert_eq!(recency.push()?, 0);
    Ok(())
}

// Whether the ends and a place of the order are those of a plain list.
fn agrees(recency: &Recency, list: &[u32], place: usize) -> bool {
    let ends =
        recency.newest() == list.first().copied() && recency.oldest() == list.last().copied();
    ends && recency.len() == list.len() && nth(recency, place) == list.get(place).copied()
}

// One call on both: a new entry, a use or a removal. `false` if a new entry has the number of another.
fn turn(recency: &mut Recency, list: &mut Vec<u32>, word: u64) -> Result<bool, CacheError> {
    let place = ((word >> 8) % 40) as usize;
    if place >= list.len() {
        let number = recency.push()?;
        let apart = !list.contains(&number);
        list.insert(0, number);
        return Ok(apart);
    }
    let number = list.remove(place);
    if word % 4 == 0 {
        remove(recency, place);
    } else {
        touch(recency, place);
        list.insert(0, number);
    }
    Ok(true)
}

#[test]
fn long_traces_agree_with_a_plain_list() -> Result<(), Fail> {
    let mut recency = Recency::new(Global);
    let mut list = Vec::new();
    let mut state = 1;
    for _ in 0..100_000 {
        let word = next(&mut state);
        assert!(turn(&mut recency, &mut list, word)?);
        assert!(agrees(&recency, &list, (word >> 32) as usize % 40));
    }
    Ok(())
}

#[test]
fn a_refusal_changes_nothing() -> Result<(), Fail> {
    let heap = Refusing::new(Global);
    let mut recency = Recency::new(&heap);
    assert_eq!(recency.push()?, 0);
    heap.refuse_every();
    for _ in 0..100 {
        let _ = recency.push();
    }
    assert_eq!(recency.push(), Err(CacheError::Memory));
    assert_eq!(recency.oldest(), Some(0));
    Ok(())
}
