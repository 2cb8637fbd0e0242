//! Entries under their keys, in the order of their use.

use crate::random::next;
use test_memory::Refusing;
use wollemigo_core::atlas_cache::entries::{DefaultHasher, Entries, Entry, NO_PAGE};
use wollemigo_core::atlas_cache::CacheError;
use wollemigo_core::guillotiere::{point2, size2, AllocId, Rectangle};
use wollemigo_support::alloc::{Allocator, Global};
use wollemigo_support::test::Fail;

// An entry with this key, last used in this frame.
fn entry(key: u32, frame: u64) -> Entry<u32> {
    Entry {
        key,
        size: size2(8, 16),
        page: 0,
        id: AllocId::deserialize(key),
        rectangle: Rectangle {
            min: point2(0, 0),
            max: point2(10, 18),
        },
        number: 77,
        frame,
    }
}

// Adds an entry with this key, if there is none yet: its number, or that of the one that is there.
fn add<A: Allocator + Copy>(
    entries: &mut Entries<u32, DefaultHasher, A>,
    key: u32,
    frame: u64,
) -> Result<u32, CacheError> {
    match entries.find(&key) {
        Some(number) => Ok(number),
        None => entries.push(entry(key, frame)),
    }
}

// The keys 70, 71 and 72, the last one the most recently used.
fn three() -> Result<Entries<u32>, CacheError> {
    let mut entries = Entries::new(Global);
    for key in 70..73 {
        add(&mut entries, key, 1)?;
    }
    Ok(entries)
}

// The key and the frame of the entry that so many were used after.
fn nth(entries: &Entries<u32>, place: usize) -> Option<(u32, u64)> {
    let mut at = entries.newest();
    for _ in 0..place {
        at = entries.older(at?);
    }
    let held = entries.entry(at?);
    Some((held.key, held.frame))
}

// The key and the frame of the entry that was used longest ago.
fn oldest(entries: &Entries<u32>) -> Option<(u32, u64)> {
    let held = entries.entry(entries.oldest()?);
    Some((held.key, held.frame))
}

// The key of the entry that was used next after that of a key.
fn newer(entries: &Entries<u32>, key: u32) -> Option<u32> {
    let number = entries.newer(entries.find(&key)?)?;
    Some(entries.entry(number).key)
}

// The number that the entry of a key has.
fn number_of(entries: &Entries<u32>, key: u32) -> Option<u32> {
    Some(entries.entry(entries.find(&key)?).number)
}

fn shown(entries: &Entries<u32>) -> [Option<(u32, u64)>; 4] {
    [
        nth(entries, 0),
        nth(entries, 1),
        nth(entries, 2),
        oldest(entries),
    ]
}

fn touch(entries: &mut Entries<u32>, key: u32, frame: u64) {
    if let Some(number) = entries.find(&key) {
        entries.touch(number, frame);
    }
}

fn remove(entries: &mut Entries<u32>, key: u32) {
    if let Some(number) = entries.find(&key) {
        entries.remove(number);
    }
}

// An entry gets another page, id and rectangle, and is read again.
fn moved(entries: &mut Entries<u32>, key: u32, id: AllocId, x: i32) -> Option<Entry<u32>> {
    let number = entries.find(&key)?;
    let rectangle = Rectangle {
        min: point2(x, 0),
        max: point2(x, 18),
    };
    entries.move_to(number, 4, id, rectangle);
    Some(entries.entry(entries.find(&key)?))
}

#[test]
fn a_new_entry_is_found_and_comes_first() -> Result<(), Fail> {
    let entries = three()?;
    let last = Some((70, 1));
    assert_eq!(shown(&entries), [Some((72, 1)), Some((71, 1)), last, last]);
    assert_eq!(entries.find(&71), Some(1));
    assert_eq!(entries.find(&73), None);
    assert_eq!(entries.len(), 3);
    Ok(())
}

#[test]
fn the_order_is_walked_back() -> Result<(), Fail> {
    let entries = three()?;
    assert_eq!(newer(&entries, 70), Some(71));
    assert_eq!(newer(&entries, 71), Some(72));
    assert_eq!(newer(&entries, 72), None);
    Ok(())
}

// An entry is blank exactly if its page is the number that none has.
#[test]
fn a_blank_entry_is_on_no_page() {
    let on_a_page = entry(7, 1);
    let blank = Entry {
        page: NO_PAGE,
        ..on_a_page
    };
    assert!(blank.is_blank() && !on_a_page.is_blank());
}

// The key of the next entry that is to be looked at for one that lies on a page.
fn unpassed(entries: &Entries<u32>) -> Option<u32> {
    Some(entries.entry(entries.unpassed()?).key)
}

fn pass(entries: &mut Entries<u32>, key: u32) {
    if let Some(number) = entries.find(&key) {
        entries.pass(number);
    }
}

// Of the keys 1 to 4, oldest first, 1, 2 and 3 are blank. What was passed isn't met again until it is used, and stays passed when
// what was passed before it or after it is used or goes.
#[test]
fn blank_entries_are_passed_once() -> Result<(), Fail> {
    let mut entries: Entries<u32> = Entries::new(Global);
    for key in 1..5 {
        let page = if key == 4 { 0 } else { NO_PAGE };
        entries.push(Entry { page, ..entry(key, 1) })?;
    }
    assert_eq!(unpassed(&entries), Some(1));
    pass(&mut entries, 1);
    assert_eq!(unpassed(&entries), Some(2));
    pass(&mut entries, 2);
    pass(&mut entries, 3);
    assert_eq!(unpassed(&entries), Some(4));
    remove(&mut entries, 1);
    assert_eq!(unpassed(&entries), Some(4));
    touch(&mut entries, 3, 2);
    assert_eq!(unpassed(&entries), Some(4));
    remove(&mut entries, 4);
    assert_eq!(unpassed(&entries), Some(3));
    remove(&mut entries, 2);
    assert_eq!(unpassed(&entries), Some(3));
    pass(&mut entries, 3);
    assert_eq!(unpassed(&entries), None);
    touch(&mut entries, 3, 3);
    assert_eq!(unpassed(&entries), Some(3));
    entries.clear();
    assert_eq!(unpassed(&entries), None);
    Ok(())
}

#[test]
fn a_used_entry_comes_first_with_its_frame() -> Result<(), Fail> {
    let mut entries = three()?;
    touch(&mut entries, 71, 5);
    let last = Some((70, 1));
    assert_eq!(shown(&entries), [Some((71, 5)), Some((72, 1)), last, last]);
    touch(&mut entries, 70, 6);
    let last = Some((72, 1));
    assert_eq!(shown(&entries), [Some((70, 6)), Some((71, 5)), last, last]);
    Ok(())
}

#[test]
fn the_last_frame_is_kept() -> Result<(), Fail> {
    let mut entries = three()?;
    touch(&mut entries, 71, u64::MAX);
    assert_eq!(nth(&entries, 0), Some((71, u64::MAX)));
    Ok(())
}

#[test]
fn a_removed_entry_is_gone_and_its_number_comes_back() -> Result<(), Fail> {
    let mut entries = three()?;
    remove(&mut entries, 71);
    let last = Some((70, 1));
    assert_eq!(shown(&entries), [Some((72, 1)), last, None, last]);
    assert_eq!(entries.find(&71), None);
    assert_eq!(add(&mut entries, 73, 2)?, 1);
    assert_eq!(entries.find(&73), Some(1));
    assert_eq!(number_of(&entries, 73), Some(1));
    Ok(())
}

// A new number is given out only where all others are in use.
#[test]
fn numbers_are_dense() -> Result<(), Fail> {
    let mut entries = three()?;
    remove(&mut entries, 70);
    assert_eq!(add(&mut entries, 73, 2)?, 0);
    assert_eq!(entries.made(), 3);
    assert_eq!(add(&mut entries, 74, 2)?, 3);
    assert_eq!(entries.made(), 4);
    Ok(())
}

#[test]
fn a_moved_entry_keeps_its_place_in_the_order() -> Result<(), Fail> {
    let mut entries = three()?;
    let id = AllocId::deserialize(9);
    let held = moved(&mut entries, 71, id, 40);
    assert!(held.map_or(false, |e| e.page == 4
        && e.id == id
        && e.rectangle.min.x == 40
        && e.key == 71));
    assert_eq!(nth(&entries, 1), Some((71, 1)));
    Ok(())
}

#[test]
fn cleared_entries_begin_again() -> Result<(), Fail> {
    let mut entries = three()?;
    entries.clear();
    assert!(entries.is_empty() && entries.find(&70).is_none());
    assert_eq!(shown(&entries), [None, None, None, None]);
    assert_eq!(entries.made(), 0);
    assert_eq!(add(&mut entries, 72, 3)?, 0);
    Ok(())
}

// Whether the ends and a place of the order are those of a plain list.
fn agrees(entries: &Entries<u32>, list: &[(u32, u64)], place: usize) -> bool {
    let ends = nth(entries, 0) == list.first().copied() && oldest(entries) == list.last().copied();
    ends && entries.len() == list.len() && nth(entries, place) == list.get(place).copied()
}

// Where a key stands in a plain list.
fn place_of(list: &[(u32, u64)], key: u32) -> Option<usize> {
    list.iter().position(|held| held.0 == key)
}

// One call on both, with one of 60 keys: a new entry, or else a use or a removal. `false` if one of them alone has the
// key.
fn turn(
    entries: &mut Entries<u32>,
    list: &mut Vec<(u32, u64)>,
    word: u64,
    frame: u64,
) -> Result<bool, CacheError> {
    let key = ((word >> 8) % 60) as u32;
    let place = match place_of(list, key) {
        Some(place) => place,
        None => {
            let is_absent = entries.find(&key).is_none();
            add(entries, key, frame)?;
            list.insert(0, (key, frame));
            return Ok(is_absent);
        }
    };
    let is_known = entries.find(&key).is_some();
    list.remove(place);
    if word % 4 == 0 {
        remove(entries, key);
    } else {
        touch(entries, key, frame);
        list.insert(0, (key, frame));
    }
    Ok(is_known)
}

#[test]
fn long_traces_agree_with_a_plain_list() -> Result<(), Fail> {
    let mut entries = Entries::new(Global);
    let mut list = Vec::new();
    let mut state = 1;
    for frame in 0..100_000 {
        let word = next(&mut state);
        assert!(turn(&mut entries, &mut list, word, frame)?);
        assert!(agrees(&entries, &list, (word >> 32) as usize % 60));
    }
    Ok(())
}

#[test]
fn a_refusal_changes_nothing() -> Result<(), Fail> {
    let heap = Refusing::new(Global);
    let mut entries = Entries::with_hasher(&heap, DefaultHasher::new());
    assert_eq!(add(&mut entries, 70, 1)?, 0);
    heap.refuse_every();
    for key in 71..171 {
        let _ = add(&mut entries, key, 2);
    }
    assert_eq!(add(&mut entries, 171, 3), Err(CacheError::Memory));
    assert_eq!(entries.find(&171), None);
    assert_eq!(entries.oldest(), entries.find(&70));
    Ok(())
}

#[test]
fn reserved_entries_take_no_more_memory() -> Result<(), Fail> {
    let heap = Refusing::new(Global);
    let mut entries = Entries::with_hasher(&heap, DefaultHasher::new());
    entries.reserve(100)?;
    let made = heap.requests();
    for key in 0..100 {
        add(&mut entries, key, 1)?;
    }
    assert_eq!(heap.requests(), made);
    Ok(())
}
