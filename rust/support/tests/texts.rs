//! Texts, boxes and the macros.

mod common;

use common::refuse_in_turn;
use std::rc::Rc;
use test_memory::Refusing;
use wollemigo_support::alloc::{AllocError, AllocFailed, Global};
use wollemigo_support::boxed::Box;
use wollemigo_support::string::String;
use wollemigo_support::test::Fail;
use wollemigo_support::vec::Vec;

#[test]
fn a_text_grows_as_a_list_of_bytes() {
    let mut text = String::new(Global);
    assert_eq!((text.as_str(), text.capacity()), ("", 0));
    for (added, expected) in [
        ("a", 8),
        ("bcdefgh", 8),
        ("i", 16),
        ("a text of seventeen", 32),
    ] {
        text.push_str(added).unwrap();
        assert_eq!(text.capacity(), expected);
    }
    text.push('é').unwrap();
    assert!(text == "abcdefghia text of seventeené" && text.as_bytes().len() == text.len());
    text.clear();
    assert_eq!((text.is_empty(), text.capacity()), (true, 32));
}

#[test]
fn a_refusal_leaves_a_text() {
    let heap = Refusing::new(Global);
    let mut text = String::from_str(&heap, "as it was").unwrap();
    heap.refuse_every();
    assert_eq!(text.push_str(" before all this"), Err(AllocError));
    assert_eq!(text.reserve(usize::MAX), Err(AllocError));
    assert!(text == "as it was" && text.starts_with("as"));
    assert_eq!(
        wollemigo_support::format!(in &heap; "{}", 1).map(drop),
        Err(AllocError)
    );
    drop(text);
    assert_eq!(heap.returned(), 1);
}

#[test]
fn text_is_made_whichever_request_is_refused() {
    refuse_in_turn(
        |heap| match wollemigo_support::format!(in heap; "{}, {:?}; {:>9}", 12345, "six", 7) {
            Ok(text) => {
                assert_eq!(text, "12345, \"six\";         7");
                0
            }
            Err(AllocError) => 1,
        },
    );
    let name = "inline";
    assert_eq!(
        wollemigo_support::format!(in Global; "{name}").unwrap(),
        "inline"
    );
}

#[test]
fn lists_are_written_out() {
    let none: Vec<u8> = wollemigo_support::vec![in Global].unwrap();
    assert_eq!(none.capacity(), 0);
    assert_eq!(
        wollemigo_support::vec![in Global; 1, 2, 3].unwrap(),
        [1, 2, 3]
    );
    assert_eq!(
        wollemigo_support::vec![in Global; 7u8; 3].unwrap(),
        [7, 7, 7]
    );
    let heap = Refusing::new(Global);
    heap.refuse_every();
    assert_eq!(
        wollemigo_support::vec![in &heap; 1, 2].map(drop),
        Err(AllocFailed { value: [1, 2] })
    );
}

#[test]
fn a_box_gives_its_block_back_once() {
    let heap = Refusing::new(Global);
    let shared = Rc::new(5);
    let mut first = Box::new(&heap, Rc::clone(&shared)).unwrap();
    assert!(**first == 5 && Rc::strong_count(&shared) == 2);
    *first = Rc::new(6);
    assert_eq!(Rc::strong_count(&shared), 1);
    let second = Box::new(&heap, Rc::clone(&shared)).unwrap();
    let inner = Box::into_inner(second);
    assert_eq!((Rc::strong_count(&inner), heap.returned()), (2, 1));
    drop(first);
    assert_eq!((heap.requests(), heap.returned()), (2, 2));
    heap.refuse_every();
    assert_eq!(Box::new(&heap, 8).map(drop), Err(AllocFailed { value: 8 }));
    assert_eq!(Box::into_inner(Box::new(Global, ()).unwrap()), ());
}

#[cfg(feature = "raw")]
#[test]
#[allow(unsafe_code)]
fn a_box_is_taken_apart_and_made_whole() {
    let heap = Refusing::new(Global);
    let whole = Box::new(&heap, [7u64; 3]).unwrap();
    let (at, alloc) = Box::into_raw_with_allocator(whole);
    assert_eq!(heap.returned(), 0);
    // Safety: both came from the call above.
    let again = unsafe { Box::from_raw(alloc, at) };
    assert_eq!(*again, [7; 3]);
    drop(again);
    assert_eq!((heap.requests(), heap.returned()), (1, 1));
}

#[cfg(feature = "raw")]
#[test]
#[allow(unsafe_code)]
fn arrays_and_values_by_pointers() {
    use wollemigo_support::raw::{slice, slice_mut, spare};
    let mut numbers = [1, 2, 3];
    // Safety: the pointers are of the array, one at a time, and are read at no other length.
    unsafe {
        assert_eq!(slice(numbers.as_ptr(), 2), Some(&[1, 2][..]));
        slice_mut(numbers.as_mut_ptr(), 3).unwrap()[2] = 4;
        assert_eq!(slice::<u64>(core::ptr::null(), 0), Some(&[][..]));
        assert_eq!(
            slice_mut::<u64>(core::ptr::null_mut(), 0),
            Some(&mut [][..])
        );
        assert_eq!(slice::<u64>(core::ptr::null(), 1), None);
        assert_eq!(slice_mut::<u64>(core::ptr::null_mut(), 1), None);
        assert_eq!(spare::<[u64; 2]>(), [0, 0]);
    }
    assert_eq!(numbers, [1, 2, 4]);
}

fn fails() -> Result<(), Fail> {
    Err(AllocError)?;
    Ok(())
}

#[test]
fn a_failure_has_the_text_of_its_error() {
    assert_eq!(
        std::format!("{:?}", fails().unwrap_err()),
        "memory allocation failed"
    );
    assert_eq!(std::format!("{:?}", Fail::new("a reason")), "a reason");
    let failed = AllocFailed { value: () };
    assert_eq!(
        std::format!("{failed} {failed:?}"),
        "memory allocation failed AllocFailed { .. }"
    );
}
