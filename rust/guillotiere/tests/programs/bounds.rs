//! What a program asks of the types beside their calls: bounds of its own, statics, threads, function pointers, copies, panics that are
//! caught.
use guillotiere::*;
use std::cell::RefCell;
use std::ops::Index;
use std::panic::{catch_unwind, AssertUnwindSafe};
use std::sync::Mutex;

static SHARED: Mutex<Option<AtlasAllocator>> = Mutex::new(None);

thread_local! {
    static OWN: RefCell<AtlasAllocator> = RefCell::new(AtlasAllocator::new(size2(32, 32)));
}

fn width_of<T: Index<AllocId, Output = Rectangle>>(atlas: &T, id: AllocId) -> i32 {
    atlas[id].size().width
}

#[test]
fn an_atlas_is_indexed_by_a_bound() {
    let mut atlas = AtlasAllocator::new(size2(32, 32));
    let granted = atlas.allocate(size2(7, 5)).unwrap();
    assert_eq!(width_of(&atlas, granted.id), 7);
}

#[test]
fn an_atlas_is_shared_by_threads() {
    *SHARED.lock().unwrap() = Some(AtlasAllocator::new(size2(64, 64)));
    let threads: Vec<_> = (0..4)
        .map(|_| {
            std::thread::spawn(|| {
                let mut held = SHARED.lock().unwrap();
                let granted = held.as_mut().unwrap().allocate(size2(32, 32));
                OWN.with(|own| own.borrow_mut().allocate(size2(32, 32)).is_some())
                    && granted.is_some()
            })
        })
        .collect();
    assert!(threads.into_iter().all(|thread| thread.join().unwrap()));
    let held = SHARED.lock().unwrap().take().unwrap();
    let mut free = 0;
    held.for_each_free_rectangle(|_| free += 1);
    assert_eq!(free, 0);
}

#[test]
fn calls_are_function_pointers() {
    let make: fn(Size) -> AtlasAllocator = AtlasAllocator::new;
    let ask: fn(&mut AtlasAllocator, Size) -> Option<Allocation> = AtlasAllocator::allocate;
    let free: fn(&mut AtlasAllocator, AllocId) = AtlasAllocator::deallocate;
    let mut atlas = make(size2(9, 9));
    let granted = ask(&mut atlas, size2(9, 9)).unwrap();
    free(&mut atlas, granted.id);
    assert!(atlas.is_empty());
}

#[test]
fn copies_go_on_by_themselves() {
    let mut first = AtlasAllocator::new(size2(32, 32));
    let granted = first.allocate(size2(32, 16)).unwrap();
    let mut all = vec![first; 8];
    for (number, atlas) in all.iter_mut().enumerate() {
        assert_eq!(atlas[granted.id], granted.rectangle);
        if number % 2 == 0 {
            atlas.deallocate(granted.id);
        }
    }
    let empty: Vec<bool> = all.iter().map(AtlasAllocator::is_empty).collect();
    assert_eq!(empty, [true, false, true, false, true, false, true, false]);
}

#[test]
fn an_atlas_outlives_a_panic() {
    let mut atlas = AtlasAllocator::new(size2(32, 32));
    let granted = atlas.allocate(size2(32, 16)).unwrap();
    let shrinks = catch_unwind(AssertUnwindSafe(|| atlas.grow(size2(16, 32))));
    let unknown = catch_unwind(AssertUnwindSafe(|| {
        atlas.deallocate(AllocId::deserialize(77))
    }));
    assert!(shrinks.is_err() && unknown.is_err());
    assert_eq!(atlas[granted.id], granted.rectangle);
    atlas.deallocate(granted.id);
    assert!(atlas.is_empty());
}
