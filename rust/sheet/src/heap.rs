//! The program's memory. Where the system has none left, the run ends with a line and a status, and isn't aborted.
use crate::fault::ROOM;
use crate::stop;
use std::alloc::{GlobalAlloc, Layout, System};
use std::cell::Cell;
use std::collections::TryReserveError;
use std::io::{stderr, Write};
use std::sync::atomic::{AtomicBool, Ordering};
use std::sync::{Mutex, PoisonError};
use std::thread;
use std::time::Duration;

thread_local! {
    // Whether who asks can do without.
    static CAN_FAIL: Cell<bool> = const { Cell::new(false) };
    // Whether this thread ends the program.
    static ENDS: Cell<bool> = const { Cell::new(false) };
}

// Given back where there is no memory, since the end takes some: by Rust 1.63 a file's name does that is removed.
static SPARE: Mutex<Vec<u8>> = Mutex::new(Vec::new());

struct Heap;

#[global_allocator]
static HEAP: Heap = Heap;

// All is done by the system's allocator; a request that it refuses may never be answered.
unsafe impl GlobalAlloc for Heap {
    unsafe fn alloc(&self, layout: Layout) -> *mut u8 {
        granted(System.alloc(layout), layout.size())
    }

    unsafe fn alloc_zeroed(&self, layout: Layout) -> *mut u8 {
        granted(System.alloc_zeroed(layout), layout.size())
    }

    unsafe fn realloc(&self, old: *mut u8, layout: Layout, size: usize) -> *mut u8 {
        granted(System.realloc(old, layout, size), size)
    }

    unsafe fn dealloc(&self, old: *mut u8, layout: Layout) {
        System.dealloc(old, layout)
    }
}

fn granted(place: *mut u8, size: usize) -> *mut u8 {
    if place.is_null() && !CAN_FAIL.try_with(Cell::get).unwrap_or(true) {
        end(size);
    }
    place
}

// Of several threads that have no memory the first one ends the program, and the others wait for it.
fn end(size: usize) -> ! {
    static IS_ENDING: AtomicBool = AtomicBool::new(false);
    let is_own = ENDS.try_with(Cell::get).unwrap_or(true);
    while IS_ENDING.swap(true, Ordering::SeqCst) && !is_own {
        thread::sleep(Duration::from_secs(1));
    }
    if !is_own {
        let _ = ENDS.try_with(|ends| ends.set(true));
        if let Ok(mut spare) = SPARE.try_lock() {
            *spare = Vec::new();
        }
        let _ = writeln!(
            stderr(),
            "guillotiere-sheet: there is no memory for {} bytes more; with a lower --memory it is refused at once",
            size
        );
        stop::clear();
    }
    std::process::exit(ROOM.into())
}

/// Sets memory aside for an end that there is no other memory for.
pub fn set_aside() {
    *SPARE.lock().unwrap_or_else(PoisonError::into_inner) = Vec::with_capacity(1 << 16);
}

/// An empty list with room for so many, if there is memory for it.
pub fn list<T>(count: usize) -> Result<Vec<T>, TryReserveError> {
    let mut list = Vec::new();
    CAN_FAIL.with(|can| can.set(true));
    let reserved = list.try_reserve_exact(count);
    CAN_FAIL.with(|can| can.set(false));
    reserved.map(|()| list)
}

#[cfg(test)]
mod tests {
    use super::list;

    #[test]
    fn refuses() {
        assert!(list::<u8>(usize::MAX / 4).is_err());
        assert!(list::<u8>(9).unwrap().capacity() >= 9);
    }
}
