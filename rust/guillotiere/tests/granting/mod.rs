//! Memory that can be refused, for all that a test's thread does.
use std::alloc::{GlobalAlloc, Layout, System};
use std::cell::Cell;
use std::ptr::null_mut;

thread_local! {
    // How many more requests of this thread are granted.
    static GRANTED: Cell<usize> = const { Cell::new(usize::MAX) };
}

struct Refusing;

fn is_granted() -> bool {
    GRANTED.with(|left| {
        let more = left.get();
        if more != usize::MAX {
            left.set(more.saturating_sub(1));
        }
        more > 0
    })
}

// SAFETY: `System` does it all; null is the answer of an allocator that has no memory.
unsafe impl GlobalAlloc for Refusing {
    unsafe fn alloc(&self, layout: Layout) -> *mut u8 {
        if is_granted() {
            System.alloc(layout)
        } else {
            null_mut()
        }
    }

    unsafe fn dealloc(&self, block: *mut u8, layout: Layout) {
        System.dealloc(block, layout)
    }
}

#[global_allocator]
static ALLOCATOR: Refusing = Refusing;

/// A call with so many requests granted, and no more.
pub fn granting<T>(requests: usize, call: impl FnOnce() -> T) -> T {
    GRANTED.with(|left| left.set(requests));
    let answer = call();
    GRANTED.with(|left| left.set(usize::MAX));
    answer
}
