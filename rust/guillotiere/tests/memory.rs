//! What an atlas holds while it has few slots, and once it has a ninth one.
use guillotiere::*;
use std::alloc::{GlobalAlloc, Layout, System};
use std::cell::Cell;

thread_local! {
    // Below 0 where the thread gave back what another one took.
    static HELD: Cell<isize> = const { Cell::new(0) };
}

struct Counting;

// SAFETY: `System` does it all.
unsafe impl GlobalAlloc for Counting {
    unsafe fn alloc(&self, layout: Layout) -> *mut u8 {
        HELD.with(|held| held.set(held.get() + layout.size() as isize));
        System.alloc(layout)
    }

    unsafe fn dealloc(&self, block: *mut u8, layout: Layout) {
        HELD.with(|held| held.set(held.get() - layout.size() as isize));
        System.dealloc(block, layout)
    }
}

#[global_allocator]
static ALLOCATOR: Counting = Counting;

fn held() -> isize {
    HELD.with(Cell::get)
}

const SLOT: isize = 44;
// The rectangles of 64 slots, 16 bytes each, and a list of up to four such blocks.
const BLOCKS: isize = 64 * 16 + 4 * std::mem::size_of::<usize>() as isize;
// A head of 4 bytes for each of 52 x 52 lists, and a set of 64 bits for each row, for each column, and for the rows.
const TABLE: isize = 52 * 52 * 4 + (52 + 52 + 1) * 8;

#[test]
fn a_table_comes_with_a_ninth_slot() {
    let before = held();
    let mut atlas = AtlasAllocator::new(size2(1024, 1024));
    assert_eq!(held() - before, SLOT);
    while atlas.slots().kept <= 8 {
        let taken = if atlas.slots().kept == 1 {
            SLOT
        } else {
            8 * SLOT + BLOCKS
        };
        assert_eq!(held() - before, taken);
        assert!(atlas.allocate(size2(20, 60)).is_some());
    }
    assert_eq!(held() - before, 16 * SLOT + BLOCKS + TABLE);
    drop(atlas);
    assert_eq!(held(), before);
}

#[test]
fn a_simple_atlas_takes_its_entries() {
    let before = held();
    let mut simple = SimpleAtlasAllocator::new(size2(1024, 1024));
    assert_eq!(held() - before, 32);
    assert!(simple.allocate(size2(20, 60)).is_some());
    assert_eq!(held() - before, 8 * 32);
}

#[test]
fn pages_take_nothing_before_their_first_box() {
    let before = held();
    let mut pages = PagedAtlas::new(size2(1024, 1024), 4);
    assert_eq!(held(), before);
    assert!(pages.allocate(size2(20, 60)).is_some());
    assert!(held() > before);
}
