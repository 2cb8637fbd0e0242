//! What an allocator takes on the heap while it has few slots, and once it has a ninth one.

use core::cell::Cell;
use wollemigo_core::guillotiere::{size2, AtlasAllocator, SimpleAtlasAllocator};
use wollemigo_support::alloc::{AllocError, Allocator};
use wollemigo_support::test::Fail;

// Grants each request, and counts how many there were and what is held.
#[derive(Debug, Default, PartialEq)]
struct Counted {
    requests: Cell<usize>,
    bytes: Cell<usize>,
}

impl Allocator for Counted {
    fn ask(&self, bytes: usize, _alignment: usize) -> Result<(), AllocError> {
        self.requests.set(self.requests.get() + 1);
        self.bytes.set(self.bytes.get() + bytes);
        Ok(())
    }

    fn give_back(&self, bytes: usize, _alignment: usize) {
        self.bytes.set(self.bytes.get() - bytes);
    }
}

const SLOT: usize = 44;
const TABLE: usize = 10_816 + 840;

#[test]
fn a_table_comes_with_a_ninth_slot() -> Result<(), Fail> {
    let heap = Counted::default();
    let mut atlas = AtlasAllocator::new(&heap, size2(1024, 1024))?;
    assert_eq!((heap.requests.get(), heap.bytes.get()), (1, SLOT));
    let mut ids = Vec::new();
    while atlas.slots().kept <= 8 {
        ids.extend(atlas.allocate(size2(20, 60))?.map(|granted| granted.id));
        let expected = if atlas.slots().kept <= 8 {
            8 * SLOT
        } else {
            16 * SLOT + TABLE
        };
        assert_eq!(heap.bytes.get(), expected, "{} boxes", ids.len());
    }
    assert!(ids.len() > 1);
    let requests = heap.requests.get();
    for id in ids {
        atlas.deallocate(id)?;
    }
    atlas.clear()?;
    assert_eq!(heap.requests.get(), requests);
    drop(atlas);
    assert_eq!(heap.bytes.get(), 0);
    Ok(())
}

#[test]
fn a_copy_takes_what_it_holds() -> Result<(), Fail> {
    let heap = Counted::default();
    let mut atlas = AtlasAllocator::new(&heap, size2(1024, 1024))?;
    let granted = atlas.allocate(size2(20, 60))?.map(|granted| granted.id);
    let before = heap.bytes.get();
    let mut copy = atlas.clone()?;
    assert_eq!(heap.bytes.get() - before, atlas.slots().kept as usize * SLOT);
    if let Some(id) = granted {
        copy.deallocate(id)?;
    }
    assert!(copy.is_empty());
    assert!(copy.allocate(size2(1024, 1024))?.is_some());
    assert!(!atlas.is_empty());
    Ok(())
}

#[test]
fn a_simple_table_comes_with_a_ninth_entry() -> Result<(), Fail> {
    let heap = Counted::default();
    let mut simple = SimpleAtlasAllocator::new(&heap, size2(1024, 1024))?;
    let entry = heap.bytes.get();
    assert!(entry <= 32);
    simple.allocate(size2(20, 60))?;
    assert_eq!(heap.bytes.get(), 8 * entry);
    for side in 21..40 {
        simple.allocate(size2(side, 60 + side))?;
    }
    assert!(heap.bytes.get() > 8 * entry + TABLE);
    drop(simple);
    assert_eq!(heap.bytes.get(), 0);
    Ok(())
}
