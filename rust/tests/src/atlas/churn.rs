//! Long sessions of grants and freeings.

use guillotiere_tests::tables::rectangle;
use wollemigo_core::guillotiere::{size2, AllocId, AtlasAllocator, AtlasError};
use wollemigo_support::alloc::Global;
use wollemigo_support::test::Fail;

#[test]
fn generations_go_round_at_256() -> Result<(), Fail> {
    let mut atlas = AtlasAllocator::new(Global, size2(100, 100))?;
    for turn in 0..600 {
        let want = AllocId::deserialize(3 + (turn % 256) * 16777216);
        let granted = atlas.allocate(size2(20, 60))?;
        assert_eq!(granted.map(|a| a.id), Some(want), "at {turn}");
        atlas.deallocate(want)?;
    }
    Ok(())
}

// How many unit boxes the strip below is cut into.
const BOXES: u32 = 400000;

// A strip that is cut into unit boxes from its top down.
fn strip() -> Result<AtlasAllocator, AtlasError> {
    let mut atlas = AtlasAllocator::new(Global, size2(1, 400000))?;
    for number in 0..BOXES {
        let id = atlas.allocate(size2(1, 1))?.map(|a| a.id.serialize());
        assert_eq!(id, Some(number));
    }
    assert_eq!(atlas.allocate(size2(1, 1))?, None);
    Ok(atlas)
}

fn is_one_free_strip(atlas: &AtlasAllocator) -> Result<(), AtlasError> {
    let free = atlas.free_rectangles()?;
    assert_eq!(free.as_slice(), [rectangle((0, 0, 1, 400000))]);
    assert!(atlas.is_empty());
    let slots = atlas.slots();
    assert_eq!((slots.used, slots.kept), (1, BOXES));
    Ok(())
}

#[test]
fn many_boxes_are_freed_one_by_one() -> Result<(), Fail> {
    let mut atlas = strip()?;
    for half in 0..BOXES / 2 {
        atlas.deallocate(AllocId::deserialize(2 * half))?;
    }
    for half in 0..BOXES / 2 {
        atlas.deallocate(AllocId::deserialize(2 * half + 1))?;
    }
    is_one_free_strip(&atlas)?;
    Ok(())
}

#[test]
fn many_boxes_are_freed_at_once_in_any_order() -> Result<(), Fail> {
    let mut atlas = strip()?;
    let mut ids = Vec::new();
    for step in 0..u64::from(BOXES) {
        // 123457 has no factor in common with the number of boxes, so each box comes once.
        let number = (step * 123457) % u64::from(BOXES);
        ids.push(AllocId::deserialize(number as u32));
    }
    atlas.deallocate_all(&ids)?;
    is_one_free_strip(&atlas)?;
    Ok(())
}
