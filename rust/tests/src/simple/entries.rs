//! How many entries a simple allocator uses and keeps, and a start whose free boxes are all narrower than the
//! alignment.

use guillotiere_tests::tables::{size, Sides, ALIGNED_TO_8};
use wollemigo_core::guillotiere::{
    size2, AllocId, AtlasAllocator, AtlasError, SimpleAtlasAllocator, SlotCount,
};
use wollemigo_support::alloc::Global;
use wollemigo_support::test::Fail;

fn entries(simple: &SimpleAtlasAllocator) -> (u32, u32) {
    let SlotCount { used, kept, limit } = simple.slots();
    if limit == 4_261_412_864 {
        (used, kept)
    } else {
        (0, 0)
    }
}

fn is_granted(simple: &mut SimpleAtlasAllocator, sides: Sides) -> Result<bool, AtlasError> {
    Ok(simple.allocate(size(sides))?.is_some())
}

fn begun() -> Result<SimpleAtlasAllocator, AtlasError> {
    SimpleAtlasAllocator::new(Global, size2(100, 100))
}

// A grant in a corner leaves two boxes, one without room nothing new, one of a whole box one box fewer.
#[test]
fn entries_are_counted() -> Result<(), Fail> {
    let mut simple = begun()?;
    assert_eq!(entries(&simple), (1, 1));
    assert!(is_granted(&mut simple, (20, 60))?);
    assert_eq!(entries(&simple), (2, 2));
    assert!(!is_granted(&mut simple, (81, 1))?);
    assert_eq!(entries(&simple), (2, 2));
    assert!(is_granted(&mut simple, (20, 40))?);
    assert_eq!(entries(&simple), (1, 2));
    Ok(())
}

// An atlas of 20 by 20, aligned to 8 by 8, in which 16 by 16 are granted.
fn source() -> Result<AtlasAllocator, AtlasError> {
    let mut atlas = AtlasAllocator::with_options(Global, size2(20, 20), &ALIGNED_TO_8)?;
    let granted = atlas.allocate(size2(16, 16))?;
    assert_eq!(granted.map(|a| a.id), Some(AllocId::deserialize(2)));
    Ok(atlas)
}

fn started(source: &AtlasAllocator) -> Result<SimpleAtlasAllocator, AtlasError> {
    let mut simple = begun()?;
    simple.init_from_allocator(source)?;
    Ok(simple)
}

#[test]
fn a_start_takes_boxes_that_no_request_fits() -> Result<(), Fail> {
    let atlas = source()?;
    let mut simple = started(&atlas)?;
    assert_eq!(entries(&simple).0, 2);
    assert!(!is_granted(&mut simple, (1, 1))?);
    assert!(!simple.is_empty());
    Ok(())
}
