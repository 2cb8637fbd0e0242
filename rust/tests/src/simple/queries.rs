//! What may be asked of a simple allocator before a call.

use guillotiere_tests::tables::{size, ALIGNED_TO_8};
use wollemigo_core::guillotiere::{size2, AtlasError, SimpleAtlasAllocator};
use wollemigo_support::alloc::Global;
use wollemigo_support::test::Fail;

fn aligned_to_8() -> Result<SimpleAtlasAllocator, AtlasError> {
    SimpleAtlasAllocator::with_options(Global, size2(100, 50), &ALIGNED_TO_8)
}

#[test]
fn options_are_told() -> Result<(), Fail> {
    assert_eq!(aligned_to_8()?.options(), ALIGNED_TO_8);
    Ok(())
}

#[test]
fn no_side_may_shrink() -> Result<(), Fail> {
    let simple = aligned_to_8()?;
    for sides in [(100, 50), (100, 51), (2147483647, 50)] {
        assert!(simple.can_grow_to(size(sides)));
    }
    for sides in [(99, 200), (200, 49), (0, 0), (200, -2147483648)] {
        assert!(!simple.can_grow_to(size(sides)));
    }
    Ok(())
}
