//! What may be asked of an atlas before a call.

use guillotiere_tests::tables::{size, ALIGNED_TO_8};
use test_memory::Refusing;
use wollemigo_core::guillotiere::{size2, AtlasAllocator, AtlasError, DEFAULT_OPTIONS};
use wollemigo_support::alloc::Global;
use wollemigo_support::test::Fail;

type Atlas<'a> = AtlasAllocator<&'a Refusing<Global>>;

// 100 by 100, with one corner granted: 80 by 100 is free beside it, and 20 by 40 below.
fn with_a_corner(heap: &Refusing<Global>) -> Result<Atlas<'_>, AtlasError> {
    let mut atlas = AtlasAllocator::new(heap, size2(100, 100))?;
    let _corner = atlas.allocate(size2(20, 60))?;
    Ok(atlas)
}

fn aligned_to_8(heap: &Refusing<Global>) -> Result<Atlas<'_>, AtlasError> {
    AtlasAllocator::with_options(heap, size2(100, 100), &ALIGNED_TO_8)
}

#[test]
fn options_are_told() -> Result<(), Fail> {
    let heap = Refusing::new(Global);
    assert_eq!(aligned_to_8(&heap)?.options(), ALIGNED_TO_8);
    assert_eq!(with_a_corner(&heap)?.options(), DEFAULT_OPTIONS);
    Ok(())
}

#[test]
fn no_side_may_shrink() -> Result<(), Fail> {
    let heap = Refusing::new(Global);
    let atlas = with_a_corner(&heap)?;
    for sides in [(100, 100), (101, 100), (100, 2147483647)] {
        assert!(atlas.can_grow_to(size(sides)));
    }
    for sides in [(99, 200), (200, 99), (0, 0), (-2147483648, 200)] {
        assert!(!atlas.can_grow_to(size(sides)));
    }
    Ok(())
}

#[test]
fn a_request_fits_one_free_box() -> Result<(), Fail> {
    let heap = Refusing::new(Global);
    let atlas = with_a_corner(&heap)?;
    heap.refuse_every();
    for sides in [(1, 1), (80, 100), (20, 40), (60, 60)] {
        assert!(atlas.can_fit(size(sides)));
    }
    for sides in [(81, 1), (100, 40), (0, 5), (5, -1), (1, 2147483647)] {
        assert!(!atlas.can_fit(size(sides)));
    }
    Ok(())
}

#[test]
fn a_request_fits_as_it_is_rounded_up() -> Result<(), Fail> {
    let heap = Refusing::new(Global);
    let atlas = aligned_to_8(&heap)?;
    for sides in [(96, 90), (89, 96)] {
        assert!(atlas.can_fit(size(sides)));
    }
    for sides in [(97, 1), (1, 97)] {
        assert!(!atlas.can_fit(size(sides)));
    }
    Ok(())
}
