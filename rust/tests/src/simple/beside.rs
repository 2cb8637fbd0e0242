//! Rectangles that are placed beside those of an atlas.

use guillotiere_tests::tables::{rectangle, size};
use wollemigo_core::guillotiere::{
    size2, AllocId, AtlasAllocator, AtlasError, Rectangle, SimpleAtlasAllocator, Size,
};
use wollemigo_support::alloc::Global;
use wollemigo_support::test::Fail;

// A rectangle apart from all that an atlas holds live, or none; the atlas stays as it is.
fn place_beside(atlas: &AtlasAllocator, request: Size) -> Result<Option<Rectangle>, AtlasError> {
    let mut simple = SimpleAtlasAllocator::new(Global, size2(1, 1))?;
    simple.init_from_allocator(atlas)?;
    simple.allocate(request)
}

#[test]
fn a_rectangle_is_placed_beside_live_ones() -> Result<(), Fail> {
    let mut atlas = AtlasAllocator::new(Global, size2(100, 300))?;
    for _ in 0..3 {
        let granted = atlas.allocate(size((100, 100)))?;
        assert!(granted.is_some());
    }
    atlas.deallocate(AllocId::deserialize(0))?;
    atlas.deallocate(AllocId::deserialize(1))?;
    let placed = place_beside(&atlas, size((100, 150)))?;
    assert_eq!(placed, Some(rectangle((0, 0, 100, 150))));
    let placed = place_beside(&atlas, size((100, 201)))?;
    assert_eq!(placed, None);
    Ok(())
}
