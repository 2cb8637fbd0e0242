//! Places worked out by hand.

use guillotiere_tests::tables::rectangle;
use test_memory::Refusing;
use wollemigo_core::atlas_maxrects::TopmostPacker;
use wollemigo_core::atlas_model::{size2, AtlasError};
use wollemigo_support::alloc::Global;
use wollemigo_support::test::Fail;

// Beside the first box there is room for two, one below the other; then for one below all three.
#[test]
fn topmost_then_leftmost() -> Result<(), Fail> {
    let mut packer = TopmostPacker::new(Global, size2(10, 10))?;
    assert_eq!(packer.place(size2(6, 4))?, Some(rectangle((0, 0, 6, 4))));
    assert_eq!(packer.place(size2(4, 2))?, Some(rectangle((6, 0, 10, 2))));
    assert_eq!(packer.place(size2(4, 2))?, Some(rectangle((6, 2, 10, 4))));
    assert_eq!(packer.place(size2(10, 6))?, Some(rectangle((0, 4, 10, 10))));
    assert_eq!(packer.place(size2(1, 1))?, None);
    assert_eq!(packer.placed().len(), 4);
    assert_eq!(packer.size(), size2(10, 10));
    Ok(())
}

// The third box is too wide for the room beside the first, which the fourth takes.
#[test]
fn room_above_a_box_is_kept() -> Result<(), Fail> {
    let mut packer = TopmostPacker::new(Global, size2(10, 10))?;
    assert_eq!(packer.place(size2(4, 6))?, Some(rectangle((0, 0, 4, 6))));
    assert_eq!(packer.place(size2(6, 2))?, Some(rectangle((4, 0, 10, 2))));
    assert_eq!(packer.place(size2(7, 3))?, Some(rectangle((0, 6, 7, 9))));
    assert_eq!(packer.place(size2(6, 4))?, Some(rectangle((4, 2, 10, 6))));
    assert_eq!(packer.placed()[3], rectangle((4, 2, 10, 6)));
    Ok(())
}

// Empty sizes, and one that is larger than the sheet.
#[test]
fn no_place() -> Result<(), Fail> {
    let mut packer = TopmostPacker::new(Global, size2(4, 3))?;
    assert_eq!(packer.place(size2(0, 1))?, None);
    assert_eq!(packer.place(size2(1, -1))?, None);
    assert_eq!(packer.place(size2(3, 4))?, None);
    assert_eq!(packer.place(size2(4, 3))?, Some(rectangle((0, 0, 4, 3))));
    let mut empty = TopmostPacker::new(Global, size2(-1, 5))?;
    assert_eq!(empty.place(size2(1, 1))?, None);
    Ok(())
}

// Where memory is refused, the box isn't placed, and is later.
#[test]
fn memory_is_refused() -> Result<(), Fail> {
    let refusing = Refusing::new(Global);
    let mut packer = TopmostPacker::new(&refusing, size2(4, 4))?;
    refusing.refuse_every();
    assert_eq!(packer.place(size2(2, 2)), Err(AtlasError::Memory));
    assert!(packer.placed().is_empty());
    refusing.refuse_nth(0);
    assert_eq!(packer.place(size2(2, 2))?, Some(rectangle((0, 0, 2, 2))));
    Ok(())
}
