//! Memory for slots that is taken before they are used.

use test_memory::Refusing;
use wollemigo_core::guillotiere::{size2, AllocId, AtlasAllocator, AtlasError, DEFAULT_OPTIONS};
use wollemigo_support::alloc::Global;
use wollemigo_support::test::Fail;

type Atlas<'a> = AtlasAllocator<&'a Refusing<Global>>;

fn created(heap: &Refusing<Global>) -> Result<Atlas<'_>, AtlasError> {
    AtlasAllocator::new(heap, size2(100, 100))
}

// The id of a corner, which takes four slots.
fn corner(atlas: &mut Atlas<'_>) -> Result<Option<u32>, AtlasError> {
    let granted = atlas.allocate(size2(20, 60))?;
    Ok(granted.map(|a| a.id.serialize()))
}

fn used_and_kept(atlas: &Atlas<'_>) -> (u32, u32) {
    let slots = atlas.slots();
    (slots.used, slots.kept)
}

#[test]
fn reserved_slots_need_no_memory() -> Result<(), Fail> {
    let heap = Refusing::new(Global);
    let mut atlas = created(&heap)?;
    atlas.reserve(4)?;
    heap.refuse_every();
    assert_eq!(corner(&mut atlas), Ok(Some(3)));
    atlas.deallocate(AllocId::deserialize(3))?;
    assert_eq!(corner(&mut atlas), Ok(Some(16777219)));
    assert_eq!(used_and_kept(&atlas), (5, 5));
    Ok(())
}

#[test]
fn a_reserve_outlasts_a_clearing() -> Result<(), Fail> {
    let heap = Refusing::new(Global);
    let mut atlas = created(&heap)?;
    atlas.reserve(4)?;
    atlas.clear()?;
    heap.refuse_every();
    assert_eq!(atlas.reserve(4), Ok(()));
    assert_eq!(corner(&mut atlas), Ok(Some(3)));
    Ok(())
}

#[test]
fn a_refused_reserve_changes_nothing() -> Result<(), Fail> {
    let heap = Refusing::new(Global);
    let mut atlas = created(&heap)?;
    heap.refuse_every();
    assert_eq!(atlas.reserve(4), Err(AtlasError::Memory));
    assert_eq!(corner(&mut atlas), Err(AtlasError::Memory));
    assert_eq!(used_and_kept(&atlas), (1, 1));
    heap.refuse_nth(0);
    assert_eq!(corner(&mut atlas), Ok(Some(3)));
    Ok(())
}

#[test]
fn a_reserve_stays_within_the_limit() -> Result<(), Fail> {
    let heap = Refusing::new(Global);
    let mut atlas = AtlasAllocator::with_slot_limit(&heap, size2(100, 100), &DEFAULT_OPTIONS, 5)?;
    assert_eq!(atlas.reserve(5), Err(AtlasError::Slots));
    assert_eq!(atlas.reserve(4), Ok(()));
    assert_eq!(corner(&mut atlas), Ok(Some(3)));
    assert_eq!(atlas.reserve(0), Ok(()));
    assert_eq!(atlas.reserve(4294967295), Err(AtlasError::Slots));
    Ok(())
}
