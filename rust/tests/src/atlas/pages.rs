//! Pages of a texture array.

use guillotiere_tests::tables::rectangle;
use wollemigo_core::guillotiere::pages::{allocate_on, deallocate_on, page_with_room};
use wollemigo_core::guillotiere::{size2, AllocId, AtlasAllocator, AtlasError};
use wollemigo_support::alloc::Global;
use wollemigo_support::test::Fail;

type Pages = [AtlasAllocator; 2];

// Pages of 10 by 10 pixels.
fn two_pages() -> Result<Pages, AtlasError> {
    let first = AtlasAllocator::new(Global, size2(10, 10))?;
    let second = AtlasAllocator::new(Global, size2(10, 10))?;
    Ok([first, second])
}

// The id of a box as large as a page, which starts at its origin.
fn fill(pages: &mut Pages, page: usize) -> Result<Option<AllocId>, AtlasError> {
    let granted = allocate_on(pages, page, size2(10, 10))?;
    let whole = granted.filter(|a| a.rectangle == rectangle((0, 0, 10, 10)));
    Ok(whole.map(|a| a.id))
}

// Whether a page has this id, which is then freed.
fn frees(pages: &mut Pages, page: usize, id: Option<AllocId>) -> bool {
    id.map_or(false, |id| deallocate_on(pages, page, id).is_ok())
}

fn first_with_room(pages: &Pages) -> Option<usize> {
    page_with_room(pages, size2(3, 4))
}

#[test]
fn a_full_page_is_passed() -> Result<(), Fail> {
    let mut pages = two_pages()?;
    assert_eq!(first_with_room(&pages), Some(0));
    assert!(fill(&mut pages, 0)?.is_some());
    assert_eq!(first_with_room(&pages), Some(1));
    assert!(fill(&mut pages, 0)?.is_none());
    assert!(fill(&mut pages, 1)?.is_some());
    assert!(first_with_room(&pages).is_none());
    Ok(())
}

#[test]
fn a_box_is_freed_on_its_page() -> Result<(), Fail> {
    let mut pages = two_pages()?;
    let id = fill(&mut pages, 1)?;
    assert!(!frees(&mut pages, 0, id));
    assert!(frees(&mut pages, 1, id));
    assert!(!frees(&mut pages, 1, id));
    assert!(fill(&mut pages, 1)?.is_some());
    Ok(())
}
