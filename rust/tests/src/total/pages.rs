//! Calls of one of several pages.

use guillotiere_tests::tables::rectangle;
use wollemigo_core::guillotiere::{size2, AllocId, AtlasAllocator, AtlasError, Rectangle, Size};
use wollemigo_core::guillotiere_total::{pages, CallError};
use wollemigo_support::alloc::Global;
use wollemigo_support::test::Fail;

// Two pages, of 9 by 7 pixels and of 20 by 20.
fn two() -> Result<[AtlasAllocator; 2], AtlasError> {
    let first = AtlasAllocator::new(Global, size2(9, 7))?;
    let second = AtlasAllocator::new(Global, size2(20, 20))?;
    Ok([first, second])
}

fn granted(
    pages: &mut [AtlasAllocator],
    page: usize,
    size: Size,
) -> Result<Option<Rectangle>, CallError> {
    Ok(pages::allocate_on(pages, page, size)?.map(|a| a.rectangle))
}

#[test]
fn requests_name_a_page() -> Result<(), Fail> {
    let mut two = two()?;
    assert_eq!(granted(&mut two, 2, size2(1, 1)), Err(CallError::NoPage));
    assert_eq!(
        granted(&mut two, usize::MAX, size2(1, 1)),
        Err(CallError::NoPage)
    );
    assert_eq!(granted(&mut two, 0, size2(10, 1)), Ok(None));
    assert_eq!(
        granted(&mut two, 1, size2(20, 20)),
        Ok(Some(rectangle((0, 0, 20, 20))))
    );
    assert!(two[0].is_empty() && !two[1].is_empty());
    Ok(())
}

#[test]
fn freeings_name_a_page() -> Result<(), Fail> {
    let mut two = two()?;
    let whole = granted(&mut two, 1, size2(20, 20))?;
    assert!(whole.is_some());
    let id = AllocId::deserialize(0);
    let refused = Err(CallError::Refused(AtlasError::NotLive));
    assert_eq!(
        pages::deallocate_on(&mut two, 2, id),
        Err(CallError::NoPage)
    );
    assert_eq!(pages::deallocate_on(&mut two, 0, id), refused);
    assert_eq!(pages::deallocate_on(&mut two, 1, id), Ok(()));
    assert!(two[1].is_empty());
    Ok(())
}
