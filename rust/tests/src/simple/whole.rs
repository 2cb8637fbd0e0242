//! Calls of the simple allocator by themselves, and those that need no memory.

use super::steps::{Row, Source, Step, ROWS};
use guillotiere_tests::tables::{rectangle, size, Sides, ALIGNED_TO_8};
use test_memory::Refusing;
use wollemigo_core::guillotiere::{
    size2, AllocId, AtlasAllocator, AtlasError, Rectangle, SimpleAtlasAllocator, DEFAULT_OPTIONS,
};
use wollemigo_support::alloc::Global;
use wollemigo_support::test::Fail;

pub type Atlas<'a> = AtlasAllocator<&'a Refusing<Global>>;

pub type Simple<'a> = SimpleAtlasAllocator<&'a Refusing<Global>>;

/// What a request is answered.
pub fn request(simple: &mut Simple<'_>, sides: Sides) -> Result<Option<Rectangle>, AtlasError> {
    simple.allocate(size(sides))
}

fn atlas_of<'a>(heap: &'a Refusing<Global>, source: &Source) -> Result<Atlas<'a>, AtlasError> {
    let whole = size(source.size);
    assert!(!whole.is_empty());
    assert!(source.options.is_valid());
    let mut atlas = AtlasAllocator::with_options(heap, whole, &source.options)?;
    for &request in source.granted {
        assert!(atlas.allocate(size(request))?.is_some());
    }
    for &id in source.freed {
        atlas.deallocate(AllocId::deserialize(id))?;
    }
    Ok(atlas)
}

fn simple_of<'a>(heap: &'a Refusing<Global>, row: &Row) -> Result<Simple<'a>, AtlasError> {
    let whole = size(row.size);
    assert!(!whole.is_empty());
    assert!(row.options.is_valid());
    if row.options == DEFAULT_OPTIONS {
        SimpleAtlasAllocator::new(heap, whole)
    } else {
        SimpleAtlasAllocator::with_options(heap, whole, &row.options)
    }
}

/// The atlas of a row; where a request for memory is refused, it is made again.
pub fn source_of<'a>(heap: &'a Refusing<Global>, row: &Row) -> Result<Atlas<'a>, AtlasError> {
    match atlas_of(heap, &row.source) {
        Err(AtlasError::Memory) => atlas_of(heap, &row.source),
        first => first,
    }
}

/// The allocator of a row; where a request for memory is refused, it is made again.
pub fn begun<'a>(heap: &'a Refusing<Global>, row: &Row) -> Result<Simple<'a>, AtlasError> {
    match simple_of(heap, row) {
        Err(AtlasError::Memory) => simple_of(heap, row),
        first => first,
    }
}

// Clears a row's allocator, of which a corner is taken, without memory.
fn clears(heap: &Refusing<Global>, row: &Row) -> Result<(), AtlasError> {
    let mut simple = begun(heap, row)?;
    let corner = request(&mut simple, (3, 4))?;
    assert_eq!(corner, Some(rectangle((0, 0, 3, 4))));
    let made = heap.requests();
    heap.refuse_every();
    simple.clear()?;
    assert_eq!(heap.requests(), made);
    assert!(simple.is_empty() && simple.size() == size((10, 10)));
    Ok(())
}

// A clearing finds room in its lists: no memory is asked for.
#[test]
fn a_clearing_asks_for_no_memory_where_its_list_has_room() -> Result<(), Fail> {
    let heap = Refusing::new(Global);
    clears(&heap, &ROWS[1])?;
    Ok(())
}

// Makes the requests of a row; where there is no room, no memory is asked for.
fn asks_where_there_is_room(heap: &Refusing<Global>, row: &Row) -> Result<(), AtlasError> {
    let mut simple = begun(heap, row)?;
    for step in row.steps {
        if let Step::Grant(sides, want) = step {
            assert_eq!(request(&mut simple, *sides)?, Some(rectangle(*want)));
        }
        if let Step::NoRoom(sides) = step {
            heap.refuse_every();
            assert_eq!(request(&mut simple, *sides), Ok(None));
            heap.refuse_nth(0);
        }
    }
    Ok(())
}

#[test]
fn where_there_is_no_room_no_memory_is_asked_for() -> Result<(), Fail> {
    let heap = Refusing::new(Global);
    for row in &ROWS[9..] {
        asks_where_there_is_room(&heap, row)?;
    }
    Ok(())
}

fn grown(heap: &Refusing<Global>) -> Result<Simple<'_>, AtlasError> {
    let mut simple = SimpleAtlasAllocator::new(heap, size2(10, 10))?;
    simple.grow(size2(20, 30))?;
    Ok(simple)
}

#[test]
fn a_growth_adds_free_boxes() -> Result<(), Fail> {
    let heap = Refusing::new(Global);
    let mut simple = grown(&heap)?;
    assert!(simple.size() == size2(20, 30) && !simple.is_empty());
    assert_eq!(
        request(&mut simple, (20, 20)),
        Ok(Some(rectangle((0, 10, 20, 30))))
    );
    Ok(())
}

fn reset(heap: &Refusing<Global>) -> Result<Simple<'_>, AtlasError> {
    let mut simple = SimpleAtlasAllocator::new(heap, size2(1, 1))?;
    simple.reset(size2(20, 20), &ALIGNED_TO_8)?;
    Ok(simple)
}

#[test]
fn a_reset_takes_other_options() -> Result<(), Fail> {
    let heap = Refusing::new(Global);
    let mut simple = reset(&heap)?;
    assert!(simple.size() == size2(20, 20) && simple.is_empty());
    assert_eq!(
        request(&mut simple, (9, 1)),
        Ok(Some(rectangle((0, 0, 16, 8))))
    );
    Ok(())
}
