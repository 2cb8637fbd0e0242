//! Calls of a recording allocator that take no memory: each with every request for memory refused.

use test_memory::Refusing;
use wollemigo_core::guillotiere::{size2, AllocId, Rectangle};
use wollemigo_core::guillotiere_recording::{RecordingAllocator, RecordingError};
use wollemigo_support::alloc::Global;
use wollemigo_support::test::Fail;

type Session<'a> = RecordingAllocator<&'a Refusing<Global>>;

// A session of two boxes side by side; every request after it is refused.
fn begun(heap: &Refusing<Global>) -> Result<Session<'_>, RecordingError> {
    let mut session = RecordingAllocator::new(heap, size2(100, 40))?;
    session.allocate(size2(60, 40))?;
    session.allocate(size2(30, 40))?;
    heap.refuse_every();
    Ok(session)
}

// How many free rectangles are shown, and their widths together.
fn free_widths(session: &Session<'_>) -> (u32, i64) {
    let (mut count, mut widths) = (0u32, 0i64);
    session.for_each_free_rectangle(|area: &Rectangle| {
        count += 1;
        widths += i64::from(area.width());
    });
    (count, widths)
}

// The names that are shown, as digits one after another, and the widths of their rectangles together.
fn live_widths(session: &Session<'_>) -> (u32, i64) {
    let (mut names, mut widths) = (9u32, 0i64);
    session.for_each_allocated_rectangle(|name: AllocId, area: &Rectangle| {
        names = names * 10 + name.serialize();
        widths += i64::from(area.width());
    });
    (names, widths)
}

fn assert_shown(session: &Session<'_>) {
    assert_eq!(session.size(), size2(100, 40));
    assert_eq!(free_widths(session), (1, 10));
    assert_eq!(live_widths(session), (901, 90));
}

fn assert_refused(session: &mut Session<'_>) {
    for name in [2, 7, 4294967295] {
        let freed = session.deallocate(AllocId::deserialize(name));
        assert_eq!(freed, Err(RecordingError::NotLive), "{name}");
    }
}

#[test]
fn what_is_shown_and_refused_takes_no_memory() -> Result<(), Fail> {
    let heap = Refusing::new(Global);
    let mut session = begun(&heap)?;
    let requests = heap.requests();
    assert_shown(&session);
    assert_refused(&mut session);
    assert_eq!(session.finish().events().len(), 2);
    assert_eq!(heap.requests(), requests);
    Ok(())
}
