//! A long session: random calls of every kind, in lists of up to 50, alongside the same calls made one by one on a
//! copy.

use crate::random::{below, side};
use wollemigo_core::guillotiere::session::{run, Call, Reply};
use wollemigo_core::guillotiere::{
    size2, AllocId, Allocation, AllocatorOptions, AtlasAllocator, AtlasError, ChangeList, Size,
    DEFAULT_OPTIONS,
};
use wollemigo_support::alloc::Global;
use wollemigo_support::test::Fail;
use wollemigo_support::vec;

// An id that was live before the list of calls, or any number.
fn id(state: &mut u64, live: &[AllocId]) -> AllocId {
    let count = u16::try_from(live.len()).unwrap_or(u16::MAX);
    match live.get(usize::from(below(state, count))) {
        Some(id) if below(state, 8) != 0 => *id,
        _ => AllocId::deserialize(u32::from(below(state, 400))),
    }
}

fn options(state: &mut u64) -> AllocatorOptions {
    AllocatorOptions {
        alignment: size2(side(state, 5), side(state, 5)),
        small_size_threshold: side(state, 40),
        large_size_threshold: side(state, 200),
    }
}

// A random call; the atlas has this size.
fn call(state: &mut u64, size: Size, live: &[AllocId]) -> Call {
    match below(state, 200) {
        0 => Call::Clear,
        1..=3 => Call::Reset(size2(side(state, 300), side(state, 300)), options(state)),
        4..=7 => Call::Rearrange,
        8..=11 => Call::ResizeAndRearrange(size2(side(state, 400), side(state, 400))),
        12..=21 => Call::Grow(size2(
            size.width.saturating_add(side(state, 20)),
            size.height.saturating_add(side(state, 20)),
        )),
        22..=23 => Call::Grow(size2(side(state, 500), side(state, 500))),
        24..=99 => Call::Deallocate(id(state, live)),
        100..=109 => Call::Allocate(size2(side(state, 400), side(state, 400))),
        _ => Call::Allocate(size2(side(state, 40), side(state, 40))),
    }
}

// What the calls of an atlas answer, as replies.

fn granted(answer: Result<Option<Allocation>, AtlasError>) -> Reply {
    match answer {
        Ok(Some(allocation)) => Reply::Allocated(allocation),
        Ok(None) => Reply::NoRoom,
        Err(error) => Reply::Refused(error),
    }
}

fn done(answer: Result<(), AtlasError>) -> Reply {
    match answer {
        Ok(()) => Reply::Done,
        Err(error) => Reply::Refused(error),
    }
}

fn changed(answer: Result<ChangeList, AtlasError>) -> Reply {
    match answer {
        Ok(list) => Reply::Changed(list),
        Err(error) => Reply::Refused(error),
    }
}

fn grown(atlas: &mut AtlasAllocator, size: Size) -> Reply {
    let old = atlas.size();
    if old.width > size.width || old.height > size.height {
        return Reply::BadCall;
    }
    done(atlas.grow(size))
}

fn reset(atlas: &mut AtlasAllocator, size: Size, options: &AllocatorOptions) -> Reply {
    if size.is_empty() || !options.is_valid() {
        return Reply::BadCall;
    }
    done(atlas.reset(size, options))
}

fn resized(atlas: &mut AtlasAllocator, size: Size) -> Reply {
    if size.is_empty() {
        return Reply::BadCall;
    }
    changed(atlas.resize_and_rearrange(size))
}

// A call made by hand.
fn made(atlas: &mut AtlasAllocator, call: &Call) -> Reply {
    match call {
        Call::Allocate(size) => granted(atlas.allocate(*size)),
        Call::Deallocate(id) => done(atlas.deallocate(*id)),
        Call::Grow(size) => grown(atlas, *size),
        Call::Clear => done(atlas.clear()),
        Call::Reset(size, options) => reset(atlas, *size, options),
        Call::Rearrange => changed(atlas.rearrange()),
        Call::ResizeAndRearrange(size) => resized(atlas, *size),
    }
}

// A list of 1 to 50 calls.
fn list(state: &mut u64, atlas: &AtlasAllocator) -> Result<Vec<Call>, AtlasError> {
    let live: Vec<AllocId> = atlas.allocations()?.iter().map(|a| a.id).collect();
    let mut calls = Vec::new();
    for _ in 0..=below(state, 50) {
        calls.push(call(state, atlas.size(), &live));
    }
    Ok(calls)
}

// Both atlases look the same.
fn are_alike(atlas: &AtlasAllocator, copy: &AtlasAllocator) -> Result<(), AtlasError> {
    assert!(atlas.size() == copy.size() && atlas.slots() == copy.slots());
    assert_eq!(atlas.allocations()?, copy.allocations()?);
    assert_eq!(atlas.free_rectangles()?, copy.free_rectangles()?);
    Ok(())
}

// Makes a list of calls, and each of its calls on the copy. Returns how many there were.
fn play_list(
    state: &mut u64,
    atlas: &mut AtlasAllocator,
    copy: &mut AtlasAllocator,
) -> Result<usize, AtlasError> {
    let calls = list(state, atlas)?;
    let mut replies = vec::Vec::new(Global);
    run(atlas, &calls, &mut replies)?;
    assert_eq!(replies.len(), calls.len());
    for (call, reply) in calls.iter().zip(&replies) {
        assert_eq!(*reply, made(copy, call), "{call:?}");
    }
    Ok(calls.len())
}

#[test]
fn a_list_is_answered_as_its_calls_one_by_one() -> Result<(), Fail> {
    let mut state = 14;
    let mut atlas = AtlasAllocator::with_options(Global, size2(200, 200), &DEFAULT_OPTIONS)?;
    let mut copy = atlas.clone()?;
    let mut count = 0;
    // Each list has a call or more.
    while count < 20000 {
        count += play_list(&mut state, &mut atlas, &mut copy)?;
        are_alike(&atlas, &copy)?;
    }
    Ok(())
}
