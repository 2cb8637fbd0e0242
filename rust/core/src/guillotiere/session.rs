// Erased from crates/guillotiere/src/session.rt by rust/erase: don't edit.
//! Sessions: lists of calls of an atlas, and their replies.

mod simple;

use crate::atlas_allocator::AtlasAllocator;
use crate::atlas_model::{AllocId, Allocation, AllocatorOptions, AtlasError, ChangeList, Size};
pub use simple::{run_simple, SimpleCall, SimpleReply};
use wollemigo_support::alloc::{Allocator, Global};
use wollemigo_support::prelude::Vec;

/// A call of an atlas, as data.
#[derive(Clone, Copy, Debug, PartialEq, Eq)]
pub enum Call {
    /// `allocate`
    Allocate(Size),
    /// `deallocate`
    Deallocate(AllocId),
    /// `grow`, to a size of which no side is below that of the atlas.
    Grow(Size),
    /// `clear`
    Clear,
    /// `reset`, to a size that isn't empty, with valid options.
    Reset(Size, AllocatorOptions),
    /// `rearrange`
    Rearrange,
    /// `resize_and_rearrange`, to a size that isn't empty.
    ResizeAndRearrange(Size),
}

/// What a call of an atlas answers.
#[derive(Debug, PartialEq)]
pub enum Reply<A: Allocator + Copy = Global> {
    /// A request was granted.
    Allocated(Allocation),
    /// A request has no room; nothing changed.
    NoRoom,
    /// A freeing, a growth or a start is done.
    Done,
    /// A rearrangement is done.
    Changed(ChangeList<A>),
    /// The call was refused; nothing changed.
    Refused(AtlasError),
    /// The condition of the call doesn't hold; nothing changed.
    BadCall,
}

// What a call answers that gives nothing back.
#[inline]
fn done<A: Allocator + Copy>(answer: Result<(), AtlasError>) -> Reply<A> {
    match answer {
        Ok(()) => Reply::Done,
        Err(error) => Reply::Refused(error),
    }
}

// What a rearrangement answers.
#[inline]
fn changed<A: Allocator + Copy>(answer: Result<ChangeList<A>, AtlasError>) -> Reply<A> {
    match answer {
        Ok(list) => Reply::Changed(list),
        Err(error) => Reply::Refused(error),
    }
}

#[inline]
fn allocate<A: Allocator + Copy>(atlas: &mut AtlasAllocator<A>, size: Size) -> Reply<A> {
    match atlas.allocate(size) {
        Ok(Some(allocation)) => Reply::Allocated(allocation),
        Ok(None) => Reply::NoRoom,
        Err(error) => Reply::Refused(error),
    }
}

#[inline]
fn deallocate<A: Allocator + Copy>(atlas: &mut AtlasAllocator<A>, id: AllocId) -> Reply<A> {
    done(atlas.deallocate(id))
}

#[inline]
fn grow<A: Allocator + Copy>(atlas: &mut AtlasAllocator<A>, size: Size) -> Reply<A> {
    if !atlas.can_grow_to(size) {
        return Reply::BadCall;
    }
    done(atlas.grow(size))
}

#[inline]
fn reset<A: Allocator + Copy>(
    atlas: &mut AtlasAllocator<A>,
    size: Size,
    options: &AllocatorOptions,
) -> Reply<A> {
    if !size.is_positive() || !options.is_valid() {
        return Reply::BadCall;
    }
    done(atlas.reset(size, options))
}

#[inline]
fn resize<A: Allocator + Copy>(atlas: &mut AtlasAllocator<A>, size: Size) -> Reply<A> {
    if !size.is_positive() {
        return Reply::BadCall;
    }
    changed(atlas.resize_and_rearrange(size))
}

/// Makes a call of an atlas. Where the condition of the call doesn't hold it answers `BadCall`. Unless the reply says
/// that something was done, nothing changes. Slots in reserve serve it as they serve the call itself: a request uses at most 4
/// more, a growth 3, a freeing or a start none, and no memory is given back but by a rearrangement.
#[inline]
pub fn step<A: Allocator + Copy>(atlas: &mut AtlasAllocator<A>, call: &Call) -> Reply<A> {
    match call {
        Call::Allocate(size) => allocate(atlas, *size),
        Call::Deallocate(id) => deallocate(atlas, *id),
        Call::Grow(size) => grow(atlas, *size),
        Call::Clear => done(atlas.clear()),
        Call::Reset(size, options) => reset(atlas, *size, options),
        Call::Rearrange => changed(atlas.rearrange()),
        Call::ResizeAndRearrange(size) => resize(atlas, *size),
    }
}

/// Makes calls of an atlas in turn, and appends a reply for each. Room for all replies is reserved first: `Memory` is the
/// only error, it comes only where `replies` has less room, and after it atlas and replies are as before. The room of the list is
/// never given back. Each call is answered as by `step`, from what the one before it left. So after any list of calls the boxes
/// tile the atlas as leaves of one normal tree of cuts, and each reply is owed.
#[inline]
pub fn run<A: Allocator + Copy>(
    atlas: &mut AtlasAllocator<A>,
    calls: &[Call],
    replies: &mut Vec<Reply<A>, A>,
) -> Result<(), AtlasError> {
    replies.reserve(calls.len())?;
    // Its contract says that the atlas is sound.
    let _size = atlas.size();
    for call in calls {
        replies.push_reserved(step(atlas, call));
    }
    Ok(())
}
