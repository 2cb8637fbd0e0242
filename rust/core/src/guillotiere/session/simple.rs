// Erased from crates/guillotiere/src/session/simple.rt by rust/erase: don't edit.
//! Lists of calls of a simple allocator, and their replies.

use crate::atlas_allocator::AtlasAllocator;
use crate::atlas_model::{AllocatorOptions, AtlasError, Rectangle, Size};
use crate::guillotiere::simple::SimpleAtlasAllocator;
use wollemigo_support::alloc::Allocator;
use wollemigo_support::prelude::Vec;

/// A call of a simple allocator, as data.
#[derive(Clone, Copy, Debug, PartialEq, Eq)]
pub enum SimpleCall {
    /// `allocate`
    Allocate(Size),
    /// `grow`, to a size of which no side is below that of the allocator.
    Grow(Size),
    /// `clear`
    Clear,
    /// `reset`, to a size that isn't empty, with valid options.
    Reset(Size, AllocatorOptions),
    /// `init_from_allocator`, from the atlas that is passed along with the calls.
    Start,
}

/// What a call of a simple allocator answers.
#[derive(Clone, Copy, Debug, PartialEq, Eq)]
pub enum SimpleReply {
    /// A request was granted this rectangle.
    Granted(Rectangle),
    /// A request has no room; nothing changed.
    NoRoom,
    /// A growth, a clearing, a reset or a start is done.
    Done,
    /// The call was refused; nothing changed.
    Refused(AtlasError),
    /// The condition of the call doesn't hold; nothing changed.
    BadCall,
}

// What a call answers that gives nothing back.
#[inline]
fn done(answer: Result<(), AtlasError>) -> SimpleReply {
    match answer {
        Ok(()) => SimpleReply::Done,
        Err(error) => SimpleReply::Refused(error),
    }
}

#[inline]
fn allocate<A: Allocator + Copy>(simple: &mut SimpleAtlasAllocator<A>, size: Size) -> SimpleReply {
    match simple.allocate(size) {
        Ok(Some(rectangle)) => SimpleReply::Granted(rectangle),
        Ok(None) => SimpleReply::NoRoom,
        Err(error) => SimpleReply::Refused(error),
    }
}

#[inline]
fn grow<A: Allocator + Copy>(simple: &mut SimpleAtlasAllocator<A>, size: Size) -> SimpleReply {
    if !simple.can_grow_to(size) {
        return SimpleReply::BadCall;
    }
    done(simple.grow(size))
}

#[inline]
fn reset<A: Allocator + Copy>(
    simple: &mut SimpleAtlasAllocator<A>,
    size: Size,
    options: &AllocatorOptions,
) -> SimpleReply {
    if !size.is_positive() || !options.is_valid() {
        return SimpleReply::BadCall;
    }
    done(simple.reset(size, options))
}

// Makes a call of a simple allocator. Where the condition of the call doesn't hold it answers `BadCall`. Unless the
// reply says that something was done, nothing changes.
#[inline]
fn make<A: Allocator + Copy>(
    simple: &mut SimpleAtlasAllocator<A>,
    source: &AtlasAllocator<A>,
    call: &SimpleCall,
) -> SimpleReply {
    match call {
        SimpleCall::Allocate(size) => allocate(simple, *size),
        SimpleCall::Grow(size) => grow(simple, *size),
        SimpleCall::Clear => done(simple.clear()),
        SimpleCall::Reset(size, options) => reset(simple, *size, options),
        SimpleCall::Start => done(simple.init_from_allocator(source)),
    }
}

/// Makes calls of a simple allocator in turn, and appends a reply for each; `Start` takes over from `source`. Room for
/// all replies is reserved first: `Memory` is the only error, if `replies` has less, and after it allocator and replies are
/// as before. The room of the list is never given back. So the rectangles granted since the last start never overlap each
/// other or what the source then held live.
#[inline]
pub fn run_simple<A: Allocator + Copy>(
    simple: &mut SimpleAtlasAllocator<A>,
    source: &AtlasAllocator<A>,
    calls: &[SimpleCall],
    replies: &mut Vec<SimpleReply, A>,
) -> Result<(), AtlasError> {
    replies.reserve(calls.len())?;
    // Its contract says what each simple allocator keeps.
    let _size = simple.size();
    for call in calls {
        replies.push_reserved(make(simple, source, call));
    }
    Ok(())
}
