//! What is kept of an allocator: the list of its calls with their answers.
use super::{events, RecordingAllocator};
use crate::{convert, AllocId, Allocation, AllocatorOptions, AtlasError, ChangeList, Size};
use alloc::vec::Vec;
use core::fmt;
use wollemigo_core::guillotiere_recording as library;
use wollemigo_core::guillotiere_total::{recording as total, CallError};
use wollemigo_support::alloc::Global;

/// One call that wasn't refused, with its answer. Every id in it is a name; lengths are in pixels. These are all its variants.
///
/// ```
/// use guillotiere::recording::{Event, RecordingAllocator};
/// use guillotiere::size2;
///
/// let mut atlas = RecordingAllocator::new(size2(64, 64));
/// atlas.grow(size2(128, 64));
/// assert_eq!(atlas.recording().events, [Event::Grow(size2(128, 64))]);
/// ```
#[derive(Clone, Debug, PartialEq, Eq, Hash)]
pub enum Event {
    /// A request of this size, and what it was granted; None if it had no room.
    Allocate(Size, Option<Allocation>),
    /// The rectangle of this name was freed.
    Deallocate(AllocId),
    /// The atlas grew to this size.
    Grow(Size),
    /// The atlas was rearranged.
    Rearrange(ChangeList),
    /// The atlas was rearranged into this size.
    ResizeAndRearrange(Size, ChangeList),
}

/// What happened to an atlas: plain data, which may be anything until `resume` has tested it.
///
/// It grows by one event with each call, and to resume it takes about as long as its calls took. To keep it short, ask a new
/// allocator for what is live now; names and places are then new, as after a rearranging, so pixels are to be copied:
///
/// ```
/// use guillotiere::recording::RecordingAllocator;
/// use guillotiere::size2;
///
/// let mut atlas = RecordingAllocator::new(size2(512, 512));
/// let first = atlas.allocate(size2(20, 30)).unwrap();
/// let second = atlas.allocate(size2(40, 50)).unwrap();
/// atlas.deallocate(first.id);
///
/// let mut live = atlas.allocations();
/// live.sort_by_key(|old| std::cmp::Reverse(old.rectangle.area()));
/// let mut anew = RecordingAllocator::with_options(atlas.size(), &atlas.options());
/// for old in live {
///     match anew.allocate(old.rectangle.size()) {
///         Some(new) => println!("copy {:?} to {:?}", old, new),
///         None => println!("{:?} found no room", old),
///     }
/// }
/// assert_eq!((atlas.recording().events.len(), anew.recording().events.len()), (3, 1));
/// # assert_eq!(anew.allocations()[0].rectangle.size(), second.rectangle.size());
/// ```
#[derive(Clone, Debug, PartialEq, Eq, Hash)]
pub struct Recording {
    /// The size of the atlas when it was new, in pixels.
    pub size: Size,
    /// The options of the atlas.
    pub options: AllocatorOptions,
    /// What was called since, in order.
    pub events: Vec<Event>,
}

impl Recording {
    /// An allocator that carried out the events as its own calls, each answer compared, and so goes on from where they
    /// end: its recording is this one.
    ///
    /// # Errors
    ///
    /// `Start` if no atlas has this size and these options; `BadEvent` or `Differs` with the number of the first event that can't be carried
    /// out or has another answer; `Slots` if more would be used than an atlas may use, `Memory` if memory is refused.
    pub fn resume(&self) -> Result<RecordingAllocator, ResumeError> {
        let options = convert::library_options(&self.options);
        let mut recorder = total::recorder(Global, convert::library_size(self.size), &options)?;
        for event in &self.events {
            let event = events::library_event(event).map_err(|_| ResumeError::Memory)?;
            recorder.record(event).map_err(|_| ResumeError::Memory)?;
        }
        let session = recorder.finish().resume()?;
        Ok(RecordingAllocator { session })
    }
}

/// Why a recording isn't resumed. Events are counted from 0.
///
/// ```
/// use guillotiere::recording::{Event, RecordingAllocator, ResumeError};
/// use guillotiere::size2;
///
/// let mut kept = RecordingAllocator::new(size2(64, 64)).recording();
/// kept.events.push(Event::Grow(size2(32, 64)));
/// assert_eq!(kept.resume().err(), Some(ResumeError::BadEvent(0))); // it shrinks
/// ```
#[derive(Copy, Clone, Debug, PartialEq, Eq, Hash)]
#[non_exhaustive]
pub enum ResumeError {
    /// No atlas has this size and these options: `EmptySize`, `Alignment` or `Thresholds`.
    Start(AtlasError),
    /// The event with this number can't be carried out: its new name isn't the next one, no name is left, the name that
    /// it frees isn't live, a side shrinks, or a size is empty.
    BadEvent(usize),
    /// The event with this number has a different answer from the one that the atlas gives.
    Differs(usize),
    /// More slots would be used than an atlas may use.
    Slots,
    /// A request for memory was refused.
    Memory,
}

impl fmt::Display for ResumeError {
    fn fmt(&self, f: &mut fmt::Formatter<'_>) -> fmt::Result {
        match self {
            ResumeError::Start(error) => write!(f, "{}", error),
            ResumeError::BadEvent(number) => write!(f, "event {} is bad", number),
            ResumeError::Differs(number) => write!(f, "event {} differs", number),
            ResumeError::Slots => write!(f, "{}", AtlasError::Slots),
            ResumeError::Memory => write!(f, "{}", AtlasError::Memory),
        }
    }
}

#[cfg(feature = "std")]
impl std::error::Error for ResumeError {}

impl From<CallError> for ResumeError {
    fn from(error: CallError) -> ResumeError {
        ResumeError::Start(AtlasError::from(error))
    }
}

impl From<library::ReplayFault> for ResumeError {
    fn from(fault: library::ReplayFault) -> ResumeError {
        match fault {
            library::ReplayFault::Memory => ResumeError::Memory,
            library::ReplayFault::Slots => ResumeError::Slots,
            library::ReplayFault::Differs(number) => ResumeError::Differs(number),
            library::ReplayFault::BadEvent(number) => ResumeError::BadEvent(number),
        }
    }
}
