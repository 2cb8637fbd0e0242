// Erased from crates/guillotiere_recording/src/lib.rt by rust/erase: don't edit.
//! Records every session of an atlas as a list of events, by names that are never given twice.

mod allocator;
mod error;
mod event;
mod follow;

mod log;
mod moves;
mod names;
mod recording;
mod replay;
mod resuming;
mod steps;
mod walks;

pub use allocator::RecordingAllocator;
pub use error::RecordingError;
pub use event::Event;
pub use recording::{Recorder, Recording};
pub use replay::{ReplayFault, ReplayStats};
