//! The texts of what is refused and of what a replay meets.

use wollemigo_core::guillotiere_recording::{RecordingError, ReplayFault};

#[test]
fn texts_of_errors() {
    for (error, want) in [
        (RecordingError::Memory, "no memory"),
        (RecordingError::Slots, "no slot left"),
        (RecordingError::NotLive, "id is not live"),
        (RecordingError::Names, "no name left"),
    ] {
        assert_eq!(error.to_string(), want);
    }
}

#[test]
fn texts_of_faults() {
    for (fault, want) in [
        (ReplayFault::Memory, "no memory"),
        (ReplayFault::Slots, "no slot left"),
        (ReplayFault::Differs(0), "event 0 differs"),
        (ReplayFault::BadEvent(12), "event 12 is bad"),
    ] {
        assert_eq!(fault.to_string(), want);
    }
}
