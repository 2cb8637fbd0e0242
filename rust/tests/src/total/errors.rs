//! The texts of errors.

use wollemigo_core::guillotiere::AtlasError;
use wollemigo_core::guillotiere_total::CallError;

const TEXTS: [(CallError, &str); 9] = [
    (CallError::EmptySize, "a side of the size is below 1"),
    (CallError::Alignment, "a side of the alignment is below 1"),
    (
        CallError::Thresholds,
        "the small threshold is above the large one",
    ),
    (
        CallError::SlotLimit,
        "the limit on slots is not from 1 to 16777216",
    ),
    (
        CallError::Shrinks,
        "a side of the new size is less than the present one",
    ),
    (CallError::NoPage, "there is no such page"),
    (
        CallError::Unmeasurable,
        "the width or the height of the rectangle fits no i32",
    ),
    (CallError::Refused(AtlasError::Memory), "no memory"),
    (CallError::Refused(AtlasError::Slots), "no slot left"),
];

#[test]
fn errors_say_which_condition_fails() {
    for (error, text) in TEXTS {
        assert_eq!(error.to_string(), text);
    }
}
