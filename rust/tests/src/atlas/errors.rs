//! The texts of errors.

use wollemigo_core::guillotiere::AtlasError;

#[test]
fn errors_say_what_was_refused() {
    let errors = [
        (AtlasError::Memory, "no memory"),
        (AtlasError::Slots, "no slot left"),
        (AtlasError::NotLive, "id is not live"),
    ];
    for (error, text) in errors {
        assert_eq!(error.to_string(), text);
    }
}
