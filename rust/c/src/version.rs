// Erased from crates/guillotiere_c/src/version.rt by rust/erase: don't edit.
//! Which version the library has, and which interface.

use crate::plain::{INTERFACE, VERSION_MAJOR, VERSION_MINOR, VERSION_PATCH};

/// The version of the library that was linked, in the form of `GUILLOTIERE_VERSION`.
#[no_mangle]
pub extern "C" fn guillotiere_version() -> u32 {
    VERSION_MAJOR * 1_000_000 + VERSION_MINOR * 1_000 + VERSION_PATCH
}

/// The interface of the library that was linked, in the form of `GUILLOTIERE_INTERFACE`.
#[no_mangle]
pub extern "C" fn guillotiere_interface() -> u32 {
    INTERFACE
}
