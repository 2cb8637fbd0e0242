//! The names that each proved source has without an import, and Rust's `core` lacks or means otherwise.

pub use crate::boxed::Box;
pub use crate::newer::{CastUnsigned, ExpectErrIn, ExpectIn, Ilog2, IsSomeAnd};
#[cfg(feature = "std")]
pub use crate::rt::HostRuntime;
pub use crate::string::String;
pub use crate::vec::{CollectIn, Vec};
pub use crate::{assert, assert_eq, assert_ne, format, panic, prove, prove_eq, prove_ne, vec};
#[cfg(feature = "std")]
pub use crate::{eprintln, println};
