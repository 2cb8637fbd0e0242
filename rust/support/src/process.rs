//! The process.

pub use rust_std::process::ExitCode;

use crate::rt::HostRuntime;

/// Permission to end the process by a panic, as a failed assertion does.
pub trait Abort {}

impl Abort for HostRuntime {}

impl<R: Abort + ?Sized> Abort for &R {}
