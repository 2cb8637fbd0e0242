//! The runtime: what a program may do outside of itself.

use crate::alloc::Global;
use crate::io::{Result, Stderr, Stdin, Stdout, Write};
use core::fmt::Arguments;
use rust_std::io;

/// Stands for the system that a program runs on.
#[derive(Clone, Copy, Debug)]
pub struct HostRuntime;

impl HostRuntime {
    /// The global allocator.
    #[must_use]
    pub fn alloc(&self) -> Global {
        Global
    }

    /// The standard input.
    #[must_use]
    pub fn stdin(&self) -> Stdin {
        Stdin { inner: io::stdin() }
    }

    /// The standard output.
    #[must_use]
    pub fn stdout(&self) -> Stdout {
        Stdout::new()
    }

    /// The standard error output.
    #[must_use]
    pub fn stderr(&self) -> Stderr {
        Stderr {
            inner: io::stderr(),
        }
    }

    /// For `println!`: a line to the standard output.
    pub fn println(&self, arguments: Arguments<'_>) -> Result<()> {
        core::writeln!(self.stdout(), "{arguments}")
    }

    /// For `eprintln!`: a line to the standard error output.
    pub fn eprintln(&self, arguments: Arguments<'_>) -> Result<()> {
        core::writeln!(self.stderr(), "{arguments}")
    }
}
