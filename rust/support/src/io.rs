//! Devices: readers and writers, and those of the process.

mod output;

pub use output::Stdout;
pub use rust_std::io::{Error, ErrorKind, Result};

use crate::alloc::{AllocError, AllocFailed, Allocator};
use crate::vec::Vec;
use core::fmt;
use rust_std::io;

impl From<AllocError> for Error {
    fn from(_refused: AllocError) -> Error {
        Error::from(ErrorKind::OutOfMemory)
    }
}

impl<T> From<AllocFailed<T>> for Error {
    fn from(_refused: AllocFailed<T>) -> Error {
        Error::from(ErrorKind::OutOfMemory)
    }
}

fn is_interrupted(error: &Error) -> bool {
    error.kind() == ErrorKind::Interrupted
}

/// What bytes are read from.
pub trait Read {
    /// Reads up to as many bytes as there is room for, and says how many; 0 at the end.
    fn read(&mut self, room: &mut [u8]) -> Result<usize>;

    /// Appends all bytes up to the end, and says how many. On an Err those that came before it stay appended.
    fn read_to_end<A: Allocator>(&mut self, bytes: &mut Vec<u8, A>) -> Result<usize>
    where
        Self: Sized,
    {
        let before = bytes.len();
        let mut room = [0; 4096];
        loop {
            match self.read(&mut room) {
                Ok(0) => return Ok(bytes.len() - before),
                Ok(count) => bytes.extend_from_slice(&room[..count])?,
                Err(error) if is_interrupted(&error) => {}
                Err(error) => return Err(error),
            }
        }
    }
}

/// What bytes are written to.
pub trait Write {
    /// Writes some of the bytes from the first on, and says how many.
    fn write(&mut self, bytes: &[u8]) -> Result<usize>;

    /// Sees to it that all bytes arrived.
    fn flush(&mut self) -> Result<()>;

    /// Writes all the bytes. On an Err some of them may be written.
    fn write_all(&mut self, bytes: &[u8]) -> Result<()> {
        let mut written = 0;
        while written < bytes.len() {
            match self.write(&bytes[written..]) {
                Ok(0) => return Err(Error::from(ErrorKind::WriteZero)),
                Ok(count) => written += count,
                Err(error) if is_interrupted(&error) => {}
                Err(error) => return Err(error),
            }
        }
        Ok(())
    }

    /// For `write!`: writes what is told. On an Err a part of it may be written.
    fn write_fmt(&mut self, arguments: fmt::Arguments<'_>) -> Result<()>
    where
        Self: Sized,
    {
        let mut told = Told {
            to: self,
            result: Ok(()),
        };
        match fmt::write(&mut told, arguments) {
            Ok(()) => Ok(()),
            Err(fmt::Error) => told
                .result
                .and_then(|()| Err(Error::from(ErrorKind::Other))),
        }
    }
}

// A writer of text over one of bytes, which keeps the error.
struct Told<'a, W> {
    to: &'a mut W,
    result: Result<()>,
}

impl<W: Write> fmt::Write for Told<'_, W> {
    fn write_str(&mut self, text: &str) -> fmt::Result {
        self.result = self.to.write_all(text.as_bytes());
        match self.result {
            Ok(()) => Ok(()),
            Err(_) => Err(fmt::Error),
        }
    }
}

impl<R: Read> Read for &mut R {
    fn read(&mut self, room: &mut [u8]) -> Result<usize> {
        R::read(self, room)
    }
}

impl<W: Write> Write for &mut W {
    fn write(&mut self, bytes: &[u8]) -> Result<usize> {
        W::write(self, bytes)
    }

    fn flush(&mut self) -> Result<()> {
        W::flush(self)
    }
}

/// Reads from its front, and cuts off what was read.
impl Read for &[u8] {
    fn read(&mut self, room: &mut [u8]) -> Result<usize> {
        io::Read::read(self, room)
    }
}

/// Appends all the bytes.
impl<A: Allocator> Write for Vec<u8, A> {
    fn write(&mut self, bytes: &[u8]) -> Result<usize> {
        self.extend_from_slice(bytes)?;
        Ok(bytes.len())
    }

    fn flush(&mut self) -> Result<()> {
        Ok(())
    }
}

/// The standard input.
#[derive(Debug)]
pub struct Stdin {
    pub(crate) inner: io::Stdin,
}

impl Read for Stdin {
    fn read(&mut self, room: &mut [u8]) -> Result<usize> {
        io::Read::read(&mut self.inner, room)
    }
}

/// The standard error output. It has no buffer.
#[derive(Debug)]
pub struct Stderr {
    pub(crate) inner: io::Stderr,
}

impl Write for Stderr {
    fn write(&mut self, bytes: &[u8]) -> Result<usize> {
        io::Write::write(&mut self.inner, bytes)
    }

    fn flush(&mut self) -> Result<()> {
        io::Write::flush(&mut self.inner)
    }
}
