//! Why no sheet is written.
use std::fmt::Display;
use std::path::Path;

/// A file or a device fails, or a picture can't be read.
pub const FILES: u8 = 1;
/// The words are wrong.
pub const WORDS: u8 = 2;
/// The pictures don't fit.
pub const ROOM: u8 = 3;
/// A sheet was written, and not all pictures are in it.
pub const LEFT_OUT: u8 = 4;

/// The files aren't as they would be written.
pub const STALE: u8 = 5;

/// What is told on standard error, a line each, and the program's status.
#[derive(Debug)]
pub struct Fault {
    pub status: u8,
    pub lines: Vec<String>,
}

impl Fault {
    pub fn new(status: u8, line: impl Into<String>) -> Fault {
        Fault {
            status,
            lines: vec![line.into()],
        }
    }

    /// Of a file.
    pub fn file(path: &Path, why: impl Display) -> Fault {
        Fault::new(FILES, format!("{}: {}", path.display(), why))
    }
}
