//! What is told.
use crate::fault::{Fault, FILES};
use std::io::{stderr, stdout, Write};

/// Writes to standard output.
pub fn say(text: &str) -> Result<(), Fault> {
    let mut output = stdout();
    output
        .write_all(text.as_bytes())
        .and_then(|()| output.flush())
        .map_err(|error| Fault::new(FILES, format!("standard output: {}", error)))
}

/// Writes a line to standard error. Where that fails, nothing more can be told.
pub fn note(line: &str) {
    let _ = writeln!(stderr(), "guillotiere-sheet: {}", line);
}
