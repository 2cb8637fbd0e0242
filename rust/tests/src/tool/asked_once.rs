//! A device of std that fails once and would then answer: it is asked one time a call.

use atlas_lines::{StdInput, StdOutput, ToolInput, ToolOutput};
use core::cell::Cell;
use wollemigo_support::io::{Error, ErrorKind, Read, Write};

/// Counts its calls; the first fails, and each later one takes or gives a byte.
struct Failing<'a> {
    calls: &'a Cell<u32>,
}

impl Failing<'_> {
    fn answer(&self) -> Result<usize, Error> {
        let before = self.calls.get();
        self.calls.set(before + 1);
        if before == 0 {
            return Err(Error::from(ErrorKind::Other));
        }
        Ok(1)
    }
}

impl Read for Failing<'_> {
    fn read(&mut self, buffer: &mut [u8]) -> Result<usize, Error> {
        if buffer.is_empty() {
            return Ok(0);
        }
        self.answer()
    }
}

impl Write for Failing<'_> {
    fn write(&mut self, bytes: &[u8]) -> Result<usize, Error> {
        if bytes.is_empty() {
            return Ok(0);
        }
        self.answer()
    }

    fn flush(&mut self) -> Result<(), Error> {
        Ok(())
    }
}

#[test]
fn a_failed_read_is_not_tried_again() {
    let calls = Cell::new(0u32);
    let mut input = StdInput::new(Failing { calls: &calls });
    let mut buffer = [0u8; 4];
    assert_eq!(input.read(&mut buffer), None);
    assert!(input.failed());
    assert_eq!(calls.get(), 1);
}

#[test]
fn a_failed_write_is_not_tried_again() {
    let calls = Cell::new(0u32);
    let mut output = StdOutput::new(Failing { calls: &calls });
    assert_eq!(output.write(b"ok"), None);
    assert!(output.failed());
    assert_eq!(calls.get(), 1);
}
