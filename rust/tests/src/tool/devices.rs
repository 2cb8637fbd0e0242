//! Devices over memory, which fail where they are told to.

use atlas_lines::{ToolInput, ToolOutput};

/// Gives some bytes, at most `step` a call; then it fails, or is at its end.
pub struct Source<'a> {
    rest: &'a [u8],
    step: usize,
    fails: bool,
    failed: bool,
}

impl<'a> Source<'a> {
    pub fn ending(rest: &'a [u8], step: usize) -> Source<'a> {
        Source {
            rest,
            step,
            fails: false,
            failed: false,
        }
    }

    pub fn failing(rest: &'a [u8], step: usize) -> Source<'a> {
        Source {
            rest,
            step,
            fails: true,
            failed: false,
        }
    }
}

impl ToolInput for Source<'_> {
    fn read(&mut self, buffer: &mut [u8]) -> Option<usize> {
        if self.rest.is_empty() && self.fails {
            self.failed = true;
            return None;
        }
        let n = self.rest.len().min(self.step).min(buffer.len());
        let (head, tail) = self.rest.split_at(n);
        buffer[..n].copy_from_slice(head);
        self.rest = tail;
        Some(n)
    }

    fn failed(&self) -> bool {
        self.failed
    }
}

/// Takes `room` bytes in all, at most `step` a call; then it fails, or takes none.
pub struct Sink {
    held: Vec<u8>,
    room: usize,
    step: usize,
    fails: bool,
    failed: bool,
}

impl Sink {
    pub fn new(room: usize, step: usize, fails: bool) -> Sink {
        Sink {
            held: Vec::new(),
            room,
            step,
            fails,
            failed: false,
        }
    }

    /// What was taken.
    pub fn held(&self) -> &[u8] {
        &self.held
    }

    /// What was taken, where no more is.
    pub fn into_held(self) -> Vec<u8> {
        self.held
    }
}

impl ToolOutput for Sink {
    fn write(&mut self, bytes: &[u8]) -> Option<usize> {
        let n = bytes.len().min(self.step).min(self.room);
        if n == 0 && !bytes.is_empty() {
            self.failed = true;
            return if self.fails { None } else { Some(0) };
        }
        self.held.extend_from_slice(&bytes[..n]);
        self.room -= n;
        Some(n)
    }

    fn failed(&self) -> bool {
        self.failed
    }
}
