//! A conversation with the tool: each reply is there before the next line is asked for.

use super::playing::End;
use atlas_lines::{run_lines, ToolEnd, ToolInput, ToolOutput};
use core::cell::Cell;
use wollemigo_support::alloc::Global;

/// Gives one line a call, and looks each time whether the replies of all lines before were written.
struct Asking<'a> {
    lines: &'a [(&'a [u8], &'a [u8])],
    given: usize,
    written: &'a Cell<usize>,
    // How many bytes the replies to the lines given so far have.
    owed: usize,
    // How often something else had been written.
    misses: u32,
    failed: bool,
}

impl<'a> Asking<'a> {
    fn new(lines: &'a [(&'a [u8], &'a [u8])], written: &'a Cell<usize>) -> Asking<'a> {
        Asking {
            lines,
            given: 0,
            written,
            owed: 0,
            misses: 0,
            failed: false,
        }
    }
}

impl ToolInput for Asking<'_> {
    fn read(&mut self, buffer: &mut [u8]) -> Option<usize> {
        if self.written.get() != self.owed {
            self.misses += 1;
        }
        let (line, reply) = match self.lines.get(self.given) {
            Some(pair) => *pair,
            None => return Some(0),
        };
        let n = line.len();
        if n > buffer.len() {
            self.failed = true;
            return None;
        }
        buffer[..n].copy_from_slice(line);
        self.owed += reply.len();
        self.given += 1;
        Some(n)
    }

    fn failed(&self) -> bool {
        self.failed
    }
}

/// Keeps what is written, and tells how much it is.
struct Told<'a> {
    held: Vec<u8>,
    written: &'a Cell<usize>,
    calls: u32,
}

impl<'a> Told<'a> {
    fn new(written: &'a Cell<usize>) -> Told<'a> {
        Told {
            held: Vec::new(),
            written,
            calls: 0,
        }
    }
}

impl ToolOutput for Told<'_> {
    fn write(&mut self, bytes: &[u8]) -> Option<usize> {
        if bytes.is_empty() {
            return Some(0);
        }
        self.calls += 1;
        self.held.extend_from_slice(bytes);
        self.written.set(self.held.len());
        Some(bytes.len())
    }

    fn failed(&self) -> bool {
        false
    }
}

// What is asked, and what is answered before the next question.
const TALK: [(&[u8], &[u8]); 12] = [
    (b"size\n", b"no atlas\n"),
    (b"atlas 100 100\n", b"ok\n"),
    (b"\n", b""),
    (b"alloc 20 60\n", b"id 3 at 0 0 20 60\n"),
    (b"live\n", b"box 3 0 0 20 60\nlive 1\n"),
    // A line in two pieces.
    (b"ho", b""),
    (b"les\n", b"hole 20 0 100 100\nhole 0 60 20 100\nholes 2\n"),
    // Two lines and a beginning of the third.
    (b"size\nempty\nfre", b"size 100 100\nfalse\n"),
    (b"e 3\n", b"ok\n"),
    (b"empty\n", b"true\n"),
    (b"clear\n", b"ok\n"),
    // No end of line comes.
    (b"empty", b"true\n"),
];

fn talk(input: &mut Asking<'_>, output: &mut Told<'_>) -> End {
    run_lines(Global, input, output)
}

#[test]
fn each_reply_comes_before_the_next_read() {
    let written = Cell::new(0);
    // The last reply comes once the input has ended.
    let (asked, last) = TALK.split_at(11);
    let mut input = Asking::new(asked, &written);
    let mut output = Told::new(&written);
    let end = talk(&mut input, &mut output);
    assert_eq!(end, Ok(ToolEnd::Done));
    assert_eq!(input.misses, 0);
    assert_eq!(written.get(), input.owed);
    assert_eq!(last.len(), 1);
    let want: Vec<&[u8]> = asked.iter().map(|(_, reply)| *reply).collect();
    assert_eq!(output.held, want.concat());
}

#[test]
fn the_last_line_needs_no_end() {
    let written = Cell::new(0);
    let mut input = Asking::new(&TALK, &written);
    let mut output = Told::new(&written);
    let end = talk(&mut input, &mut output);
    assert_eq!(end, Ok(ToolEnd::Done));
    // Only the read that finds the end comes before the last reply.
    assert_eq!(input.misses, 1);
    assert_eq!(written.get(), input.owed);
}

// The replies to the lines of one read go out together.
#[test]
fn many_lines_are_answered_by_one_write() {
    let text = b"size\n".repeat(1000);
    let written = Cell::new(0);
    let lines: [(&[u8], &[u8]); 1] = [(&text, b"")];
    let mut input = Asking::new(&lines, &written);
    let mut output = Told::new(&written);
    let end = talk(&mut input, &mut output);
    assert_eq!(end, Ok(ToolEnd::Done));
    assert_eq!(output.held.len(), 9000);
    assert_eq!(output.calls, 1);
}
