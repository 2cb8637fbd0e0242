//! Plays lines through the tool, by steps of so many bytes and with requests for memory refused.

use super::devices::{Sink, Source};
use atlas_lines::{run_lines, StdInput, StdOutput, ToolEnd, ToolFault};
use test_memory::Refusing;
use wollemigo_support::alloc::Global;
use wollemigo_support::vec::Vec;

/// What is read, what is written, and how the run ends.
pub type Row = (&'static [u8], &'static [u8], ToolEnd);

/// How a run ended.
pub type End = Result<ToolEnd, ToolFault>;

/// Runs the tool on devices that haven't failed.
pub fn run(heap: &Refusing<Global>, input: &mut Source<'_>, output: &mut Sink) -> End {
    run_lines(heap, input, output)
}

/// How the tool ends on a text, and what it writes.
pub fn run_text(text: &[u8]) -> (End, Vec<u8>) {
    let mut held = Vec::new(Global);
    let mut output = StdOutput::new(&mut held);
    let end = run_lines(Global, &mut StdInput::new(text), &mut output);
    (end, held)
}

/// Whether the tool writes this for a text, and ends so.
pub fn answers((text, want, end): Row) -> bool {
    let (got, held) = run_text(text);
    got == Ok(end) && held.as_slice() == want
}

/// Plays a row by steps of so many bytes.
pub fn play(row: Row, steps: &[usize]) {
    let (text, want, end) = row;
    let heap = Refusing::new(Global);
    for step in steps {
        let mut input = Source::ending(text, *step);
        let mut output = Sink::new(5000, *step, true);
        let got = run(&heap, &mut input, &mut output);
        assert_eq!(got, Ok(end), "{text:?} by {step}");
        assert_eq!(output.held(), want, "{text:?} by {step}");
    }
}

// Where two texts begin to differ.
fn first_difference(got: &[u8], want: &[u8]) -> usize {
    let shared = got.iter().zip(want);
    shared.take_while(|(one, other)| one == other).count()
}

/// Whether a text is as wanted up to a line that tells of refused memory.
pub fn is_refused_after(held: &[u8], want: &[u8]) -> bool {
    let at = first_difference(held, want);
    at < held.len()
        && held[at..].starts_with(b"refused memory\n")
        && (at == 0 || held[at - 1] == b'\n')
}

/// Plays a row with each request for memory refused in turn, up to the first time that none is. The replies before the
/// refusal are the row's, and the run goes on after it.
pub fn play_with_refusals(row: Row) {
    let (text, want, end) = row;
    let heap = Refusing::new(Global);
    let mut refusals = 0;
    for number in 1..200 {
        heap.refuse_nth(number);
        let mut input = Source::ending(text, 1000);
        let mut output = Sink::new(5000, 1000, true);
        let got = run(&heap, &mut input, &mut output);
        assert_eq!(got, Ok(end), "{number}");
        let held = output.held();
        if !heap.is_done() {
            assert_eq!(held, want, "{text:?}");
            break;
        }
        refusals = number;
        assert!(is_refused_after(held, want), "{number}: {held:?}");
    }
    assert!(0 < refusals && refusals < 199, "{text:?}");
}
