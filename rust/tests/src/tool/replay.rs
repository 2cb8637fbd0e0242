//! Runs of the tool with replays of recorded sessions.

use super::devices::{Sink, Source};
use super::playing::{is_refused_after, run};
use atlas_lines::{parse_line, Command, ToolEnd};
use test_memory::Refusing;
use wollemigo_support::alloc::Global;

// What is read; then what is written before the replay's reply, that reply, and what is written after it.
type Row = (&'static [u8], [&'static [u8]; 3]);

const ROWS: [Row; 3] = [
    (
        b"replay\nrecord 100 300\nalloc 100 100\nempty\nreplay\nsize\n",
        [
            b"no recording\nok\nid 0 at 0 0 100 100\nno atlas\n",
            b"replayed allocations 1 deallocations 0 failed 0 live 1\n",
            b"no atlas\n",
        ],
    ),
    // Boxes are granted, freed, refused and placed anew.
    (
        b"record 100 300\nalloc 100 100\nalloc 100 100\nalloc 100 100\nalloc 1 1\nfree 1\n\
          rearrange\nreplay\nreplay\n",
        [
            b"ok\nid 0 at 0 0 100 100\nid 1 at 0 100 100 200\nid 2 at 0 200 100 300\nnone\nok\n\
              moved 2 0 200 100 300 to 2 0 0 100 100\nmoved 0 0 0 100 100 to 0 0 100 100 200\n\
              changes 2 failures 0\n",
            b"replayed allocations 3 deallocations 1 failed 1 live 2\n",
            b"no recording\n",
        ],
    ),
    // An atlas and a simple allocator stay; a session without events.
    (
        b"atlas 7 7\nsimple 5 5\nreplay\nsize\ntake 5 5\nrecord 10 10\nreplay\ntake 1 1\nlive\n\
          atlas 0 1\nsize\n",
        [
            b"ok\nok\nno recording\nsize 7 7\nat 0 0 5 5\nok\n",
            b"replayed allocations 0 deallocations 0 failed 0 live 0\n",
            b"none\nno atlas\nbad call\nno atlas\n",
        ],
    ),
];

// None of these spells a command.
const BAD_LINES: [&[u8]; 5] = [b"replay ", b" replay", b"Replay", b"replay 1", b"replayed"];

// Whether a text is these parts, one after another.
fn is_made_of(text: &[u8], parts: [&[u8]; 3]) -> bool {
    let mut rest = text;
    for part in parts {
        let after = match rest.strip_prefix(part) {
            Some(after) => after,
            None => return false,
        };
        rest = after;
    }
    rest.is_empty()
}

#[test]
fn rows() {
    let heap = Refusing::new(Global);
    for (text, want) in ROWS {
        for step in [1, 7, 100000] {
            let mut input = Source::ending(text, step);
            let mut output = Sink::new(5000, step, true);
            let got = run(&heap, &mut input, &mut output);
            let same = is_made_of(output.held(), want);
            assert!(same && got == Ok(ToolEnd::Done), "{text:?} by {step}");
        }
    }
}

#[test]
fn lines() {
    assert_eq!(parse_line(b"replay"), Some(Command::Replay));
    for line in BAD_LINES {
        assert_eq!(parse_line(line), None, "{line:?}");
    }
}

// A refusal before the replay is told on its own line. A replay that is refused says so, and the session is over.
#[test]
fn rows_with_each_request_for_memory_refused_in_turn() {
    let heap = Refusing::new(Global);
    for (text, want) in ROWS {
        let [before, _, after] = want;
        let mut refusals = 0;
        let mut told = false;
        for number in 1..200 {
            heap.refuse_nth(number);
            let mut input = Source::ending(text, 1000);
            let mut output = Sink::new(5000, 1000, true);
            let got = run(&heap, &mut input, &mut output);
            assert_eq!(got, Ok(ToolEnd::Done), "{number}");
            let held = output.held();
            if !heap.is_done() {
                assert!(is_made_of(held, want), "{number}");
                break;
            }
            refusals = number;
            if is_made_of(held, [before, b"replay refused memory\n", after]) {
                told = true;
            } else {
                assert!(is_refused_after(held, before), "{number}");
            }
        }
        assert!(told && refusals < 199, "{text:?}");
    }
}
