//! One run of the tool's lines on devices that fail, and with requests for memory refused.

use super::devices::{Sink, Source};
use super::playing::{run, End};
use atlas_lines::{ToolEnd, ToolFault};
use test_memory::Refusing;
use wollemigo_support::alloc::Global;

const LINES: &[u8] = b"simple 100 300\ntake 100 100\ntake 100 100\ntake 100 100\ntake 1 1\n";

const REPLIES: &[u8] = b"ok\nat 0 0 100 100\nat 0 100 100 200\nat 0 200 100 300\nnone\n";

// How many bytes the first lines have, and their replies.
const WHOLE_LINES: [(usize, usize); 6] = [(0, 0), (15, 3), (28, 18), (41, 35), (54, 52), (63, 57)];

// What is written where the request for memory of one line is refused.
const REFUSED: [&[u8]; 4] = [
    b"refused memory\nno simple\nno simple\nno simple\nno simple\n",
    b"ok\nrefused memory\nat 0 0 100 100\nat 0 100 100 200\nat 0 200 1 201\n",
    b"ok\nat 0 0 100 100\nrefused memory\nat 0 100 100 200\nat 0 200 1 201\n",
    b"ok\nat 0 0 100 100\nat 0 100 100 200\nrefused memory\nat 0 200 1 201\n",
];

// How a run ends, and what it writes where the output has so much room, and takes or fails by such steps.
fn written(mut input: Source<'_>, room: usize, step: usize, fails: bool) -> (End, Vec<u8>) {
    let heap = Refusing::new(Global);
    let mut output = Sink::new(room, step, fails);
    let end = run(&heap, &mut input, &mut output);
    (end, output.into_held())
}

#[test]
fn a_writer_fails_at_each_byte() {
    for room in 0..57 {
        for (step, fails) in [(1000, true), (1000, false), (3, true), (3, false)] {
            let input = Source::ending(LINES, 1000);
            let (end, held) = written(input, room, step, fails);
            assert_eq!(end, Err(ToolFault::Write), "room {room}");
            assert_eq!(held.as_slice(), &REPLIES[..room], "room {room}");
        }
    }
}

#[test]
fn a_reader_fails_at_each_byte() {
    for given in 0..=63 {
        let mut whole = 0;
        for (line, reply) in WHOLE_LINES {
            if line <= given {
                whole = reply;
            }
        }
        assert!(whole <= 57);
        for step in [1000, 4] {
            let input = Source::failing(&LINES[..given], step);
            let (end, held) = written(input, 1000, 1000, true);
            assert_eq!(end, Err(ToolFault::Read), "{given} bytes");
            assert_eq!(held.as_slice(), &REPLIES[..whole], "{given} bytes");
        }
    }
}

// By one byte a call, and with no more room than the replies need.
#[test]
fn devices_of_one_byte_a_call() {
    for (taken, room, step) in [(1, 1000, 1), (1000, 57, 1000)] {
        let input = Source::ending(LINES, taken);
        let (end, held) = written(input, room, step, true);
        assert_eq!(end, Ok(ToolEnd::Done));
        assert_eq!(held.as_slice(), REPLIES);
    }
}

// A line is bad from its 121st byte on, and no byte after that one is needed to tell.
#[test]
fn a_long_line_is_bad_before_its_end() {
    let zeros = [b'0'; 121];
    let rows: [(usize, End, &[u8]); 2] = [
        (121, Ok(ToolEnd::BadLine(1)), b"bad line 1\n"),
        (120, Err(ToolFault::Read), b""),
    ];
    for step in [1, 1000] {
        for (length, want, replies) in &rows {
            let input = Source::failing(&zeros[..*length], step);
            let (end, held) = written(input, 1000, 1000, true);
            assert_eq!(end, *want);
            assert_eq!(held.as_slice(), *replies);
        }
    }
}

#[test]
fn each_request_for_memory_is_refused_in_turn() {
    let heap = Refusing::new(Global);
    let mut refusals = 0;
    for number in 1..100 {
        heap.refuse_nth(number);
        let mut input = Source::ending(LINES, 1000);
        let mut output = Sink::new(1000, 1000, true);
        let end = run(&heap, &mut input, &mut output);
        assert_eq!(end, Ok(ToolEnd::Done));
        if !heap.is_done() {
            assert_eq!(output.held(), REPLIES);
            break;
        }
        refusals = number;
        assert!(
            REFUSED.contains(&output.held()),
            "{number}: {:?}",
            output.held()
        );
    }
    assert!(0 < refusals && refusals < 99);
}

#[test]
fn every_request_for_memory_is_refused() {
    let heap = Refusing::new(Global);
    heap.refuse_every();
    let mut input = Source::ending(LINES, 1000);
    let mut output = Sink::new(1000, 1000, true);
    let end = run(&heap, &mut input, &mut output);
    assert_eq!(end, Ok(ToolEnd::Done));
    assert_eq!(output.held(), REFUSED[0]);
}
