//! Runs of the tool's lines on an atlas.

use super::devices::{Sink, Source};
use super::playing::{play, run, Row};
use atlas_lines::ToolEnd;
use test_memory::Refusing;
use wollemigo_support::alloc::Global;

const ROWS: [Row; 6] = [
    (
        b"atlas 100 100\nalloc 20 60\nlive\nholes\nsize\n",
        b"ok\nid 3 at 0 0 20 60\nbox 3 0 0 20 60\nlive 1\nhole 20 0 100 100\nhole 0 60 20 100\n\
          holes 2\nsize 100 100\n",
        ToolEnd::Done,
    ),
    (
        b"alloc 5 5\natlas 0 5\nsize\natlas 64 64 8 8 32 256\nalloc 9 1\nalloc 2147483647 1\nfrob\n",
        b"no atlas\nbad call\nno atlas\nok\nid 2 at 0 0 16 8\nnone\nbad line 7\n",
        ToolEnd::BadLine(7),
    ),
    (
        b"atlas 100 300\nalloc 100 100\nalloc 100 100\nalloc 100 100\nfree 0\nfree 1\nfree 1\n\
          free 4294967295\nholes\nempty\n",
        b"ok\nid 0 at 0 0 100 100\nid 1 at 0 100 100 200\nid 2 at 0 200 100 300\nok\nok\n\
          refused not live\nrefused not live\nhole 0 0 100 200\nholes 1\nfalse\n",
        ToolEnd::Done,
    ),
    (
        b"empty\nfree 0\nlive\nholes\nalloc 0 0\natlas 9 9 0 1 1 2\natlas 9 9 1 1 33 32\n\
          atlas 9 9\nempty\n",
        b"no atlas\nno atlas\nno atlas\nno atlas\nno atlas\nbad call\nbad call\nok\ntrue\n",
        ToolEnd::Done,
    ),
    (
        b"atlas 100 100\nalloc 100 100\ngrow 99 150\ngrow 150 150\nholes\nsize\nfree 0\nempty\n",
        b"ok\nid 0 at 0 0 100 100\nbad call\nok\nhole 100 0 150 150\nhole 0 100 100 150\nholes 2\n\
          size 150 150\nok\ntrue\n",
        ToolEnd::Done,
    ),
    (
        b"grow 5 5\natlas 5 5\ngrow 6 4\ngrow -2147483648 6\nsize\ngrow 6 8\nsize\ngrow 5\n",
        b"no atlas\nok\nbad call\nbad call\nsize 5 5\nok\nsize 6 8\nbad line 8\n",
        ToolEnd::BadLine(8),
    ),
];

const GROWTH: &[u8] = b"atlas 100 100\nalloc 100 100\ngrow 150 150\nsize\n";

// Which request for memory is refused, and what these lines are answered then: a new atlas makes one, and the third
// one isn't made.
const GROWTH_REFUSED: [(u32, &[u8]); 3] = [
    (1, b"refused memory\nno atlas\nno atlas\nno atlas\n"),
    (
        2,
        b"ok\nid 0 at 0 0 100 100\nrefused memory\nsize 100 100\n",
    ),
    (3, b"ok\nid 0 at 0 0 100 100\nok\nsize 150 150\n"),
];

#[test]
fn rows() {
    for row in ROWS {
        play(row, &[1, 7, 5000]);
    }
}

#[test]
fn a_growth_with_each_request_for_memory_refused_in_turn() {
    let heap = Refusing::new(Global);
    for (number, want) in GROWTH_REFUSED {
        heap.refuse_nth(number);
        let mut input = Source::ending(GROWTH, 1000);
        let mut output = Sink::new(1000, 1000, true);
        let got = run(&heap, &mut input, &mut output);
        assert_eq!(got, Ok(ToolEnd::Done), "{number}");
        assert_eq!(output.held(), want, "{number}");
    }
}
