//! Runs of all commands of the tool, with each request for memory refused in turn, and lines that are bad.

use super::playing::{play, play_with_refusals, run_text, Row};
use atlas_lines::{parse_line, ToolEnd};

const REARRANGED: Row = (
    b"atlas 100 300\nalloc 100 100\nalloc 100 100\nalloc 100 100\nfree 1\nrearrange\nlive\nholes\n\
      empty\n",
    b"ok\nid 0 at 0 0 100 100\nid 1 at 0 100 100 200\nid 2 at 0 200 100 300\nok\n\
      moved 2 0 200 100 300 to 0 0 0 100 100\nmoved 0 0 0 100 100 to 1 0 100 100 200\n\
      changes 2 failures 0\nbox 0 0 0 100 100\nbox 1 0 100 100 200\nlive 2\nhole 0 200 100 300\n\
      holes 1\nfalse\n",
    ToolEnd::Done,
);

const STARTED: Row = (
    b"atlas 100 300\nalloc 100 100\nalloc 100 100\nalloc 100 100\nfree 0\nfree 1\nfrom-atlas\n\
      simple 1 1\nfrom-atlas\ntake 100 100\ntake 100 100\ntake 100 100\n",
    b"ok\nid 0 at 0 0 100 100\nid 1 at 0 100 100 200\nid 2 at 0 200 100 300\nok\nok\nno simple\n\
      ok\nok\nat 0 0 100 100\nat 0 100 100 200\nnone\n",
    ToolEnd::Done,
);

static ROWS: [Row; 9] = [
    REARRANGED,
    STARTED,
    (
        b"from-atlas\natlas 100 100\nalloc 20 60\nfrom-atlas\nsimple 1 1\nfrom-atlas\ntake 80 100\n\
          take 20 40\ntake 1 1\n",
        b"no atlas\nok\nid 3 at 0 0 20 60\nno simple\nok\nok\nat 20 0 100 100\nat 0 60 20 100\n\
          none\n",
        ToolEnd::Done,
    ),
    // A simple allocator alone.
    (
        b"simple 5 5\nfrom-atlas\ntake 5 5\n",
        b"ok\nno atlas\nat 0 0 5 5\n",
        ToolEnd::Done,
    ),
    (
        b"alloc 5 5\nfree x\nsize\n",
        b"no atlas\nbad line 2\n",
        ToolEnd::BadLine(2),
    ),
    (
        b"atlas 0 5\nsize\natlas 64 64 8 8 32 256\nalloc 9 1\nalloc 2147483647 1\nfree 4294967295\n\
          grow 63 64\nholes\nsize\nempty\n",
        b"bad call\nno atlas\nok\nid 2 at 0 0 16 8\nnone\nrefused not live\nbad call\n\
          hole 16 0 64 8\nhole 0 8 64 64\nholes 2\nsize 64 64\nfalse\n",
        ToolEnd::Done,
    ),
    (
        b"atlas 100 300\nalloc 100 100\nalloc 100 100\nalloc 100 100\nfree 1\nresize 100 150\n\
          resize 0 9\nsize\nclear\nempty\nholes\n",
        b"ok\nid 0 at 0 0 100 100\nid 1 at 0 100 100 200\nid 2 at 0 200 100 300\nok\n\
          moved 2 0 200 100 300 to 0 0 0 100 100\nlost 0 0 0 100 100\nchanges 1 failures 1\n\
          bad call\nsize 100 150\nok\ntrue\nhole 0 0 100 150\nholes 1\n",
        ToolEnd::Done,
    ),
    // Without an atlas.
    (
        b"clear\nrearrange\nresize 5 5\nresize 0 0\nsimple 9 9\ntake 9 9\n",
        b"no atlas\nno atlas\nno atlas\nno atlas\nok\nat 0 0 9 9\n",
        ToolEnd::Done,
    ),
    // With nothing live, and with a side below 0.
    (
        b"atlas 8 9\nrearrange\nresize -1 9\nresize 9 -2147483648\nresize 9 8\nsize\nclear\nempty\n",
        b"ok\nchanges 0 failures 0\nbad call\nbad call\nchanges 0 failures 0\nsize 9 8\nok\ntrue\n",
        ToolEnd::Done,
    ),
];

// Each of these is bad, alone and as the second line.
static BAD_LINES: [&[u8]; 26] = [
    b" take 1 1",
    b"take 1 1 ",
    b"take +1 1",
    b"take - 1",
    b"take 1",
    b"Take 1 1",
    b"free -1",
    b"free 4294967296",
    b"clear ",
    b" clear",
    b"clear 1",
    b"Clear",
    b"clea",
    b"clears",
    b"rearrange 1 1",
    b"rearrange ",
    b"resize",
    b"resize 1",
    b"resize 1 1 1",
    b"resize 1 1 ",
    b"resize 1 2147483648",
    b"from_atlas",
    b"from-atlas 1",
    b"take 1 1\r",
    b"take 1 1\0",
    b"take 1 1\xff",
];

#[test]
fn rows() {
    for &row in &ROWS {
        play(row, &[1, 7, 100000]);
    }
}

// A line between two that are well.
fn between(line: &[u8]) -> Vec<u8> {
    [b"simple 10 10\n", line, b"\ntake 1 1\n"].concat()
}

#[test]
fn bad_second_lines() {
    for &line in &BAD_LINES {
        assert!(parse_line(line).is_none(), "{line:?}");
        let (got, held) = run_text(&between(line));
        assert_eq!(got, Ok(ToolEnd::BadLine(2)), "{line:?}");
        assert_eq!(held.as_slice(), b"ok\nbad line 2\n", "{line:?}");
    }
}

#[test]
fn rows_with_each_request_for_memory_refused_in_turn() {
    for row in [REARRANGED, STARTED] {
        play_with_refusals(row);
    }
}

// A line of 121 bytes spells no command, also where one of 120 bytes does.
#[test]
fn a_command_has_at_most_120_bytes() {
    let mut line = b"take 1 ".to_vec();
    line.resize(120, b'0');
    assert!(parse_line(&line).is_some());
    line.push(b'0');
    assert_eq!(parse_line(&line), None);
}
