//! Runs of the tool with recorded sessions.

use super::playing::{play, play_with_refusals, Row};
use atlas_lines::{parse_line, ToolEnd};

const NAMED: Row = (
    b"record 100 100\nalloc 20 60\nfree 0\nfree 0\nalloc 20 60\nlive\nempty\n",
    b"ok\nid 0 at 0 0 20 60\nok\nrefused not live\nid 1 at 0 0 20 60\nbox 1 0 0 20 60\nlive 1\n\
      no atlas\n",
    ToolEnd::Done,
);

const REARRANGED: Row = (
    b"record 100 300\nalloc 100 100\nalloc 100 100\nalloc 100 100\nfree 1\nrearrange\nlive\n\
      resize 50 50\nlive\nrecord 0 1\nsize\nclear\nfrom-atlas\natlas 7 7\nempty\n",
    b"ok\nid 0 at 0 0 100 100\nid 1 at 0 100 100 200\nid 2 at 0 200 100 300\nok\n\
      moved 2 0 200 100 300 to 2 0 0 100 100\nmoved 0 0 0 100 100 to 0 0 100 100 200\n\
      changes 2 failures 0\nbox 0 0 100 100 200\nbox 2 0 0 100 100\nlive 2\nlost 0 0 100 100 200\n\
      lost 2 0 0 100 100\nchanges 0 failures 2\nlive 0\nbad call\nsize 50 50\nno atlas\nno atlas\n\
      ok\ntrue\n",
    ToolEnd::Done,
);

static ROWS: [Row; 5] = [
    NAMED,
    REARRANGED,
    // An atlas stays where a session isn't begun; a session takes its place, and then another session.
    (
        b"atlas 7 7\nrecord 0 1\nsize\nrecord 100 100\nalloc 20 60\nholes\nresize 0 5\n\
          grow 99 100\nalloc 101 1\nrecord 5 5\nlive\nsize\nreply\nsize\n",
        b"ok\nbad call\nsize 7 7\nok\nid 0 at 0 0 20 60\nhole 20 0 100 100\nhole 0 60 20 100\n\
          holes 2\nbad call\nbad call\nnone\nok\nlive 0\nsize 5 5\nbad line 13\n",
        ToolEnd::BadLine(13),
    ),
    // Bad calls of a session, and a name that is freed twice.
    (
        b"record 10 10\nalloc 4 4\ngrow 5 5\nresize 0 5\nalloc 4 4\nfree 0\nfree 0\n",
        b"ok\nid 0 at 0 0 4 4\nbad call\nbad call\nid 1 at 4 0 8 4\nok\nrefused not live\n",
        ToolEnd::Done,
    ),
    // A simple allocator beside a session.
    (
        b"record 10 10\nsimple 5 5\nfrom-atlas\ngrow 20 10\nsize\natlas 0 1\nsize\ntake 5 5\n\
          record 3 3\ntake 1 1\n",
        b"ok\nok\nno atlas\nok\nsize 20 10\nbad call\nsize 20 10\nat 0 0 5 5\nok\nnone\n",
        ToolEnd::Done,
    ),
];

// None of these spells a command.
static BAD_LINES: [&[u8]; 8] = [
    b"record",
    b"record ",
    b"record 1",
    b"record 1 1 ",
    b"record 1 1 1",
    b" record 1 1",
    b"Record 1 1",
    b"record 1 2147483648",
];

#[test]
fn rows() {
    for &row in &ROWS {
        play(row, &[1, 7, 100000]);
    }
}

#[test]
fn bad_lines() {
    for &line in &BAD_LINES {
        assert_eq!(parse_line(line), None, "{line:?}");
    }
}

#[test]
fn rows_with_each_request_for_memory_refused_in_turn() {
    for row in [NAMED, REARRANGED] {
        play_with_refusals(row);
    }
}
