//! Runs of the tool's lines.

use super::playing::{answers, play, Row};
use atlas_lines::{parse_line, Command, ToolEnd};
use wollemigo_core::guillotiere::size2;

static ROWS: [Row; 14] = [
    (b"", b"", ToolEnd::Done),
    (
        b"simple 100 300\ntake 100 100\ntake 100 100\ntake 100 100\ntake 1 1\n",
        b"ok\nat 0 0 100 100\nat 0 100 100 200\nat 0 200 100 300\nnone\n",
        ToolEnd::Done,
    ),
    (
        b"simple 100 100\ntake 50 50\ntake 50 50\ntake 50 50\ntake 50 50\ntake 1 1\n",
        b"ok\nat 0 0 50 50\nat 50 0 100 50\nat 0 50 50 100\nat 50 50 100 100\nnone\n",
        ToolEnd::Done,
    ),
    (
        b"take 5 5\nsimple 0 5\nsimple 10 10\nfrob\ntake 1 1\n",
        b"no simple\nbad call\nok\nbad line 4\n",
        ToolEnd::BadLine(4),
    ),
    (
        b"simple 10 10\n\ntake 0005 -0\ntake 1  1\n",
        b"ok\nnone\nbad line 4\n",
        ToolEnd::BadLine(4),
    ),
    // A line of 120 bytes.
    (
        b"simple 10 10\n\
          take 00000000000000000000000000000000000000000000000000000000000000000000000000000000000000000000000000000000000000004 4\n",
        b"ok\nat 0 0 4 4\n",
        ToolEnd::Done,
    ),
    // A line of 121 bytes.
    (
        b"simple 10 10\n\
          take 000000000000000000000000000000000000000000000000000000000000000000000000000000000000000000000000000000000000000004 4\n",
        b"ok\nbad line 2\n",
        ToolEnd::BadLine(2),
    ),
    // The same as the last line, without its end.
    (
        b"simple 10 10\n\
          take 000000000000000000000000000000000000000000000000000000000000000000000000000000000000000000000000000000000000000004 4",
        b"ok\nbad line 2\n",
        ToolEnd::BadLine(2),
    ),
    (
        b"simple 10 10\ntake -2147483648 1\ntake 2147483648 1\n",
        b"ok\nnone\nbad line 3\n",
        ToolEnd::BadLine(3),
    ),
    (
        b"simple 10 10\ntake 4 4",
        b"ok\nat 0 0 4 4\n",
        ToolEnd::Done,
    ),
    // An unsuccessful `simple` leaves the allocator as it was, a successful one replaces it.
    (
        b"simple 10 10\nsimple 5 -1\ntake 10 10\nsimple 5 5\ntake 6 5\ntake 5 5\n",
        b"ok\nbad call\nat 0 0 10 10\nok\nnone\nat 0 0 5 5\n",
        ToolEnd::Done,
    ),
    (b"\n\n\n", b"", ToolEnd::Done),
    (b"\n\nfrob", b"bad line 3\n", ToolEnd::BadLine(3)),
    (
        b"simple 2147483647 2147483647\ntake 2147483647 2147483646\ntake 2147483647 1\n",
        b"ok\nat 0 0 2147483647 2147483646\nat 0 2147483646 2147483647 2147483647\n",
        ToolEnd::Done,
    ),
];

// Each of these alone spells no command.
static BAD_LINES: [&[u8]; 34] = [
    b" take 1 1",
    b"take 1 1 ",
    b"take +1 1",
    b"take - 1",
    b"take 1",
    b"Take 1 1",
    b"take 1 1\r",
    b"take\t1 1",
    b"take 1 1\0",
    b"take 1 1\xff",
    b"\0",
    b"\xff",
    b"atlas 1",
    b"atlas 1 1 1",
    b"atlas 1 1 1 1 1",
    b"alloc 1",
    b"live 1",
    b"size ",
    b"free -1",
    b"free 4294967296",
    b"free x",
    b"grow",
    b"grow 1 1 1",
    b"free",
    b"take 1 1 1",
    b"simple",
    b"simple 1",
    b"take 1 --1",
    b"take 1 -",
    b"take 1 2147483648",
    b"take 1 -2147483649",
    b"take 1 99999999999999999999",
    b"take 1 1x",
    b"take 1 0x1",
];

#[test]
fn rows() {
    for &row in &ROWS {
        assert!(answers(row), "{:?}", row.0);
        play(row, &[1, 2, 3, 7, 64, 5000]);
    }
}

#[test]
fn bad_lines() {
    for &line in &BAD_LINES {
        let row: Row = (line, b"bad line 1\n", ToolEnd::BadLine(1));
        assert!(parse_line(line).is_none() && answers(row), "{line:?}");
    }
}

#[test]
fn lines_spell_commands() {
    let table: [(&[u8], Command); 5] = [
        (b"simple 100 300", Command::Simple(size2(100, 300))),
        (
            b"take -0005 2147483647",
            Command::Take(size2(-5, 2147483647)),
        ),
        (b"take -2147483648 -0", Command::Take(size2(-2147483648, 0))),
        (b"simple 0 007", Command::Simple(size2(0, 7))),
        (b"grow 150 -1", Command::Grow(size2(150, -1))),
    ];
    for (line, want) in table {
        assert_eq!(parse_line(line), Some(want), "{line:?}");
    }
}
