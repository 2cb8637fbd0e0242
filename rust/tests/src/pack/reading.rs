//! Lines that are read.

use super::sprite;
use atlas_pack::folders::folder_groups;
use atlas_pack::job::read_job;
use atlas_pack::settings::{read_settings, Settings, Sheets, DEFAULT_SETTINGS};
use atlas_pack::sprites::read_sprite;
use wollemigo_core::atlas_model::size2;
use wollemigo_support::alloc::Global;

// Each row: a text, and the line that says what is wrong with it.
const BAD: [(&str, &str); 22] = [
    (
        "a 1 2\nb 1\n",
        "line 2: not a sprite, which is NAME WIDTH HEIGHT",
    ),
    (
        "a 1 2\n\nb 1 2",
        "line 2: not a sprite, which is NAME WIDTH HEIGHT",
    ),
    (
        "a 1 2\nb 1 2 \n",
        "line 2: not a sprite, which is NAME WIDTH HEIGHT",
    ),
    (
        "a 1 2\r\n",
        "line 1: not a sprite, which is NAME WIDTH HEIGHT",
    ),
    (" 1 2\n", "line 1: not a sprite, which is NAME WIDTH HEIGHT"),
    (
        "a  1 2\n",
        "line 1: not a sprite, which is NAME WIDTH HEIGHT",
    ),
    (
        "a 1 2 turned\n",
        "line 1: not a sprite, which is NAME WIDTH HEIGHT",
    ),
    (
        "a 1 2147483648\n",
        "line 1: not a sprite, which is NAME WIDTH HEIGHT",
    ),
    (
        "sheet\nsheet turn\n",
        "line 2: not a sprite, which is NAME WIDTH HEIGHT",
    ),
    (
        "a 1 2\nb 3 4\na 5 6\n",
        "line 3: this name is already used on an earlier line",
    ),
    (
        "sheet turn\na 1 2\na 1 2\n",
        "line 3: this name is already used on an earlier line",
    ),
    (
        "a 1 2\n\"a\" 1 2\n",
        "line 2: this name is already used on an earlier line",
    ),
    (
        "\"\\u00e4 b\" 1 2\n\"\u{e4} b\" 3 4\n",
        "line 2: this name is already used on an earlier line",
    ),
    ("sheet 10 10\n", "line 1: not a setting, or not its numbers"),
    (
        "sheet pages -1\n",
        "line 1: not a setting, or not its numbers",
    ),
    (
        "sheet pages 2 fill\n",
        "line 1: pages can't be combined with fill, dense or json",
    ),
    (
        "sheet dense pages 2\n",
        "line 1: pages can't be combined with fill, dense or json",
    ),
    (
        "sheet pages 1 turn json\na 1 2\na 1 2\n",
        "line 1: pages can't be combined with fill, dense or json",
    ),
    (
        "sheet group turn\na 1 2\na 1 2\n",
        "line 1: group needs pages",
    ),
    (
        "sheet powers\n",
        "line 1: not a setting, or not its numbers",
    ),
    (
        "sheet padding -1\n",
        "line 1: not a setting, or not its numbers",
    ),
    (
        "sheet padding 65536\n",
        "line 1: not a setting, or not its numbers",
    ),
];

// What is wrong with a text, or how many sprites it names.
fn told(text: &str) -> String {
    match read_job(Global, text.as_bytes()) {
        Ok(job) => format!("{} sprites", job.sprites.len()),
        Err(error) => error.to_string(),
    }
}

#[test]
fn bad_lines() {
    for (text, wrong) in BAD {
        assert_eq!(told(text), wrong, "{text:?}");
    }
}

#[test]
fn good_lines() {
    for (text, sprites) in [
        ("", "0 sprites"),
        ("sheet", "0 sprites"),
        ("a 1 2", "1 sprites"),
        ("sheet json\nsheet 1 2\n~!\"\\ 0 -5\n", "2 sprites"),
    ] {
        assert_eq!(told(text), sprites, "{text:?}");
    }
}

#[test]
fn sprites() {
    let read = read_sprite(Global, b"a/b.png 007 -3").expect("memory");
    let sprite = read.expect("a sprite");
    assert_eq!(sprite.name, "a/b.png");
    assert_eq!(sprite.size, size2(7, -3));
    let none = read_sprite(Global, b"a/b.png 7").expect("memory");
    assert!(none.is_none());
}

// Each row: the bytes of a line that names no sprite.
const NO_NAMES: [&[u8]; 22] = [
    // Bytes that aren't UTF-8: one alone, one missing, a surrogate's, one between quotation marks.
    b"\xff 1 2",
    b"\xc3 1 2",
    b"\xed\xa0\x80 1 2",
    b"\"\xe4\" 1 2",
    // A quotation mark that isn't closed, or is followed by no space.
    b"\"a 1 2",
    b"\"",
    b"\"a\\\" 1 2",
    b"\"a\"b 1 2",
    b"\"\" 1 2",
    // Control characters, as they are and by escapes.
    b"a\tb 1 2",
    b"a\x7f 1 2",
    b"a\xc2\x85 1 2",
    b"\"a\tb\" 1 2",
    b"\"\\n\" 1 2",
    b"\"\\u000a\" 1 2",
    b"\"\\u0085\" 1 2",
    // Escapes that are none, and halves of a character alone.
    b"\"\\x\" 1 2",
    b"\"\\u12g4\" 1 2",
    b"\"\\u123\" 1 2",
    b"\"\\ud83d\" 1 2",
    b"\"\\ud83d\\u0041\" 1 2",
    b"\"\\ude00\" 1 2",
];

#[test]
fn no_names() {
    for line in NO_NAMES {
        let read = read_sprite(Global, line).expect("memory");
        assert!(read.is_none(), "{line:?}");
    }
}

// Each row: how a name is spelled, and the name.
const NAMES: [(&str, &str); 11] = [
    ("b\u{e4}r", "b\u{e4}r"),
    ("q\"", "q\""),
    ("a\\n", "a\\n"),
    ("\"a b.png\"", "a b.png"),
    ("\"a\"", "a"),
    ("\"\\\"\\\\\\/\"", "\"\\/"),
    ("\"\\u0041\\u00e4\\u20AC\"", "A\u{e4}\u{20ac}"),
    ("\"x\\ud83d\\uDE00y\"", "x\u{1f600}y"),
    ("\"\\ud800\\udc00\\udbff\\udfff\"", "\u{10000}\u{10ffff}"),
    ("\"\\ue000\\ud7ff\"", "\u{e000}\u{d7ff}"),
    ("\u{a0}", "\u{a0}"),
];

#[test]
fn names() {
    for (spelled, name) in NAMES {
        let line = format!("{spelled} 1 2");
        let read = read_sprite(Global, line.as_bytes()).expect("memory");
        assert_eq!(read.expect("a sprite").name, name);
    }
}

// Each row: the words after `sheet`, and what they set.
fn settings_rows() -> [(&'static str, Option<Settings>); 9] {
    let usual = DEFAULT_SETTINGS;
    [
        ("", Some(usual)),
        (
            " one 5 6 align 4 8",
            Some(Settings {
                sheets: Sheets::One(size2(5, 6)),
                alignment: size2(4, 8),
                ..usual
            }),
        ),
        (
            " squares 1 9 padding 2 turn fill",
            Some(Settings {
                sheets: Sheets::Squares {
                    least: 1,
                    greatest: 9,
                },
                padding: 2,
                turn: true,
                fill: true,
                ..usual
            }),
        ),
        (
            " json width 5 90 powers 64 effort 7 seed 8 effort 9",
            Some(Settings {
                sheets: Sheets::Powers { greatest: 64 },
                effort: 9,
                seed: 8,
                json: true,
                ..usual
            }),
        ),
        (
            " width 5 90",
            Some(Settings {
                sheets: Sheets::Heights {
                    width: 5,
                    greatest: 90,
                },
                ..usual
            }),
        ),
        (
            " dense",
            Some(Settings {
                dense: true,
                ..usual
            }),
        ),
        (
            " pages 3 turn pages 2",
            Some(Settings {
                turn: true,
                pages: Some(2),
                ..usual
            }),
        ),
        (
            " group pages 2",
            Some(Settings {
                pages: Some(2),
                group: true,
                ..usual
            }),
        ),
        (" turn 1", None),
    ]
}

#[test]
fn settings() {
    for (words, wanted) in settings_rows() {
        assert_eq!(read_settings(words.as_bytes()), wanted, "{words:?}");
    }
}

// Each row: a name, and the number of its folder, which is that of the first row with the same before its last `/`.
const FOLDERS: [(&str, Option<usize>); 10] = [
    ("a", None),
    ("a/b", Some(1)),
    ("c/a/b", Some(2)),
    ("a/x", Some(1)),
    ("/x", Some(4)),
    ("c/a/y", Some(2)),
    ("a\\b", None),
    ("/", Some(4)),
    ("a//z", Some(8)),
    ("a/b/", Some(9)),
];

#[test]
fn folders() {
    let sprites = FOLDERS.map(|(name, _)| sprite(name, 1, 2));
    let groups = folder_groups(Global, &sprites).expect("memory");
    assert_eq!(groups.as_slice(), FOLDERS.map(|(_, number)| number));
}
