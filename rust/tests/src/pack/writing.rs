//! Sheets that are written.

use super::sprite;
use atlas_pack::frames::{fullness, Frame};
use atlas_pack::json::sheet_json;
use atlas_pack::pages::{pages_fullness, pages_lines, PageFrame};
use atlas_pack::sprites::read_sprite;
use atlas_pack::text::sheet_lines;
use core::str;
use wollemigo_core::atlas_model::{point2, size2, Size};
use wollemigo_support::alloc::Global;

// Two sprites on a sheet of 10 x 10: 30 and 21 pixels of 100. The second lies turned, and its name is to be escaped.
fn frames() -> [Frame; 2] {
    let upright = Frame {
        sprite: sprite("a.png", 5, 6),
        corner: point2(1, 0),
        turned: false,
    };
    let turned = Frame {
        sprite: sprite("b\"\\", 7, 3),
        corner: point2(6, 2),
        turned: true,
    };
    [upright, turned]
}

const LINES: &str = "sheet 10 10\na.png 1 0 5 6\nb\"\\ 6 2 7 3 turned\nc none\nfull 510\n";

const JSON: &str = "{\"frames\":{
\"a.png\":{\"frame\":{\"x\":1,\"y\":0,\"w\":5,\"h\":6},\"rotated\":false},
\"b\\\"\\\\\":{\"frame\":{\"x\":6,\"y\":2,\"w\":7,\"h\":3},\"rotated\":true}
},\"meta\":{\"size\":{\"w\":10,\"h\":10}}}
";

const NO_JSON: &str = "{\"frames\":{

},\"meta\":{\"size\":{\"w\":1,\"h\":1}}}
";

const ONE_LEFT: &str = "{\"frames\":{

},\"meta\":{\"size\":{\"w\":2,\"h\":3},\"left\":[\"c\"]}}
";

const THREE_LEFT: &str = "{\"frames\":{
\"a.png\":{\"frame\":{\"x\":1,\"y\":0,\"w\":5,\"h\":6},\"rotated\":false},
\"b\\\"\\\\\":{\"frame\":{\"x\":6,\"y\":2,\"w\":7,\"h\":3},\"rotated\":true}
},\"meta\":{\"size\":{\"w\":10,\"h\":10},\"left\":[\"c\",\"d \\\"\\\\\",\"e\"]}}
";

#[test]
fn lines() {
    let left = [sprite("c", 9, 9)];
    let text = sheet_lines(Global, size2(10, 10), &frames(), &left).expect("memory");
    assert_eq!(str::from_utf8(&text), Ok(LINES));
    let none = sheet_lines(Global, size2(1, 1), &[], &[]).expect("memory");
    assert_eq!(str::from_utf8(&none), Ok("sheet 1 1\nfull 0\n"));
}

#[test]
fn json() {
    let text = sheet_json(Global, size2(10, 10), &frames(), &[]).expect("memory");
    assert_eq!(str::from_utf8(&text), Ok(JSON));
    let none = sheet_json(Global, size2(1, 1), &[], &[]).expect("memory");
    assert_eq!(str::from_utf8(&none), Ok(NO_JSON));
}

#[test]
fn json_of_those_left_out() {
    let left = ["c", "d \"\\", "e"].map(|name| sprite(name, 9, 9));
    let one = sheet_json(Global, size2(2, 3), &[], &left[..1]).expect("memory");
    assert_eq!(str::from_utf8(&one), Ok(ONE_LEFT));
    let three = sheet_json(Global, size2(10, 10), &frames(), &left).expect("memory");
    assert_eq!(str::from_utf8(&three), Ok(THREE_LEFT));
}

#[test]
fn how_full() {
    let frames = frames();
    for (width, height, full) in [(10, 10, 510), (17, 3, 1000), (1000, 1000, 0), (0, 5, 0)] {
        assert_eq!(fullness(size2(width, height), &frames), full);
    }
}

// The same two on two sheets, the first on the second: of their 200 pixels 51 are used, and the sheets are told first.
fn paged() -> [PageFrame; 2] {
    let [first, second] = frames();
    [(1, first), (0, second)].map(|(page, frame)| PageFrame { page, frame })
}

const SHEETS: [Size; 2] = [
    Size {
        width: 10,
        height: 12,
    },
    Size {
        width: 8,
        height: 10,
    },
];

const PAGES: &str = "sheet 10 12\nsheet 8 10\na.png 1 1 0 5 6\nb\"\\ 0 6 2 7 3 turned\nfull 255\n";

#[test]
fn pages() {
    let text = pages_lines(Global, &SHEETS, &paged()).expect("memory");
    assert_eq!(str::from_utf8(&text), Ok(PAGES));
    let none = pages_lines(Global, &[], &[]).expect("memory");
    assert_eq!(str::from_utf8(&none), Ok("full 0\n"));
}

#[test]
fn how_full_together() {
    let paged = paged();
    assert_eq!(pages_fullness(&SHEETS, &paged), 255);
    assert_eq!(pages_fullness(&[size2(17, 3)], &paged), 1000);
    assert_eq!(pages_fullness(&[], &paged), 0);
}

// Each row: a name, and how it stands in a line.
const NAMES: [(&str, &str); 6] = [
    ("a.png", "a.png"),
    ("a b.png", "\"a b.png\""),
    ("\"", "\"\\\"\""),
    ("\\ \"", "\"\\\\ \\\"\""),
    ("q\"\\", "q\"\\"),
    ("b\u{e4}r/\u{1f600}", "b\u{e4}r/\u{1f600}"),
];

// The line of a sprite without a place has its name, and is read as that name.
#[test]
fn names() {
    for (name, spelled) in NAMES {
        let left = [sprite(name, 1, 2)];
        let text = sheet_lines(Global, size2(1, 1), &[], &left).expect("memory");
        let wanted = format!("sheet 1 1\n{spelled} none\nfull 0\n");
        assert_eq!(str::from_utf8(&text), Ok(wanted.as_str()));
        let line = format!("{spelled} 1 2");
        let again = read_sprite(Global, line.as_bytes()).expect("memory");
        assert_eq!(again.expect("a sprite").name, name);
    }
}
