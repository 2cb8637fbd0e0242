//! Lines, words and numbers of lines.

use atlas_lines::{first_line, first_word, unsigned};

#[test]
fn parts_lines() {
    let (line, rest) = first_line(b"ok\nid 0\n");
    assert_eq!((line, rest), (&b"ok"[..], &b"id 0\n"[..]));
    let (line, rest) = first_line(b"size 1");
    assert_eq!((line, rest), (&b"size 1"[..], &b""[..]));
}

#[test]
fn parts_words() {
    let (word, rest) = first_word(b"box 3 0");
    assert_eq!((word, rest), (&b"box"[..], &b" 3 0"[..]));
}

#[test]
fn reads_numbers() {
    assert_eq!(unsigned(b"4294967295"), Some(4294967295));
    assert!(unsigned(b"4294967296").is_none());
    assert!(unsigned(b"+1").is_none());
}
