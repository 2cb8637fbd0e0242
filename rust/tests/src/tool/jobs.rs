//! Lines that spell the benchmark's jobs: which line is the first bad one.

use atlas_bench::jobs::{jobs, JobsError};
use wollemigo_support::alloc::Global;

// The number of the bad line, or 0.
fn bad_line(text: &[u8]) -> u64 {
    match jobs(Global, text) {
        Err(JobsError::BadLine(number)) => number,
        _ => 0,
    }
}

#[test]
fn names_the_bad_line() {
    assert_eq!(bad_line(b"glyph 1\ncolumn 8000000"), 0);
    assert_eq!(bad_line(b"glyph 1\nglyph 0\n"), 2);
    assert_eq!(bad_line(b"glyph 1\n\nglyph 1\n"), 2);
    assert_eq!(bad_line(b"column 8000001\n"), 1);
    assert_eq!(bad_line(b"sprite 1\nsearch 1\ngrowth  1\n"), 3);
}
