//! For tests: runs a program on the lines that are stored beside its proved form, in `crates/NAME/stdin`, and compares what it
//! writes with `crates/NAME/stdout`, which the proved form writes too.
use std::fs;
use std::path::{Path, PathBuf};
use std::process::{Command, Stdio};

/// The folder of a proved crate.
pub fn folder_of(name: &str) -> PathBuf {
    Path::new(env!("CARGO_MANIFEST_DIR"))
        .join("../../crates")
        .join(name)
}

/// Runs `program` on what is stored for the crate `name`. Panics where it ends badly or writes something else.
pub fn compare(program: &str, name: &str) {
    let folder = folder_of(name);
    let lines = fs::File::open(folder.join("stdin")).expect("crates/NAME/stdin");
    let wanted = fs::read(folder.join("stdout")).expect("crates/NAME/stdout");
    let output = Command::new(program)
        .current_dir(&folder)
        .stdin(Stdio::from(lines))
        .output()
        .expect("the program starts");
    assert!(
        output.status.success(),
        "{} ended with {}",
        name,
        output.status
    );
    if let Some(line) = first_difference(&output.stdout, &wanted) {
        panic!(
            "{} writes something else on line {} of its stdout",
            name, line
        );
    }
}

/// The number of the first line that differs, counted from 1.
fn first_difference(written: &[u8], wanted: &[u8]) -> Option<usize> {
    if written == wanted {
        return None;
    }
    let same = written
        .split(|b| *b == b'\n')
        .zip(wanted.split(|b| *b == b'\n'))
        .take_while(|(a, b)| a == b);
    Some(same.count() + 1)
}

#[cfg(test)]
mod tests {
    use super::first_difference;

    #[test]
    fn the_first_line_that_differs_is_named() {
        let rows: [(&str, &str, Option<usize>); 4] = [
            ("a\nb\n", "a\nb\n", None),
            ("a\nc\n", "a\nb\n", Some(2)),
            ("", "a\n", Some(1)),
            ("a\n", "a\nb\n", Some(2)),
        ];
        for (written, wanted, line) in rows {
            assert_eq!(
                first_difference(written.as_bytes(), wanted.as_bytes()),
                line,
                "{:?} {:?}",
                written,
                wanted
            );
        }
    }
}
