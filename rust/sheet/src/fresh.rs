//! What a run needn't do again: where nothing that it reads or wrote has changed since the one before.
use crate::anchor;
use crate::animation;
use crate::fault::{Fault, FILES};
use crate::folder::Listed;
use crate::inputs::Input;
use crate::set::Target;
use crate::sums;
use crate::words::Words;
use std::fs;
use std::path::{Path, PathBuf};

// The program itself: another build may write something else.
fn program() -> String {
    let path = std::env::current_exe().unwrap_or_default();
    format!("{} {:?}", env!("CARGO_PKG_VERSION"), Input::look(&path))
}

/// What is asked for: by the program, the words but those that change no file, and the names of all files.
pub fn asked(words: &Words, listed: &Listed) -> String {
    let words = Words {
        watch: false,
        check: false,
        clean: false,
        depfile: None,
        config: None,
        ..words.clone()
    };
    let all = format!(
        "{} {:?} {:?} {:?}",
        program(),
        words,
        listed.files,
        listed.notes
    );
    sums::of(all.as_bytes())
}

/// The texts that a run reads beside pictures, whether they are there or not.
pub fn texts(words: &Words) -> Vec<PathBuf> {
    let own = [anchor::FILE, animation::FILE].map(|name| words.folder.join(name));
    own.into_iter().chain(words.template.clone()).collect()
}

// What make takes for its own.
fn escaped(path: &str) -> String {
    let mut text = String::new();
    for letter in path.chars() {
        match letter {
            '$' => text.push('$'),
            ' ' | '#' | ':' | '\\' => text.push('\\'),
            _ => {}
        }
        text.push(letter);
    }
    text
}

/// A rule for make and ninja: the record is made from these files and folders, each of which may be gone the next time.
pub fn write_rule(path: &Path, record: &Path, from: &[PathBuf]) -> Result<(), Fault> {
    let refused = |why: &dyn std::fmt::Display| Fault::file(path, why);
    let mut names = Vec::new();
    for one in std::iter::once(&record.to_path_buf()).chain(from) {
        let name = one
            .to_str()
            .filter(|name| !name.chars().any(char::is_control));
        let line = format!("{:?} can't stand in it", one);
        names.push(escaped(name.ok_or_else(|| {
            Fault::new(FILES, format!("{}: {}", path.display(), line))
        })?));
    }
    let gone: String = names[1..]
        .iter()
        .map(|name| format!("{}:\n", name))
        .collect();
    let text = format!("{}: {}\n\n{}", names[0], names[1..].join(" \\\n  "), gone);
    if fs::read(path).map_or(false, |there| there == text.as_bytes()) {
        return Ok(());
    }
    fs::write(path, text).map_err(|error| refused(&error))
}

/// Writes the record again as it is, where it is older than what it is made from: make goes by the time alone.
pub fn renew(record: &Path, from: &[PathBuf], target: &Target) -> Result<(), Fault> {
    let time = |path: &Path| fs::metadata(path).and_then(|file| file.modified()).ok();
    let is_newer = |path: &PathBuf| time(path) > time(record);
    if !from.iter().any(is_newer) {
        return Ok(());
    }
    let written = fs::read(record).and_then(|bytes| target.replace(record, &bytes));
    written.map_err(|error| Fault::file(record, error))
}
