//! Writes the plain Rust that the proved sources give, or compares it with what stands there.
use eraser::fault::Fault;
use eraser::interface::Interface;
use eraser::tree::{Part, Tree};
use std::path::{Path, PathBuf};
use std::process::ExitCode;

const USAGE: &str = "\
erase               writes rust/core/src, rust/c, what is written of the exports for C, and rust/erased, as the sources in crates/ give them
erase --programs    writes rust/erased alone: programs and tests, which are written when they are built. It needs no rustfmt
erase --check       says whether all but rust/erased is so; the last line is 'N passed, M failed'
erase --count       says how often each rule was applied
erase --interface   lists what the library for C offers, and says whether the files that are written of it are so";

fn run(words: &[String]) -> Result<bool, Fault> {
    let rust = PathBuf::from(env!("CARGO_MANIFEST_DIR")).join("..");
    let root = rust.join("..");
    if matches!(words, [word] if word == "--interface") {
        return list_interface(&root, &rust);
    }
    let part = match words.first().map(String::as_str) {
        Some("--check") => Part::Kept,
        Some("--programs") => Part::Programs,
        _ => Part::All,
    };
    let tree = Tree::made(&root, part)?;
    match words {
        [word] if word == "--count" => {
            for (rule, count) in &tree.counts {
                println!("rule {}: {} times", rule, count);
            }
            Ok(true)
        }
        [word] if word == "--check" => {
            let found = tree.differences(&rust)?;
            for line in &found {
                println!("{}", line);
            }
            println!(
                "{} passed, {} failed",
                tree.files.len() - found.len().min(tree.files.len()),
                found.len()
            );
            Ok(found.is_empty())
        }
        _ => {
            println!(
                "{} of {} files changed",
                tree.write(&rust)?,
                tree.files.len()
            );
            Ok(true)
        }
    }
}

fn list_interface(root: &Path, rust: &Path) -> Result<bool, Fault> {
    let interface = Interface::read(root)?;
    println!("{}", interface.lines());
    let mut is_so = true;
    for (path, text) in interface.files(root)?.0 {
        if std::fs::read_to_string(rust.join(&path)).ok().as_ref() != Some(&text) {
            eprintln!(
                "{}: differs from what the exports give",
                eraser::tree::shown(&path)
            );
            is_so = false;
        }
    }
    Ok(is_so)
}

fn main() -> ExitCode {
    let words: Vec<String> = std::env::args().skip(1).collect();
    let is_known = matches!(words.as_slice(), [] | [_])
        && words.iter().all(|w| {
            matches!(
                w.as_str(),
                "--programs" | "--check" | "--count" | "--interface"
            )
        });
    if !is_known {
        eprintln!("{}", USAGE);
        return ExitCode::from(2);
    }
    match run(&words) {
        Ok(true) => ExitCode::SUCCESS,
        Ok(false) => ExitCode::FAILURE,
        Err(fault) => {
            eprintln!("erase: {}", fault);
            ExitCode::FAILURE
        }
    }
}
