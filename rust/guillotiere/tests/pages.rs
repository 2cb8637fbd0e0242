//! What stands on the pages of the documentation: an example on each public type and function, and on each call that a first program makes;
//! and nothing that isn't in this package.
use std::fs;
use std::path::{Path, PathBuf};

/// Calls of a first program, by the file that has them.
const FIRST: [(&str, &[&str]); 4] = [
    (
        "atlas.rs",
        &[
            "new",
            "with_options",
            "get",
            "allocate",
            "can_fit",
            "try_reserve",
            "deallocate",
            "try_deallocate_all",
            "clear",
            "grow",
            "rearrange",
            "resize_and_rearrange",
        ],
    ),
    ("simple.rs", &["allocate"]),
    ("walks.rs", &["allocations"]),
    (
        "cache.rs",
        &[
            "new",
            "with_hasher",
            "begin_frame",
            "get",
            "insert",
            "remove",
            "drain_changes",
            "trim",
            "repack",
            "iter",
        ],
    ),
];

fn sources(folder: &Path) -> Vec<PathBuf> {
    let entries = fs::read_dir(folder)
        .unwrap()
        .map(|entry| entry.unwrap().path());
    let (folders, files): (Vec<_>, Vec<_>) = entries.partition(|path| path.is_dir());
    files
        .into_iter()
        .chain(folders.iter().flat_map(|folder| sources(folder)))
        .collect()
}

/// The documentation above a line, without the attributes between.
fn documentation<'a>(lines: &[&'a str], at: usize) -> Vec<&'a str> {
    let above = lines[..at].iter().rev().map(|line| line.trim());
    above
        .skip_while(|line| !line.starts_with("///") && !line.is_empty() && *line != "}")
        .take_while(|line| line.starts_with("///"))
        .collect()
}

/// The name of a line's item, if that is one of those that need an example.
fn named<'a>(line: &'a str, calls: &[&str]) -> Option<&'a str> {
    let words = line.trim_start().strip_prefix("pub ")?;
    let (kind, rest) = words.split_once(' ')?;
    let name = rest
        .split(|c: char| !c.is_alphanumeric() && c != '_')
        .next()?;
    let is_top = !line.starts_with(' ') && ["struct", "enum", "fn"].contains(&kind);
    let is_call = line.starts_with("    pub fn") && calls.contains(&name);
    (is_top || is_call).then_some(name)
}

#[test]
fn what_a_first_program_uses_has_an_example() {
    let folder = Path::new(env!("CARGO_MANIFEST_DIR")).join("src");
    let (mut found, mut without) = (0, Vec::new());
    for path in sources(&folder) {
        let text = fs::read_to_string(&path).unwrap();
        let lines: Vec<&str> = text.lines().collect();
        let file = path.file_name().unwrap().to_str().unwrap();
        let calls = FIRST
            .iter()
            .find(|(name, _)| *name == file)
            .map_or(&[][..], |(_, calls)| calls);
        for (at, line) in lines.iter().enumerate() {
            if let Some(name) = named(line, calls) {
                found += 1;
                if !documentation(&lines, at)
                    .iter()
                    .any(|line| line.starts_with("/// ```"))
                {
                    without.push(format!("{}: {}", file, name));
                }
            }
        }
    }
    assert!(without.is_empty(), "no example: {:?}", without);
    assert!(found > 60, "{}", found);
}

#[test]
fn no_page_points_out_of_the_package() {
    let folder = Path::new(env!("CARGO_MANIFEST_DIR"));
    let mut pages = sources(&folder.join("src"));
    pages.push(folder.join("README.md"));
    for path in pages {
        let text = fs::read_to_string(&path).unwrap();
        for (number, line) in text.lines().enumerate() {
            let is_page = line.trim_start().starts_with("//") || path.ends_with("README.md");
            for word in ["](../", "crates/", "docs/", "specs/", ".rt"] {
                let points = is_page && line.contains(word);
                assert!(!points, "{}:{}: {}", path.display(), number + 1, line);
            }
        }
    }
}
