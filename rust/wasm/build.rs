//! Lists the modules of the exports for C, so that they are modules of this crate.
use std::path::{Path, PathBuf};
use std::{env, fs};

// What the names of modules begin with that only one part of the library needs, by the feature that leaves them out.
const LEFT_OUT: [(&str, &[&str]); 2] = [
    (
        "CARGO_FEATURE_ONLY_ATLAS",
        &[
            "cache",
            "dense",
            "filled",
            "followed",
            "groups",
            "paged",
            "pages",
            "plain_cache",
            "plain_paged",
            "sheet",
            "simple",
        ],
    ),
    (
        "CARGO_FEATURE_ONLY_CACHE",
        &[
            "atlas",
            "dense",
            "filled",
            "groups",
            "lifetimes",
            "paged",
            "pages",
            "plain_paged",
            "plain_sheet",
            "sheet",
            "simple",
            "writing",
        ],
    ),
];

fn is_left_out(name: &str) -> bool {
    LEFT_OUT.iter().any(|(feature, words)| {
        env::var_os(feature).is_some() && words.iter().any(|word| name.starts_with(word))
    })
}

fn main() {
    let root = env::var("CARGO_MANIFEST_DIR").expect("cargo says where the crate is");
    let sources = Path::new(&root).join("../c/src");
    let library = fs::read_to_string(sources.join("lib.rs")).expect("rust/erase wrote lib.rs");
    let names = library
        .lines()
        .filter_map(|line| line.strip_prefix("mod ")?.strip_suffix(';'));
    let folder = PathBuf::from(env::var("OUT_DIR").expect("cargo gives a folder"));
    let modules: String = names
        .filter(|name| !is_left_out(name))
        .map(|name| {
            let path = sources.join(format!("{}.rs", name));
            format!("#[path = {:?}]\nmod {};\n", path, name)
        })
        .collect();
    fs::write(folder.join("library.rs"), modules).expect("the list is written");
    println!(
        "cargo:rerun-if-changed={}",
        sources.join("lib.rs").display()
    );
}
