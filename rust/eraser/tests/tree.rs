//! What is made of a repository's sources: what stands there, and what is written when it is built.
use eraser::tree::{Part, Tree};
use std::fs;
use std::path::{Path, PathBuf};

const LIBRARY: &str =
    "//! The library.\n\n/// One.\npub fn one() -> u32\n    ensures { result ≡ 1 }\n{\n    1\n}\n";

const PROFILES: &str = "[profile.dev]\nopt-level = 1\n";

const KEPT: [&str; 4] = [
    "c/Cargo.toml",
    "c/src/lib.rs",
    "core/src/guillotiere/mod.rs",
    "core/src/lib.rs",
];

const PROGRAMS: [&str; 8] = [
    "erased/Cargo.toml",
    "erased/lines/Cargo.toml",
    "erased/lines/src/lib.rs",
    "erased/tool/Cargo.toml",
    "erased/tool/src/lib.rs",
    "erased/tool/src/main.rs",
    "erased/tool/src/words.rs",
    "erased/tool/tests/stored.rs",
];

fn write(root: &Path, name: &str, text: &str) {
    let path = root.join(name);
    fs::create_dir_all(path.parent().expect("a folder above")).expect("a folder");
    fs::write(path, text).expect("a file");
}

/// A repository with a library, exports of it, lines over it, and a program.
fn repository(name: &str) -> PathBuf {
    let root = std::env::temp_dir().join(format!("tree_{}_{}", name, std::process::id()));
    write(
        &root,
        "crates.txt",
        "guillotiere:\nexports staticlib: guillotiere\nlines: guillotiere\ntool: lines\n",
    );
    for of in ["guillotiere", "exports", "lines"] {
        write(&root, &format!("crates/{}/src/lib.rt", of), LIBRARY);
    }
    let main = "//! The program.\nmod words;\n\nuse lines::one;\n\nfn main() {\n    let _one = one();\n}\n";
    write(&root, "crates/tool/src/main.rt", main);
    write(&root, "crates/tool/src/words.rt", LIBRARY);
    write(
        &root,
        "rust/Cargo.toml",
        &format!("[workspace]\n\n{}", PROFILES),
    );
    root
}

fn made(root: &Path, part: Part) -> Vec<String> {
    let tree = Tree::made(root, part).expect("a tree");
    tree.files
        .keys()
        .map(|path| path.display().to_string())
        .collect()
}

/// How many files a writing of this part changes.
fn changed(root: &Path, part: Part) -> usize {
    let tree = Tree::made(root, part).expect("a tree");
    tree.write(&root.join("rust")).expect("it is written")
}

#[test]
fn programs_are_apart_from_what_is_kept() {
    let root = repository("parts");
    assert_eq!(made(&root, Part::Kept), KEPT);
    assert_eq!(made(&root, Part::Programs), PROGRAMS);
    let both: Vec<&str> = KEPT.iter().chain(&PROGRAMS).copied().collect();
    assert_eq!(made(&root, Part::All), both);

    let tree = Tree::made(&root, Part::Programs).expect("a tree");
    let workspace = &tree.files[Path::new("erased/Cargo.toml")];
    let members = "members = [\n    \"lines\",\n    \"tool\",\n    \"../tests\",\n]\n\n";
    assert!(
        workspace.ends_with(&format!("{}{}", members, PROFILES)),
        "{}",
        workspace
    );
    let tool = &tree.files[Path::new("erased/tool/Cargo.toml")];
    assert!(tool.contains("lines = { path = \"../lines\" }"), "{}", tool);
    let modules = &tree.files[Path::new("erased/tool/src/lib.rs")];
    assert!(modules.ends_with("\n\npub mod words;\n"), "{}", modules);
    // As the rules leave it: rustfmt would put the bracket behind the type.
    let lines = &tree.files[Path::new("erased/lines/src/lib.rs")];
    assert!(lines.contains("pub fn one() -> u32\n{\n"), "{}", lines);
    fs::remove_dir_all(root).expect("the folder goes");
}

#[test]
fn a_module_by_hand_is_its_package() {
    let root = repository("hand");
    let text = "guillotiere:\nguillotiere_tests: guillotiere\nplayer: guillotiere_tests\n";
    write(&root, "crates.txt", text);
    for name in [
        "guillotiere_tests/src/lib",
        "guillotiere_tests/src/refusing",
        "player/src/lib",
    ] {
        write(&root, &format!("crates/{}.rt", name), LIBRARY);
    }
    let tree = Tree::made(&root, Part::Programs).expect("a tree");
    let of = |path: &str| tree.files[&Path::new("erased").join(path)].as_str();
    let by_hand = "test_memory = { path = \"../../test_memory\" }\n";
    assert!(of("guillotiere_tests/src/refusing.rs").ends_with("\npub use test_memory::*;\n"));
    assert!(of("guillotiere_tests/src/lib.rs").contains("pub fn one()"));
    assert!(of("guillotiere_tests/Cargo.toml").contains(by_hand));
    assert!(!of("player/Cargo.toml").contains(by_hand));
    fs::remove_dir_all(root).expect("the folder goes");
}

#[test]
fn modules_of_the_library_are_no_api() {
    let root = repository("hidden");
    let tree = Tree::made(&root, Part::Kept).expect("a tree");
    let text = &tree.files[Path::new("core/src/lib.rs")];
    assert!(text.contains("No module is an API"), "{}", text);
    let declared: Vec<&str> = text.lines().filter(|l| l.starts_with("pub mod ")).collect();
    assert_eq!(declared, ["pub mod guillotiere;"]);
    assert!(text.ends_with("#[doc(hidden)]\npub mod guillotiere;\n"));
    fs::remove_dir_all(root).expect("the folder goes");
}

#[test]
fn only_what_differs_is_written() {
    let root = repository("writes");
    assert_eq!(changed(&root, Part::Programs), PROGRAMS.len());
    assert!(!root.join("rust/core").exists());
    assert_eq!(changed(&root, Part::Programs), 0);

    write(&root, "rust/erased/gone/src/lib.rs", "");
    write(&root, "rust/erased/tool/src/gone.rs", "");
    write(&root, "rust/erased/Cargo.lock", "");
    write(&root, "rust/erased/target/release/tool", "");
    write(
        &root,
        "crates/lines/src/lib.rt",
        &LIBRARY.replace("One", "1"),
    );
    assert_eq!(changed(&root, Part::Programs), 3);
    assert!(!root.join("rust/erased/gone").exists());
    assert!(!root.join("rust/erased/tool/src/gone.rs").exists());
    assert!(root.join("rust/erased/Cargo.lock").exists());
    assert!(root.join("rust/erased/target/release/tool").exists());
    assert_eq!(changed(&root, Part::Programs), 0);
    fs::remove_dir_all(root).expect("the folder goes");
}

#[test]
fn what_is_kept_is_compared_alone() {
    let root = repository("compares");
    let rust = root.join("rust");
    assert_eq!(changed(&root, Part::All), KEPT.len() + PROGRAMS.len());
    write(&root, "rust/erased/tool/src/main.rs", "");
    let tree = Tree::made(&root, Part::Kept).expect("a tree");
    assert_eq!(tree.differences(&rust), Ok(Vec::new()));

    write(&root, "rust/c/src/lib.rs", "");
    write(&root, "rust/c/src/gone.rs", "");
    let told = [
        "rust/c/src/lib.rs:1: differs from what its source gives",
        "rust/c/src/gone.rs: comes from no source",
    ];
    assert_eq!(
        tree.differences(&rust).expect("it is compared"),
        told.map(String::from)
    );
    fs::remove_dir_all(root).expect("the folder goes");
}

#[test]
fn a_fault_is_named_and_nothing_is_written() {
    let root = repository("fault");
    let main = "\nuse std::net::TcpStream;\n";
    write(&root, "crates/tool/src/main.rt", main);
    let fault = Tree::made(&root, Part::Programs).err().expect("a fault");
    let told = "crates/tool/src/main.rt:2: std::net isn't known here";
    assert_eq!(fault.0, told);
    write(&root, "rust/Cargo.toml", "[workspace]\n");
    let fault = Tree::made(&root, Part::Programs).err().expect("a fault");
    assert_eq!(fault.0, "rust/Cargo.toml: it has no profiles");
    assert!(!root.join("rust/erased").exists());
    fs::remove_dir_all(root).expect("the folder goes");
}
