//! The crates of the repository: what crates.txt says of them, and where each goes.
use crate::fault::Fault;
use crate::rules::{condition_of, Place};
use std::collections::{BTreeMap, BTreeSet};
use std::fs;
use std::path::{Path, PathBuf};

/// A crate of crates.txt.
#[derive(Clone, Debug)]
pub struct Crate {
    pub name: String,
    pub is_static_library: bool,
    pub needs: Vec<String>,
}

/// The crates that become modules of the library's one crate: those that these stand on, and these.
const LIBRARY: [&str; 6] = [
    "guillotiere",
    "guillotiere_recording",
    "atlas_sheet",
    "atlas_cache",
    "atlas_pages",
    "guillotiere_total",
];

/// Modules that don't erase: the crate of each, its source, and the package that has the same, which stands in rust/ by hand.
const BY_HAND: [(&str, &str, &str); 1] = [("guillotiere_tests", "refusing.rt", "test_memory")];

/// The folder below rust/ of the exports for C.
pub const EXPORTS_FOLDER: &str = "c";

/// The folder below rust/ of the packages that are written when they are built, and not kept: programs and tests.
pub const PROGRAMS: &str = "erased";

/// Libraries of the kit that an erased crate doesn't need.
const KIT: [&str; 1] = ["thiserror"];

/// All crates, and which of them make up the library.
pub struct Crates {
    pub all: Vec<Crate>,
    pub library: BTreeSet<String>,
    /// The laws of all sources, by their names.
    pub laws: BTreeSet<String>,
}

impl Crates {
    /// Reads crates.txt.
    pub fn read(root: &Path) -> Result<Crates, Fault> {
        let path = root.join("crates.txt");
        let text =
            fs::read_to_string(&path).map_err(|e| Fault::of("crates.txt", &e.to_string()))?;
        let mut all = Vec::new();
        for (number, line) in text.lines().enumerate() {
            let line = line.split('#').next().unwrap_or("").trim();
            if line.is_empty() {
                continue;
            }
            let (head, needs) = line.split_once(':').ok_or_else(|| {
                Fault(format!("crates.txt:{}: a line without a colon", number + 1))
            })?;
            let mut words = head.split_whitespace();
            let name = words.next().unwrap_or("").to_string();
            let is_static_library = words.any(|w| w == "staticlib");
            let needs = needs
                .split_whitespace()
                .filter(|n| !KIT.contains(n))
                .map(str::to_string)
                .collect();
            all.push(Crate {
                name,
                is_static_library,
                needs,
            });
        }
        let library = library_of(&all);
        let laws = BTreeSet::new();
        Ok(Crates { all, library, laws })
    }

    /// The package by hand that has what a source of a crate has, if there is one.
    pub fn by_hand(&self, of: &Crate, file: &Path) -> Option<&'static str> {
        let is_it =
            |(name, source, _): &&(&str, &str, &str)| *name == of.name && Path::new(source) == file;
        BY_HAND.iter().find(is_it).map(|(_, _, package)| *package)
    }

    /// Where the sources of a crate go.
    pub fn place(&self, of: &Crate) -> Place {
        Place {
            name: of.name.clone(),
            is_library: self.library.contains(&of.name),
            library: self.library.clone(),
            laws: self.laws.clone(),
        }
    }

    /// Whether a crate is built from what stands in the repository: the library, and the exports for C.
    pub fn is_kept(&self, of: &Crate) -> bool {
        of.is_static_library || self.library.contains(&of.name)
    }

    /// The folder below rust/ of a crate that is a package of its own.
    pub fn package(&self, of: &Crate) -> PathBuf {
        match of.is_static_library {
            true => PathBuf::from(EXPORTS_FOLDER),
            false => Path::new(PROGRAMS).join(&of.name),
        }
    }

    /// Where a source of a crate goes, below rust/.
    pub fn target(&self, of: &Crate, file: &Path) -> PathBuf {
        let file = file.with_extension("rs");
        if !self.library.contains(&of.name) {
            return self.package(of).join("src").join(file);
        }
        let file = if file == Path::new("lib.rs") {
            PathBuf::from("mod.rs")
        } else {
            file
        };
        Path::new("core/src").join(&of.name).join(file)
    }

    /// The root of the library's one crate.
    pub fn library_root(&self) -> String {
        let mut text = String::from(LIBRARY_HEAD);
        for name in &self.library {
            let condition = condition_of(name);
            text.push_str(&format!("{}#[doc(hidden)]\npub mod {};\n", condition, name));
        }
        text
    }

    /// The manifest of a package of its own.
    pub fn manifest(&self, of: &Crate, is_program: bool) -> String {
        let mut text = format!(
            "# Written by rust/erase from crates.txt: don't edit.\n[package]\nname = \"{}\"\nversion = \"0.7.0\"\n\
             edition = \"2021\"\nrust-version = \"1.63\"\nlicense = \"MIT OR Apache-2.0\"\npublish = false\n",
            of.name
        );
        if of.is_static_library {
            text.push_str(
                "\n[lib]\nname = \"guillotiere\"\ncrate-type = [\"staticlib\", \"cdylib\"]\ndoc = false\n",
            );
        }
        text.push_str(&self.dependencies(of));
        if of.is_static_library {
            text.push_str(STATIC_FEATURES);
        }
        if is_program {
            text.push_str("\n[dev-dependencies]\nstored = { path = \"../../stored\" }\n");
        }
        text
    }

    fn dependencies(&self, of: &Crate) -> String {
        let (rust, features, support) = if of.is_static_library {
            let features = ", default-features = false, features = [\"cache\", \"sheet\"]";
            ("..", features, "\"raw\"")
        } else {
            ("../..", "", "\"std\"")
        };
        let mut text = String::from("\n[dependencies]\n");
        let needs_core = of.needs.iter().any(|n| self.library.contains(n));
        if needs_core {
            text.push_str(&format!(
                "wollemigo-core = {{ path = \"{}/core\"{} }}\n",
                rust, features
            ));
        }
        text.push_str(&format!(
            "wollemigo-support = {{ path = \"{}/support\", features = [{}] }}\n",
            rust, support
        ));
        for (_, _, package) in BY_HAND.iter().filter(|it| it.0 == of.name) {
            text.push_str(&format!(
                "{} = {{ path = \"{}/{}\" }}\n",
                package, rust, package
            ));
        }
        for need in of.needs.iter().filter(|n| !self.library.contains(*n)) {
            text.push_str(&format!("{} = {{ path = \"../{}\" }}\n", need, need));
        }
        text
    }

    /// The manifest of the workspace of programs and tests, with the profiles of that of rust/.
    pub fn workspace(&self, root: &Path) -> Result<String, Fault> {
        let name = "rust/Cargo.toml";
        let text =
            fs::read_to_string(root.join(name)).map_err(|e| Fault::of(name, &e.to_string()))?;
        let profiles = text
            .find("[profile.")
            .map(|at| &text[at..])
            .ok_or_else(|| Fault::of(name, "it has no profiles"))?;
        let packages: String = self
            .all
            .iter()
            .filter(|of| !self.is_kept(of))
            .map(|of| format!("    \"{}\",\n", of.name))
            .collect();
        Ok(format!(
            "{}{}{}]\n\n{}",
            WORKSPACE, packages, TESTS, profiles
        ))
    }
}

const WORKSPACE: &str = "\
# Written by rust/erase from crates.txt, with the profiles of rust/Cargo.toml: don't edit.
[workspace]
resolver = \"2\"
members = [
";

/// The tests that are written by hand, since they are over these packages.
const TESTS: &str = "    \"../tests\",\n";

/// A library for C is built with Rust's `std`, or without it, over C's memory alone.
const STATIC_FEATURES: &str = "
[features]
default = [\"std\"]
std = [\"wollemigo-core/std\", \"wollemigo-support/std\"]
";

const LIBRARY_HEAD: &str = "\
// Written by rust/erase from crates.txt: don't edit.
//! The library crates of `crates/` with their contracts erased, a module each. `wollemigo` is the crate to use: here a
//! call's conditions stand in its documentation, and nothing tests them. No module is an API: each may change with every
//! version, so `wollemigo` asks for exactly one.
#![no_std]
#![forbid(unsafe_code)]
#![allow(dead_code, unused_imports, unused_labels, unused_variables)]
// How the proved sources say it.
#![allow(
    clippy::incompatible_msrv,
    clippy::manual_find,
    clippy::manual_flatten,
    clippy::manual_range_contains,
    clippy::match_like_matches_macro,
    clippy::needless_range_loop,
    clippy::new_without_default,
    clippy::only_used_in_recursion,
    clippy::should_implement_trait,
    clippy::too_many_arguments
)]

";

fn library_of(all: &[Crate]) -> BTreeSet<String> {
    let needs: BTreeMap<&str, &Vec<String>> =
        all.iter().map(|c| (c.name.as_str(), &c.needs)).collect();
    let mut found = BTreeSet::new();
    let mut left: Vec<&str> = LIBRARY
        .iter()
        .copied()
        .filter(|n| needs.contains_key(n))
        .collect();
    while let Some(name) = left.pop() {
        if found.insert(name.to_string()) {
            left.extend(
                needs
                    .get(name)
                    .into_iter()
                    .flat_map(|n| n.iter())
                    .map(String::as_str),
            );
        }
    }
    found
}
