//! Names: the heads of paths, and the prelude (rules 6 and 7).
use super::Walk;
use crate::fault::Fault;

/// What the support crate has of Rattle's `std`: a module, and its names.
const SUPPORTED: [(&str, &[&str]); 8] = [
    (
        "alloc",
        &["AllocError", "AllocFailed", "Allocator", "Global"],
    ),
    ("clone", &["Clone"]),
    (
        "collections",
        &["BTreeMap", "BTreeSet", "HashMap", "hash_map"],
    ),
    (
        "hash",
        &[
            "BuildHasher",
            "BuildHasherDefault",
            "DefaultHasher",
            "FoldHasher",
            "Hash",
            "Hasher",
        ],
    ),
    (
        "io",
        &[
            "Error",
            "ErrorKind",
            "Read",
            "Result",
            "Write",
            "Stdin",
            "Stdout",
        ],
    ),
    ("process", &["Abort", "ExitCode"]),
    ("string", &["String"]),
    ("test", &["Fail"]),
];

/// What Rust's `core` has under the same name, and means the same by.
const SAME: [(&str, &[&str]); 9] = [
    ("cell", &["Cell"]),
    ("cmp", &["Ordering", "Reverse"]),
    ("fmt", &["Display", "Debug", "Formatter", "Result", "Write"]),
    ("iter", &["FusedIterator"]),
    ("mem", &["replace", "swap", "take"]),
    ("ops", &["Index"]),
    ("ptr", &["null_mut"]),
    ("slice", &[]),
    ("str", &["from_utf8", "FromStr"]),
];

/// Names of Rattle's prelude that Rust's `core` hasn't, or has for something else.
const TYPES: [&str; 4] = ["Box", "HostRuntime", "String", "Vec"];
const MACROS: [&str; 11] = [
    "assert",
    "assert_eq",
    "assert_ne",
    "eprintln",
    "format",
    "panic",
    "println",
    "prove",
    "prove_eq",
    "prove_ne",
    "vec",
];
/// Methods that Rust has since a later version than the oldest that is served, and the traits that have them till then.
const METHODS: [(&str, &str); 3] = [
    ("cast_unsigned", "CastUnsigned"),
    ("ilog2", "Ilog2"),
    ("is_some_and", "IsSomeAnd"),
];

impl Walk<'_, '_> {
    /// At the word `use`: its names count as imported, and its head is named anew.
    pub(super) fn import(&mut self, i: usize) -> Result<usize, Fault> {
        let mut end = i + 1;
        while !matches!(self.source.word(end), ";" | "") {
            end += 1;
        }
        if self.source.reads(
            i,
            &["use", "std", ":", ":", "marker", ":", ":", "Model", ";"],
        ) {
            self.source.count(3);
            self.source.replace(i, end + 1, "");
            return Ok(end + 1);
        }
        if self
            .source
            .reads(i, &["use", "thiserror", ":", ":", "Error", ";"])
        {
            self.source.replace(i, end + 1, "");
            return Ok(end + 1);
        }
        for j in i + 1..end {
            if self.source.is_word(j) && !self.law_in_list(j) {
                let word = self.source.word(j).to_string();
                self.scope.imported.insert(word);
                self.head_of_path(j)?;
            }
        }
        Ok(end)
    }

    /// Rule 6, at a word that may be a path's head.
    pub(super) fn head_of_path(&mut self, i: usize) -> Result<(), Fault> {
        let is_head = self.source.reads(i + 1, &[":", ":"])
            && self.source.before(i) != ":"
            && self.source.before(i) != ".";
        if !is_head {
            return Ok(());
        }
        let head = self.source.word(i);
        let put = if head == "std" {
            self.standard(i)?
        } else if head == "crate" && self.place.is_library {
            format!("crate::{}", self.place.name)
        } else if self.place.library.contains(head) && self.place.is_library {
            format!("crate::{}", head)
        } else if self.place.library.contains(head) {
            format!("wollemigo_core::{}", head)
        } else {
            return Ok(());
        };
        self.source.count(6);
        self.source.replace(i, i + 1, &put);
        Ok(())
    }

    /// What `std` at token `i` is called.
    fn standard(&self, i: usize) -> Result<String, Fault> {
        let module = self.source.word(i + 3);
        let (crate_name, names) =
            if let Some((_, names)) = SUPPORTED.iter().find(|(m, _)| *m == module) {
                ("wollemigo_support", names)
            } else if let Some((_, names)) = SAME.iter().find(|(m, _)| *m == module) {
                ("core", names)
            } else {
                return Err(self
                    .source
                    .fault(i, &format!("std::{} isn't known here", module)));
            };
        if self.source.reads(i + 4, &[":", ":"]) {
            let mut j = i + 6;
            let is_list = self.source.word(j) == "{";
            let end = if is_list {
                self.source.closed(j)? - 1
            } else {
                j + 1
            };
            j += is_list as usize;
            for at in (j..end).filter(|&at| self.source.is_word(at)) {
                let name = self.source.word(at);
                if !names.contains(&name) && name != "self" {
                    return Err(self
                        .source
                        .fault(at, &format!("std::{}::{} isn't known here", module, name)));
                }
            }
        }
        Ok(crate_name.to_string())
    }

    /// Notes a name of the prelude at token `i`.
    pub(super) fn name_of_prelude(&mut self, i: usize) {
        let word = self.source.word(i);
        let is_member = self.source.before(i) == ".";
        let is_macro = self.source.word(i + 1) == "!" && self.source.word(i + 2) != "=";
        let is_path = self.source.before(i) == ":" && i > 1 && self.source.before(i - 1) == ":";
        if let Some(name) = TYPES.iter().find(|n| **n == word) {
            if !is_member && !is_path {
                self.scope.used.insert(*name);
            }
        }
        if let Some(name) = MACROS.iter().find(|n| **n == word) {
            if is_macro {
                self.scope.used.insert(*name);
            }
        }
        if let Some((_, name)) = METHODS.iter().find(|(n, _)| *n == word) {
            if is_member {
                self.scope.used.insert(*name);
            }
        }
    }

    /// Rule 7: the import of what the prelude of Rattle has and the text uses.
    pub(super) fn import_prelude(&mut self) {
        let of_exports = ["slice", "slice_mut", "spare"];
        let wanted = self
            .scope
            .used
            .iter()
            .copied()
            .filter(|n| !self.scope.imported.contains(*n));
        let (raw, plain): (Vec<&str>, Vec<&str>) = wanted.partition(|n| of_exports.contains(n));
        let mut put = String::new();
        if !plain.is_empty() {
            put.push_str(&format!(
                "use wollemigo_support::prelude::{{{}}};\n",
                plain.join(", ")
            ));
        }
        if !raw.is_empty() {
            put.push_str(&format!(
                "use wollemigo_support::raw::{{{}}};\n",
                raw.join(", ")
            ));
        }
        if put.is_empty() {
            return;
        }
        self.source.count(7);
        let at = self.first_item();
        if self.source.word(at) != "use" {
            put.push('\n');
        }
        self.source.insert(at, &put);
    }

    /// The first import of the module that stays; else its first item.
    fn first_item(&self) -> usize {
        let mut first = None;
        let mut i = self.scope.first;
        while i < self.scope.end {
            let is_cut = self.is_cut(i);
            if self.source.reads(i, &["#", "!"]) {
                i += 1;
            } else if !is_cut && self.source.word(i) == "use" {
                return if self.source.before(i) == "pub" {
                    i - 1
                } else {
                    i
                };
            } else if !is_cut {
                first = first.or(Some(i));
            }
            i = match self.source.word(i) {
                "{" | "[" | "(" => self.source.closed(i).unwrap_or(i + 1),
                _ => i + 1,
            };
        }
        first.unwrap_or(self.scope.first)
    }

    /// Whether a rule has cut token `i`.
    pub(super) fn is_cut(&self, i: usize) -> bool {
        let token = self.source.token(i);
        self.source
            .edits
            .iter()
            .any(|e| e.put.is_empty() && e.start <= token.start && token.end <= e.end)
    }
}
