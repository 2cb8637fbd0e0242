//! What the library for C offers, read out of its exports: functions, structs and numbers, each with its documentation. Of these the
//! header for C is written, the texts of statuses, and the names and places that JavaScript takes.
mod header;
mod script;
mod texts;

use crate::fault::Fault;
use crate::source::Source;
use std::collections::{BTreeMap, BTreeSet};
use std::fs;
use std::path::{Path, PathBuf};

/// The crate of the exports, and where its sources are.
pub const EXPORTS: &str = "guillotiere_c";
const SOURCES: &str = "crates/guillotiere_c/src";
/// What begins each name in C.
const PREFIX: &str = "guillotiere_";

/// A value that crosses to C: its name, its type there without the pointer, and what it is.
#[derive(Clone, Debug, PartialEq, Eq)]
pub struct Item {
    pub name: String,
    pub kind: String,
    pub passing: Passing,
    pub documentation: Vec<String>,
}

/// How a parameter is passed.
#[derive(Clone, Copy, Debug, PartialEq, Eq)]
pub enum Passing {
    Value,
    Read,
    Written,
}

/// An export.
#[derive(Clone, Debug)]
pub struct Function {
    pub name: String,
    pub documentation: Vec<String>,
    pub parameters: Vec<Item>,
    pub result: String,
}

/// A struct that crosses to C.
#[derive(Clone, Debug)]
pub struct Struct {
    pub name: String,
    pub documentation: Vec<String>,
    pub fields: Vec<Item>,
}

/// A number that has a name.
#[derive(Clone, Debug)]
pub struct Number {
    pub name: String,
    pub value: u32,
    pub documentation: Vec<String>,
}

/// What the modules of the exports offer, each in the order of its source.
#[derive(Default)]
pub struct Interface {
    pub functions: BTreeMap<String, Vec<Function>>,
    pub structs: BTreeMap<String, Vec<Struct>>,
    pub numbers: Vec<Number>,
}

impl Interface {
    /// Reads the sources of the exports.
    pub fn read(root: &Path) -> Result<Interface, Fault> {
        let mut made = Interface::default();
        let failed = |e: std::io::Error| Fault::of(SOURCES, &e.to_string());
        for entry in fs::read_dir(root.join(SOURCES)).map_err(failed)? {
            let path = entry.map_err(failed)?.path();
            let module = path.file_stem().map(|name| name.to_string_lossy());
            let module = module.unwrap_or_default().to_string();
            let text = fs::read_to_string(&path).map_err(failed)?;
            made.add(
                &module,
                &Source::new(&format!("{}/{}.rt", SOURCES, module), &text)?,
            )?;
        }
        Ok(made)
    }

    /// Adds what a module offers.
    fn add(&mut self, module: &str, source: &Source<'_>) -> Result<(), Fault> {
        for i in 0..source.len() {
            if source.reads(i, &["extern", "\"C\"", "fn"]) {
                let found = function(source, i + 3)?;
                self.functions
                    .entry(module.to_string())
                    .or_default()
                    .push(found);
            }
            if source.reads(i, &["#", "[", "repr", "("]) {
                // A reader is the handle of its name once more.
                let found = structure(source, i)?;
                let all = self.structs.values().flatten();
                if all.filter(|it| it.name == found.name).count() == 0 {
                    self.structs
                        .entry(module.to_string())
                        .or_default()
                        .push(found);
                }
            }
            if module == "plain" && source.reads(i, &["pub", "const"]) {
                self.numbers.push(number(source, i)?);
            }
        }
        Ok(())
    }

    /// All functions, by their names.
    pub fn names(&self) -> BTreeSet<&str> {
        self.functions
            .values()
            .flatten()
            .map(|it| it.name.as_str())
            .collect()
    }

    /// What is written of it, by paths below rust/; and the texts of statuses for the library's root.
    pub fn files(&self, root: &Path) -> Result<(BTreeMap<PathBuf, String>, String), Fault> {
        let template = "bindings/c/guillotiere.h.in";
        let text = fs::read_to_string(root.join(template))
            .map_err(|e| Fault::of(template, &e.to_string()))?;
        let header = header::Header::new(self, template, &text)?;
        let statuses = header.statuses();
        let files = [
            ("bindings/c/guillotiere.h", header.text()?),
            ("c/guillotiere.h", header.text()?),
            ("bindings/c/status_text.c", texts::texts_in_c(&statuses)),
            ("web/src/interface.js", script::script(self, &statuses)?),
        ];
        let files = files.map(|(path, text)| (Path::new("..").join(path), text));
        Ok((BTreeMap::from(files), texts::texts_in_rust(&statuses)))
    }

    /// What programs are compiled by, a line each: functions with the types of their parameters, structs, and numbers.
    pub fn lines(&self) -> String {
        let mut lines: Vec<String> = Vec::new();
        for function in self.functions.values().flatten() {
            let kinds = function.parameters.iter().map(|it| {
                let whole = header::parameter(it);
                whole[..whole.len() - it.name.len()].trim_end().to_string()
            });
            let kinds = kinds.collect::<Vec<String>>().join(", ");
            lines.push(format!(
                "function {} {}({})",
                function.result, function.name, kinds
            ));
        }
        for of in self.structs.values().flatten() {
            let fields = of
                .fields
                .iter()
                .map(|it| format!("{} {}", it.kind, it.name));
            lines.push(format!(
                "struct {}: {}",
                of.name,
                fields.collect::<Vec<String>>().join(", ")
            ));
        }
        lines.extend(
            self.numbers
                .iter()
                .map(|it| format!("number GUILLOTIERE_{} {}", it.name, it.value)),
        );
        lines.sort();
        lines.join("\n")
    }
}

/// The export whose name is token `i`.
fn function(source: &Source<'_>, i: usize) -> Result<Function, Fault> {
    let close = source.closed(i + 1)?;
    let mut parameters = Vec::new();
    for piece in source.text_of(i + 2, close - 1).split(',') {
        if let Some((name, kind)) = piece.trim().split_once(':') {
            parameters.extend(crossing(name.trim(), kind.trim()));
        }
    }
    let has_result = source.reads(close, &["-", ">"]);
    Ok(Function {
        name: source.word(i).to_string(),
        documentation: documentation(source, i),
        parameters,
        result: in_c(if has_result {
            source.word(close + 2)
        } else {
            "()"
        }),
    })
}

/// What a parameter of an export crosses as: nothing, a value or a pointer, or a pointer with a length.
fn crossing(name: &str, kind: &str) -> Vec<Item> {
    let item = |name: String, kind: &str, passing| Item {
        name,
        kind: in_c(kind),
        passing,
        documentation: Vec::new(),
    };
    let (target, passing) = match (kind.strip_prefix("&mut "), kind.strip_prefix('&')) {
        _ if kind == "Global" => return Vec::new(),
        (Some(target), _) => (target, Passing::Written),
        (None, Some(target)) => (target, Passing::Read),
        (None, None) => (kind, Passing::Value),
    };
    match target
        .strip_prefix('[')
        .and_then(|item| item.strip_suffix(']'))
    {
        Some(each) => vec![
            item(name.to_string(), each, passing),
            item(format!("{}_len", name), "usize", Passing::Value),
        ],
        None => vec![item(name.to_string(), target, passing)],
    }
}

/// The struct whose first attribute begins at token `i`.
fn structure(source: &Source<'_>, i: usize) -> Result<Struct, Fault> {
    let mut at = i;
    while source.word(at) == "#" {
        at = source.closed(at + 1)?;
    }
    if !source.reads(at, &["pub", "struct"]) || source.word(at + 3) != "{" {
        return Err(source.fault(at, "something else than a struct that crosses to C"));
    }
    let end = source.closed(at + 3)? - 1;
    let mut fields = Vec::new();
    let mut j = at + 4;
    while j < end {
        let is_public = source.word(j) == "pub";
        let name = j + is_public as usize;
        let past = (name..end).find(|&k| source.word(k) == ",").unwrap_or(end);
        if source.word(name) != "ghost" {
            fields.push(Item {
                name: source.word(name).to_string(),
                kind: in_c(source.text_of(name + 2, past)),
                passing: Passing::Value,
                documentation: documentation(source, j),
            });
        }
        j = if source.word(name) == "ghost" {
            ghost_end(source, name, end)?
        } else {
            past + 1
        };
    }
    Ok(Struct {
        name: in_c(source.word(at + 2)),
        documentation: documentation(source, i),
        fields,
    })
}

/// The token behind a ghost field.
fn ghost_end(source: &Source<'_>, at: usize, end: usize) -> Result<usize, Fault> {
    let mut j = at;
    while j < end && source.word(j) != "," {
        j = if source.word(j) == "{" {
            source.closed(j)?
        } else {
            j + 1
        };
    }
    Ok(j + 1)
}

/// The number whose words `pub const` begin at token `i`.
fn number(source: &Source<'_>, i: usize) -> Result<Number, Fault> {
    let value = source.word(i + 6).replace('_', "").parse();
    Ok(Number {
        name: source.word(i + 2).to_string(),
        value: value.map_err(|_| source.fault(i, "a number of an unknown form"))?,
        documentation: documentation(source, i),
    })
}

/// The lines of documentation right above the item that token `i` is of, attributes left out.
fn documentation(source: &Source<'_>, i: usize) -> Vec<String> {
    let start = source.text[..source.token(i).start]
        .rfind('\n')
        .map_or(0, |at| at + 1);
    let mut found = Vec::new();
    for line in source.text[..start].lines().rev() {
        match line.trim().strip_prefix("///") {
            Some(text) => found.push(text.strip_prefix(' ').unwrap_or(text).to_string()),
            None if line.trim().starts_with("#[") => {}
            None => break,
        }
    }
    found.reverse();
    found
}

/// The type that one of the exports has in C, without a pointer.
fn in_c(kind: &str) -> String {
    let known = match kind {
        "i32" => "int32_t",
        "u32" => "uint32_t",
        "u64" => "uint64_t",
        "usize" => "size_t",
        "bool" => "bool",
        "()" => "void",
        "*mut u8" | "*const u8" => "void *",
        _ => "",
    };
    if !known.is_empty() {
        return known.to_string();
    }
    let handle = ["Handle", "Reader"]
        .iter()
        .find_map(|role| kind.strip_suffix(role));
    let mut name = PREFIX.trim_end_matches('_').to_string();
    for letter in handle
        .or_else(|| kind.strip_prefix("Plain"))
        .unwrap_or(kind)
        .chars()
    {
        if letter.is_uppercase() {
            name.push('_');
        }
        name.extend(letter.to_lowercase());
    }
    name
}
