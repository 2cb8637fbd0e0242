//! What JavaScript takes of the exports: their names, those of statuses, and where the values of structs lie in the memory of WebAssembly.
use super::{Interface, Number, Struct, PREFIX};
use crate::fault::Fault;
use std::collections::BTreeMap;

const NAME: &str = "web/src/interface.js";
const WIDTH: usize = 140;

/// The bytes that a value takes, and the multiple of bytes at which it begins.
#[derive(Clone, Copy)]
struct Layout {
    bytes: usize,
    multiple: usize,
}

/// The module of JavaScript.
pub fn script(of: &Interface, statuses: &[Number]) -> Result<String, Fault> {
    let short = |name: &&str| format!("'{}'", name.trim_start_matches(PREFIX));
    let names: Vec<String> = of.names().iter().map(short).collect();
    let is_wanted = |it: &&Number| !it.name.starts_with("VERSION_") && it.name != "INTERFACE";
    let number = |it: &Number| format!("export const {} = {};\n", it.name, it.value);
    Ok(format!(
        "// Written by rust/erase from the exports of crates/guillotiere_c: don't edit.\n\n\
         /** The functions of the library, without the word before. */\nexport const EXPORTS = [\n{}];\n\n\
         /** What each status is called, by its number; an empty text where no status has it. */\n\
         export const STATUSES = [\n{}];\n\n/** Statuses, kinds and limits. */\n{}\n\
         /** Where the values of structs lie, in words of 32 bits from the first on, and how many words they have. */\n{}",
        lines(&names),
        lines(&called(statuses)),
        of.numbers.iter().filter(is_wanted).map(number).collect::<String>(),
        places(of)?
    ))
}

/// An object for each struct.
fn places(of: &Interface) -> Result<String, Fault> {
    let mut text = String::new();
    let mut layouts = BTreeMap::new();
    for (name, layout, places) in structs(of, &mut layouts)? {
        let place = |(field, at): &(&str, usize)| format!("{}: {}", in_script(field), at);
        let mut places: Vec<String> = places.iter().map(place).collect();
        places.push(format!("words: {}", layout.bytes / 4));
        let name = in_script(name.trim_start_matches(PREFIX));
        let line = format!("export const {}At = {{ {} }};\n", name, places.join(", "));
        if line.len() <= WIDTH {
            text.push_str(&line);
        } else {
            text.push_str(&format!(
                "export const {}At = {{\n{}}};\n",
                name,
                lines(&places)
            ));
        }
    }
    Ok(text)
}

/// The name of a field in JavaScript: largest_page is largestPage.
fn in_script(name: &str) -> String {
    let mut words = name.split('_');
    let mut text = words.next().unwrap_or("").to_string();
    for word in words {
        text.push_str(&word[..1].to_uppercase());
        text.push_str(&word[1..]);
    }
    text
}

fn called(statuses: &[Number]) -> Vec<String> {
    let most = statuses.iter().map(|it| it.value).max().unwrap_or(0);
    let name = |n| {
        statuses
            .iter()
            .find(|it| it.value == n)
            .map_or("", |it| it.name.as_str())
    };
    (0..=most).map(|n| format!("'{}'", name(n))).collect()
}

/// Words with a comma behind each, as many on a line as there is room for.
fn lines(words: &[String]) -> String {
    let mut text = String::new();
    let mut line = String::from(" ");
    for word in words {
        if line.len() + word.len() + 2 > WIDTH {
            text.push_str(&format!("{}\n", line));
            line = String::from(" ");
        }
        line.push_str(&format!(" {},", word));
    }
    text + &format!("{}\n", line)
}

type Found<'a> = (&'a str, Layout, Vec<(&'a str, usize)>);

/// The layout of each struct and the places of its fields in words, those first that others have.
fn structs<'a>(
    of: &'a Interface,
    known: &mut BTreeMap<&'a str, Layout>,
) -> Result<Vec<Found<'a>>, Fault> {
    let mut waiting: Vec<&Struct> = of.structs.values().flatten().collect();
    let mut found = Vec::new();
    while !waiting.is_empty() {
        let before = waiting.len();
        for it in std::mem::take(&mut waiting) {
            match laid_out(it, known) {
                Some((layout, places)) => {
                    known.insert(&it.name, layout);
                    found.push((it.name.as_str(), layout, places));
                }
                None => waiting.push(it),
            }
        }
        if waiting.len() == before {
            return Err(Fault::of(
                NAME,
                &format!("a field of {} is of an unknown type", waiting[0].name),
            ));
        }
    }
    found.sort_by_key(|it| it.0);
    Ok(found)
}

/// None where a field's struct isn't laid out yet.
fn laid_out<'a>(
    of: &'a Struct,
    known: &BTreeMap<&str, Layout>,
) -> Option<(Layout, Vec<(&'a str, usize)>)> {
    let (mut at, mut multiple, mut places) = (0, 1, Vec::new());
    for field in &of.fields {
        let layout = match field.kind.as_str() {
            "uint64_t" => Layout {
                bytes: 8,
                multiple: 8,
            },
            "int32_t" | "uint32_t" | "size_t" | "void *" => Layout {
                bytes: 4,
                multiple: 4,
            },
            kind => *known.get(kind)?,
        };
        at = up_to(at, layout.multiple);
        places.push((field.name.as_str(), at / 4));
        at += layout.bytes;
        multiple = multiple.max(layout.multiple);
    }
    let bytes = up_to(at, multiple);
    Some((Layout { bytes, multiple }, places))
}

fn up_to(at: usize, multiple: usize) -> usize {
    (at + multiple - 1) / multiple * multiple
}
