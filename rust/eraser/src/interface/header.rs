//! The header for C: the lines of its template, and between them what the exports are.
use super::{Function, Interface, Item, Number, Passing, Struct, PREFIX};
use crate::fault::Fault;
use std::collections::{BTreeMap, BTreeSet};

/// How long lines are at most.
const WIDTH: usize = 124;

/// What the template's lines ask for.
pub struct Header<'a> {
    of: &'a Interface,
    name: &'a str,
    lines: Vec<&'a str>,
    /// The functions whose status a compiler is to ask for.
    checked: BTreeSet<String>,
    /// The numbers that aren't statuses.
    others: BTreeSet<&'a str>,
}

impl<'a> Header<'a> {
    pub fn new(of: &'a Interface, name: &'a str, template: &'a str) -> Result<Header<'a>, Fault> {
        let mut made = Header {
            of,
            name,
            lines: template.lines().collect(),
            checked: BTreeSet::new(),
            others: BTreeSet::new(),
        };
        for line in &made.lines {
            let mut words = line.split_whitespace();
            match words.next() {
                Some("@checked") => made
                    .checked
                    .extend(words.map(|word| format!("{}{}", PREFIX, word))),
                Some("@kinds" | "@numbers") => made.others.extend(words),
                _ => {}
            }
        }
        let names = of.names();
        match made
            .checked
            .iter()
            .find(|name| !names.contains(name.as_str()))
        {
            Some(name) => Err(Fault::of(
                made.name,
                &format!("there is no export {}", name),
            )),
            None => Ok(made),
        }
    }

    /// The statuses: all numbers that the template doesn't name.
    pub fn statuses(&self) -> Vec<Number> {
        let is_status = |it: &&Number| !self.others.contains(it.name.as_str());
        self.of.numbers.iter().filter(is_status).cloned().collect()
    }

    /// The whole header.
    pub fn text(&self) -> Result<String, Fault> {
        let mut text = String::from(
            "/* Written by rust/erase from guillotiere.h.in and from the exports of crates/guillotiere_c: don't edit. */\n",
        );
        let (mut written, mut defined) = (0, 0);
        for line in &self.lines {
            let mut words = line.split_whitespace();
            let first = words.next().unwrap_or("");
            let words: Vec<&str> = words.collect();
            match first {
                "@" | "@checked" => {}
                "@statuses" => {
                    text.push_str(&self.enumeration(words.first().copied(), &self.statuses()))
                }
                "@kinds" => text.push_str(&self.enumeration(None, &self.named(&words)?)),
                "@numbers" => text.push_str(&definitions(&self.named(&words)?)),
                "@structs" => {
                    let found = of_modules(&self.of.structs, &words, self.name)?;
                    defined += found.len();
                    text.push_str(&joined(found.into_iter().map(structure)));
                }
                "@functions" => {
                    let found = of_modules(&self.of.functions, &words, self.name)?;
                    written += found.len();
                    text.push_str(&joined(found.into_iter().map(|it| self.function(it))));
                }
                _ => text.push_str(&format!("{}\n", line)),
            }
        }
        if written != self.of.names().len() || defined != self.of.structs.values().flatten().count()
        {
            return Err(Fault::of(
                self.name,
                "it doesn't name all modules that have exports or structs",
            ));
        }
        Ok(text)
    }

    fn named(&self, names: &[&str]) -> Result<Vec<Number>, Fault> {
        let found = |name: &&str| {
            let number = self.of.numbers.iter().find(|it| it.name == **name).cloned();
            number.ok_or_else(|| Fault::of(self.name, &format!("there is no number {}", name)))
        };
        names.iter().map(found).collect()
    }

    fn enumeration(&self, tag: Option<&str>, numbers: &[Number]) -> String {
        let head = tag.map_or("enum {\n".to_string(), |tag| format!("enum {} {{\n", tag));
        let mut text = head;
        for (n, number) in numbers.iter().enumerate() {
            let comma = if n + 1 < numbers.len() { "," } else { "" };
            let line = format!(
                "    GUILLOTIERE_{} = {}{}",
                number.name, number.value, comma
            );
            text.push_str(&with_remark(&line, &number.documentation));
        }
        text + "};\n"
    }

    fn function(&self, function: &Function) -> String {
        let mut text = comment(&function.documentation, "");
        if self.checked.contains(&function.name) {
            text.push_str("GUILLOTIERE_CHECKED\n");
        }
        let mut line = format!("{} {}(", function.result, function.name);
        let indent = " ".repeat(line.len());
        let parameters: Vec<String> = function.parameters.iter().map(parameter).collect();
        for (n, parameter) in parameters.iter().enumerate() {
            let end = if n + 1 < parameters.len() { ", " } else { ");" };
            if line.len() + parameter.len() + 2 > WIDTH {
                text.push_str(&format!("{}\n", line.trim_end()));
                line = indent.clone();
            }
            line.push_str(&format!("{}{}", parameter, end));
        }
        if parameters.is_empty() {
            line.push_str("void);");
        }
        format!("{}{}\n", text, line)
    }
}

/// What these modules have, in their order.
fn of_modules<'a, T>(
    all: &'a BTreeMap<String, Vec<T>>,
    modules: &[&str],
    name: &str,
) -> Result<Vec<&'a T>, Fault> {
    let mut found = Vec::new();
    for module in modules {
        let of = all.get(*module);
        let of =
            of.ok_or_else(|| Fault::of(name, &format!("the module {} has nothing for C", module)))?;
        found.extend(of);
    }
    Ok(found)
}

fn joined(texts: impl Iterator<Item = String>) -> String {
    texts.collect::<Vec<String>>().join("\n")
}

pub(super) fn parameter(item: &Item) -> String {
    match item.passing {
        Passing::Value => format!("{} {}", item.kind, item.name),
        Passing::Read => format!("const {} *{}", item.kind, item.name),
        Passing::Written => format!("{} *{}", item.kind, item.name),
    }
}

fn structure(of: &Struct) -> String {
    let mut text = comment(&of.documentation, "");
    text.push_str(&format!("typedef struct {} {{\n", of.name));
    for field in &of.fields {
        let space = if field.kind.ends_with('*') { "" } else { " " };
        let line = format!("    {}{}{};", field.kind, space, field.name);
        text.push_str(&with_remark(&line, &field.documentation));
    }
    text + &format!("}} {};\n", of.name)
}

/// Numbers, an empty line before each but the first that has documentation.
fn definitions(numbers: &[Number]) -> String {
    let mut text = String::new();
    for number in numbers {
        let is_apart = !text.is_empty() && !number.documentation.is_empty();
        let sign = if number.value > i32::MAX as u32 {
            "u"
        } else {
            ""
        };
        text.push_str(if is_apart { "\n" } else { "" });
        text.push_str(&comment(&number.documentation, ""));
        text.push_str(&format!(
            "#define GUILLOTIERE_{} {}{}\n",
            number.name, number.value, sign
        ));
    }
    text
}

/// A line with a remark behind it, or above it where it has no room there.
fn with_remark(line: &str, documentation: &[String]) -> String {
    if documentation.is_empty() {
        return format!("{}\n", line);
    }
    let remark = plain(&documentation.join(" "));
    let remark = remark.strip_suffix('.').unwrap_or(&remark);
    let mut letters = remark.chars();
    let first = letters
        .next()
        .map_or(String::new(), |first| first.to_lowercase().to_string());
    let whole = format!("{} /* {}{} */\n", line, first, letters.as_str());
    if whole.len() <= WIDTH {
        return whole;
    }
    format!("{}{}\n", comment(documentation, "    "), line)
}

/// Documentation as a comment of C.
fn comment(documentation: &[String], indent: &str) -> String {
    if documentation.is_empty() {
        return String::new();
    }
    let lines: Vec<String> = documentation.iter().map(|line| plain(line)).collect();
    let lines = lines
        .join(&format!("\n{} * ", indent))
        .replace(" * \n", " *\n");
    format!("{}/* {} */\n", indent, lines)
}

/// A line of documentation without the marks around what C has as a name of its own.
fn plain(line: &str) -> String {
    let pieces: Vec<&str> = line.split('`').collect();
    let mut text = pieces[0].to_string();
    for (n, piece) in pieces.iter().enumerate().skip(1) {
        let is_inner = n % 2 == 1 && n + 1 < pieces.len();
        let mark = |piece: &str| if is_name(piece) { "" } else { "`" };
        text.push_str(if is_inner {
            mark(piece)
        } else {
            mark(pieces[n - 1])
        });
        text.push_str(piece);
    }
    text
}

fn is_name(piece: &str) -> bool {
    let is_number = piece.chars().all(|c| c.is_ascii_uppercase() || c == '_');
    piece.starts_with(PREFIX) || piece.starts_with("GUILLOTIERE_") || is_number
}
