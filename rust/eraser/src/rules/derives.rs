//! Derives: `Drop` goes, and what thiserror derives is written out (rules 5 and 9).
use super::Walk;
use crate::fault::Fault;

/// A variant of an error: its name, its text, and what it holds.
struct Variant {
    name: String,
    text: String,
    holds: Held,
}

/// What a variant holds.
enum Held {
    Nothing,
    Value,
    /// An error that `?` makes this one of.
    Error(String),
    /// A refusal of memory, of which `?` makes this one; so it does of one that gives back what wasn't stored.
    Refusal(String),
}

impl Walk<'_, '_> {
    /// A derive whose `#` stands at `i`, and which ends before token `end`.
    pub(super) fn derive(&mut self, i: usize, end: usize) -> Result<(), Fault> {
        let names: Vec<&str> = (i + 4..end - 2)
            .filter(|&j| self.source.is_word(j))
            .map(|j| self.source.word(j))
            .collect();
        let kept: Vec<&str> = names
            .iter()
            .copied()
            .filter(|n| !matches!(*n, "Drop" | "Error"))
            .collect();
        if names.contains(&"Error") {
            self.error(end)?;
        }
        if names.contains(&"Drop") {
            self.source.count(5);
        }
        if kept.is_empty() {
            self.source.cut_with_space(i, end);
        } else if kept.len() < names.len() {
            self.source
                .replace(i, end, &format!("#[derive({})]", kept.join(", ")));
        }
        Ok(())
    }

    /// The impls of an error that derives thiserror's `Error`, whose item begins at token `i`.
    fn error(&mut self, i: usize) -> Result<(), Fault> {
        let mut at = i;
        while self.source.word(at) == "#" {
            at = self.source.closed(at + 1)?;
        }
        if self.source.word(at) == "pub" {
            at += 1;
        }
        if self.source.word(at) != "enum" || self.source.word(at + 2) != "{" {
            return Err(self.source.fault(at, "an error that is no plain enum"));
        }
        let name = self.source.word(at + 1).to_string();
        let end = self.source.closed(at + 2)?;
        let variants = self.variants(at + 3, end - 1)?;
        self.source.count(9);
        self.source.append(end - 1, &impls(&name, &variants));
        Ok(())
    }

    fn variants(&mut self, first: usize, end: usize) -> Result<Vec<Variant>, Fault> {
        let mut found = Vec::new();
        let mut j = first;
        while j < end {
            if !self.source.reads(j, &["#", "[", "error", "("]) {
                return Err(self.source.fault(j, "a variant of an error without a text"));
            }
            let text = self.source.word(j + 4).to_string();
            let past = self.source.closed(j + 1)?;
            if past != j + 7 {
                return Err(self
                    .source
                    .fault(j, "a text of an error of an unknown form"));
            }
            self.source.replace(j, past, "");
            let name = self.source.word(past).to_string();
            j = past + 1;
            let holds = if self.source.word(j) == "(" {
                let close = self.source.closed(j)?;
                let holds = self.held(j + 1, close - 1)?;
                j = close;
                holds
            } else {
                Held::Nothing
            };
            if self.source.word(j) != "," {
                return Err(self
                    .source
                    .fault(j, "a variant of an error of an unknown form"));
            }
            j += 1;
            found.push(Variant { name, text, holds });
        }
        Ok(found)
    }

    /// What a variant holds between its brackets, the tokens from `i` on and before `end`.
    fn held(&mut self, i: usize, end: usize) -> Result<Held, Fault> {
        if (i..end).any(|j| self.source.word(j) == ",") {
            return Err(self.source.fault(i, "an error that holds two values"));
        }
        if self.source.word(i) != "#" {
            return Ok(Held::Value);
        }
        let past = self.source.closed(i + 1)?;
        let of = self.source.text_of(past, end).to_string();
        let holds = if self.source.reads(i, &["#", "[", "from", "]"]) {
            Held::Error(of)
        } else if self
            .source
            .reads(i, &["#", "[", "from", "(", "alloc", ")", "]"])
        {
            Held::Refusal(of)
        } else {
            return Err(self.source.fault(i, "an attribute of an unknown form"));
        };
        self.source.replace(i, past, "");
        Ok(holds)
    }
}

/// `Display`, `Error` and `From`, as thiserror writes them.
fn impls(name: &str, variants: &[Variant]) -> String {
    let arms: String = variants.iter().map(|v| arm(name, v)).collect();
    let mut put = format!(
        "\n\nimpl core::fmt::Display for {name} {{\n\
         fn fmt(&self, f: &mut core::fmt::Formatter<'_>) -> core::fmt::Result {{\n\
         match self {{\n{arms}}}\n}}\n}}\n\n\
         impl wollemigo_support::error::Error for {name} {{}}",
        name = name,
        arms = arms
    );
    for variant in variants {
        match &variant.holds {
            Held::Error(of) => put.push_str(&from(name, &variant.name, "", of, "error", "error")),
            Held::Refusal(of) => {
                put.push_str(&from(name, &variant.name, "", of, "error", "error"));
                let given = "wollemigo_support::alloc::AllocFailed<T>";
                put.push_str(&from(name, &variant.name, "<T>", given, "_error", of));
            }
            Held::Nothing | Held::Value => {}
        }
    }
    put
}

fn arm(name: &str, variant: &Variant) -> String {
    let is_told = variant.text.contains("{0}");
    match (&variant.holds, is_told) {
        (Held::Nothing, _) => format!(
            "{}::{} => f.write_str({}),\n",
            name, variant.name, variant.text
        ),
        (_, false) => format!(
            "{}::{}(_) => f.write_str({}),\n",
            name, variant.name, variant.text
        ),
        (_, true) => {
            let text = variant.text.replace("{0}", "{}");
            format!(
                "{}::{}(value) => write!(f, {}, value),\n",
                name, variant.name, text
            )
        }
    }
}

fn from(name: &str, variant: &str, parameters: &str, of: &str, given: &str, held: &str) -> String {
    format!(
        "\n\nimpl{parameters} From<{of}> for {name} {{\nfn from({given}: {of}) -> {name} {{\n{name}::{variant}({held})\n}}\n}}",
        parameters = parameters,
        of = of,
        name = name,
        given = given,
        variant = variant,
        held = held
    )
}
