//! `let .. else`, which rustc knows from 1.65 on (rule 13).
use super::Walk;
use crate::fault::Fault;

impl Walk<'_, '_> {
    /// At the word `let`: `let PATTERN = VALUE else { BODY };` becomes
    /// `let NAMES = match VALUE { PATTERN => NAMES, _ => { BODY } };`.
    pub(super) fn choice(&mut self, i: usize) -> Result<(), Fault> {
        if matches!(self.source.before(i), "if" | "while" | "&") {
            return Ok(());
        }
        let equal = match self.find_flat(i + 1, &["=", ";"])? {
            Some(j) if self.source.word(j) == "=" => j,
            _ => return Ok(()),
        };
        let end = match self.find_flat(equal + 1, &[";"])? {
            Some(j) => j,
            None => return Err(self.source.fault(i, "a let without an end")),
        };
        let other = match self.find_else(equal + 1, end)? {
            Some(j) => j,
            None => return Ok(()),
        };
        let body = self.source.closed(other + 1)?;
        if body != end {
            return Err(self.source.fault(other, "an else of an unknown form"));
        }
        if self.is_question(i + 1, equal, other) {
            let name = self.source.text_of(i + 3, equal - 1).to_string();
            self.source.count(13);
            self.source.replace(i + 1, equal, &name);
            self.source.replace(other, body, "?");
            return Ok(());
        }
        // What the pattern makes mutable is so outside of the match.
        let names = self.bound_names(i + 1, equal)?;
        let outer = in_brackets(&names);
        let names = outer.replace("mut ", "");
        let pattern = self.source.text_of(i + 1, equal).replace("mut ", "");
        self.source.count(13);
        self.source.replace(i + 1, equal, &outer);
        self.source.insert(equal + 1, "match ");
        self.source.replace(
            other,
            other + 1,
            &format!("{{ {} => {}, _ =>", pattern, names),
        );
        self.source.append(body - 1, " }");
        Ok(())
    }

    /// Whether `Some(NAME) = VALUE else { return None; }` stands at token `i`, with a value that is a chain of names, calls and fields.
    fn is_question(&self, i: usize, equal: usize, other: usize) -> bool {
        let last = equal - 2;
        let is_name = last == i + 2 || last == i + 3 && self.source.word(i + 2) == "mut";
        let is_some = self.source.reads(i, &["Some", "("]) && is_name && self.source.is_word(last);
        let returns_none = self
            .source
            .reads(other + 1, &["{", "return", "None", ";", "}"]);
        let mut j = equal + 1;
        while j < other {
            j = match self.source.word(j) {
                "." | ":" => j + 1,
                "(" | "[" if j > equal + 1 => self.source.closed(j).unwrap_or(j + 1),
                "as" | "if" | "match" | "loop" | "move" | "unsafe" => return false,
                _ if self.source.is_word(j) => j + 1,
                _ => return false,
            };
        }
        is_some && returns_none
    }

    /// The first token from `i` on that is one of these and stands within no bracket.
    fn find_flat(&self, i: usize, words: &[&str]) -> Result<Option<usize>, Fault> {
        let mut j = i;
        while j < self.source.len() {
            let word = self.source.word(j);
            if words.contains(&word) {
                return Ok(Some(j));
            }
            match word {
                "(" | "[" | "{" => j = self.source.closed(j)?,
                ")" | "]" | "}" => return Ok(None),
                _ => j += 1,
            }
        }
        Ok(None)
    }

    /// The `else` of a `let`: one that follows no block.
    fn find_else(&self, i: usize, end: usize) -> Result<Option<usize>, Fault> {
        match self.find_flat(i, &["else", ";"])? {
            Some(j) if j < end && self.source.word(j) == "else" && self.source.before(j) != "}" => {
                Ok(Some(j))
            }
            _ => Ok(None),
        }
    }

    /// The names that a pattern binds, each with its `mut`.
    fn bound_names(&self, i: usize, end: usize) -> Result<Vec<String>, Fault> {
        let mut names = Vec::new();
        for j in i..end {
            let word = self.source.word(j);
            let is_name = self.source.is_word(j) && word.starts_with(|c: char| c.is_lowercase());
            if matches!(word, "ref" | "crate" | "std" | "|") {
                return Err(self
                    .source
                    .fault(j, "a pattern before else of an unknown form"));
            }
            if is_name && word != "mut" && !matches!(self.source.word(j + 1), "(" | "{" | ":") {
                let before = if self.source.before(j) == "mut" {
                    "mut "
                } else {
                    ""
                };
                names.push(format!("{}{}", before, word));
            }
        }
        if names.is_empty() {
            return Err(self
                .source
                .fault(i, "a pattern before else that binds nothing"));
        }
        Ok(names)
    }
}

/// One name as it is, several in brackets.
fn in_brackets(names: &[String]) -> String {
    match names {
        [name] => name.clone(),
        _ => format!("({})", names.join(", ")),
    }
}
