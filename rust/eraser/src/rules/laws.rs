//! Laws, which state something and do nothing (rule 16).
use super::Walk;
use crate::fault::Fault;
use crate::source::Source;
use std::collections::BTreeSet;

/// The names of the laws of a source: functions with clauses, and without parameters, an answer and a body.
pub fn laws_of(source: &Source<'_>) -> Result<BTreeSet<String>, Fault> {
    let mut found = BTreeSet::new();
    for i in (0..source.len()).filter(|&i| source.word(i) == "fn") {
        if source.reads(i + 2, &["(", ")"]) {
            let body = behind_clauses(source, i + 4)?;
            if body > i + 4 && is_empty_body(source, body) {
                found.insert(source.word(i + 1).to_string());
            }
        }
    }
    Ok(found)
}

fn is_empty_body(source: &Source<'_>, open: usize) -> bool {
    source.reads(open, &["{", "}"])
}

/// The token behind the clauses from token `i` on.
fn behind_clauses(source: &Source<'_>, i: usize) -> Result<usize, Fault> {
    let mut j = i;
    while matches!(source.word(j), "requires" | "ensures") {
        while !matches!(source.word(j), "{" | "") {
            j += 1;
        }
        j = source.closed(j)?;
    }
    Ok(j)
}

impl Walk<'_, '_> {
    fn is_law(&self, name: &str) -> bool {
        name.starts_with("prove_") || self.place.laws.contains(name)
    }

    /// Rule 16: cuts what begins at token `i`, if that is a law, a call of one or an import of one. The token to go on with.
    pub(super) fn law(&mut self, i: usize) -> Result<Option<usize>, Fault> {
        let (end, is_item) = match self.source.word(i) {
            "#" | "pub" | "fn" | "use" | "mod" => (self.law_item(i)?, true),
            _ => (self.law_call(i)?, false),
        };
        let end = match end {
            Some(end) => end,
            None => return Ok(None),
        };
        self.source.count(16);
        if is_item {
            self.source.cut_item(i, end);
        } else {
            self.source.cut_with_space(i, end);
        }
        Ok(Some(end))
    }

    /// The token behind the item at `i` with its attributes, if that is a law or brings one in.
    fn law_item(&self, i: usize) -> Result<Option<usize>, Fault> {
        let mut j = i;
        while self.source.reads(j, &["#", "["]) {
            j = self.source.closed(j + 1)?;
        }
        if self.source.word(j) == "pub" {
            j += 1;
        }
        if self.source.word(j) == "(" {
            j = self.source.closed(j)?;
        }
        match self.source.word(j) {
            "fn" => self.law_function(j),
            "use" => Ok(self.law_import(j)),
            "mod" if self.source.reads(j + 1, &["laws", ";"]) => Ok(Some(j + 3)),
            _ => Ok(None),
        }
    }

    fn law_function(&self, i: usize) -> Result<Option<usize>, Fault> {
        let name = self.source.word(i + 1);
        if !self.is_law(name) {
            return Ok(None);
        }
        let mut open = i + 2;
        if self.source.word(open) == "<" {
            open = self.source.angles_closed(open)?;
        }
        let body = behind_clauses(self.source, self.source.closed(open)?)?;
        if !name.starts_with("prove_") && !self.source.reads(open, &["(", ")"]) {
            return Ok(None);
        }
        let is_law = name.starts_with("prove_") || is_empty_body(self.source, body);
        let changes = (open..body).any(|j| self.source.reads(j, &["&", "mut"]));
        if !is_law || changes || self.source.word(body) != "{" {
            return Err(self.source.fault(i, "a function with the name of a law"));
        }
        Ok(Some(self.source.closed(body)?))
    }

    /// An import of one law, or of a module of laws.
    fn law_import(&self, i: usize) -> Option<usize> {
        let mut end = i;
        while !matches!(self.source.word(end), ";" | "") {
            end += 1;
        }
        let last = self.source.before(end);
        (last == "laws" || self.is_law(last)).then(|| end + 1)
    }

    /// Cuts the name at token `j` out of a list of imports, if that is the name of a law or of a module of laws.
    pub(super) fn law_in_list(&mut self, j: usize) -> bool {
        let word = self.source.word(j);
        let is_listed = matches!(self.source.before(j), "{" | ",")
            && matches!(self.source.word(j + 1), "}" | ",");
        let is_law = is_listed && (word == "laws" || self.is_law(word));
        if is_law {
            self.source.count(16);
            let comma = (self.source.word(j + 1) == ",") as usize;
            self.source.replace(j, j + 1 + comma, "");
        }
        is_law
    }

    /// The token behind the statement at `i`, if that calls a law.
    fn law_call(&self, i: usize) -> Result<Option<usize>, Fault> {
        if !matches!(self.source.before(i), "{" | "}" | ";") {
            return Ok(None);
        }
        let (mut j, mut is_method) = (i, false);
        while self.source.is_word(j) {
            let name = self.source.word(j);
            let is_law = name.starts_with("prove_")
                || !is_method && self.source.word(j + 2) == ")" && self.is_law(name);
            if self.source.reads(j + 1, &[":", ":"]) {
                j += 3;
            } else if self.source.word(j + 1) == "." {
                is_method = true;
                j += 2;
            } else if self.source.word(j + 1) == "(" && is_law {
                let end = self.source.closed(j + 1)?;
                if (j + 2..end).any(|k| matches!(self.source.word(k), "(" | "=")) {
                    return Err(self
                        .source
                        .fault(j, "a law that is given what is computed there"));
                }
                return Ok((self.source.word(end) == ";").then(|| end + 1));
            } else {
                return Ok(None);
            }
        }
        Ok(None)
    }
}
