//! Functions: what is given to them from outside, handles and allocators (rules 10, 11 and 12), hints to inline (rule 14),
//! and answers that must be used (rule 15).
use super::Walk;
use crate::fault::Fault;

/// What an export writes that a caller may not want: the number of a bad sprite, and the place of a key that is removed.
const OPTIONAL: [&str; 2] = ["sprite", "removed"];

impl Walk<'_, '_> {
    /// At the word `fn`.
    pub(super) fn function(&mut self, i: usize) -> Result<(), Fault> {
        if self.source.word(i + 1) == "(" {
            return Ok(());
        }
        let mut open = i + 2;
        if self.source.word(open) == "<" {
            open = self.source.angles_closed(open)?;
        }
        if self.source.word(open) != "(" {
            return Err(self.source.fault(i, "a function without parameters"));
        }
        let close = self.source.closed(open)?;
        let body = self.body_of(close)?;
        let is_hinted = std::mem::replace(&mut self.is_hinted, false);
        if self.source.word(body) != "{" {
            return Ok(());
        }
        if self.place.is_library && !is_hinted {
            let first = self.first_of_function(i);
            self.source.count(14);
            self.source.insert(first, "#[inline]\n");
        }
        if self.place.is_library && self.must_be_used(i, open, close) {
            let first = self.first_of_function(i);
            self.source.count(15);
            self.source.insert(first, "#[must_use]\n");
        }
        let parameters = self
            .source
            .text_of(open + 1, close - 1)
            .trim_end_matches(',');
        if parameters == "rt: HostRuntime" {
            self.source.count(10);
            self.source.replace(open, close, "()");
            self.source.append(body, "\nlet rt = HostRuntime;");
        } else if self.source.before(i) == "\"C\"" {
            self.export(open, close, body)?;
        }
        Ok(())
    }

    /// Whether a function is public, changes nothing that it is given, and has an answer: one of a `Result` must be used anyway.
    fn must_be_used(&self, i: usize, open: usize, close: usize) -> bool {
        let first = self.first_of_function(i);
        let is_public = self.source.word(first) == "pub" && self.source.word(first + 1) != "(";
        // `mut` behind a bracket or a comma belongs to a parameter's name.
        let changes = (open..close).any(|j| match self.source.word(j) {
            "mut" => !matches!(self.source.before(j), "(" | ","),
            word => word == "FnMut",
        });
        let has_answer = self.source.reads(close, &["-", ">"])
            && !matches!(self.source.word(close + 2), "Result" | "!");
        is_public && !changes && has_answer
    }

    /// The first token of a function whose word `fn` stands at `i`, behind its attributes.
    fn first_of_function(&self, i: usize) -> usize {
        let mut first = i;
        if matches!(self.source.before(first), "const" | "unsafe") {
            first -= 1;
        }
        let is_limited = first >= 4 && self.source.reads(first - 4, &["pub", "("]);
        if is_limited {
            first - 4
        } else if self.source.before(first) == "pub" {
            first - 1
        } else {
            first
        }
    }

    /// The bracket of a function's body, or its `;`, behind the parameters and the clauses.
    fn body_of(&self, close: usize) -> Result<usize, Fault> {
        let mut j = close;
        loop {
            match self.source.word(j) {
                "{" | ";" => return Ok(j),
                "" => return Err(self.source.fault(close, "a function without a body")),
                "requires" | "ensures" => j = self.clause_end(j)?,
                "(" | "[" => j = self.source.closed(j)?,
                _ => j += 1,
            }
        }
    }

    /// Rule 11: an export with these brackets.
    fn export(&mut self, open: usize, close: usize, body: usize) -> Result<(), Fault> {
        self.source.count(11);
        let refused = self.answer_to_null(close)?;
        let mut lines = String::new();
        let mut j = open + 1;
        while j < close - 1 {
            let end = self.parameter_end(j, close)?;
            let past = end + (self.source.word(end) == ",") as usize;
            lines.push_str(&self.crossing(j, end, past, refused));
            j = past;
        }
        self.source.append(body, &lines);
        Ok(())
    }

    /// What an export answers where a pointer is null, by the type of its result behind the brackets.
    fn answer_to_null(&self, close: usize) -> Result<&'static str, Fault> {
        match (self.source.word(close), self.source.word(close + 2)) {
            ("-", "u32") => Ok("return crate::plain::NULL_POINTER"),
            ("-", "bool") => Ok("return false"),
            ("-", _) => Err(self.source.fault(
                close,
                "an export whose result has no value for a null pointer",
            )),
            _ => Ok("return"),
        }
    }

    /// The comma behind the parameter that begins at `first`, or the bracket behind the last one.
    fn parameter_end(&self, first: usize, close: usize) -> Result<usize, Fault> {
        let mut end = first + 2;
        while end < close - 1 && self.source.word(end) != "," {
            end = if matches!(self.source.word(end), "[" | "(") {
                self.source.closed(end)?
            } else {
                end + 1
            };
        }
        Ok(end)
    }

    /// Gives a parameter the type as which it crosses from C, and says by which lines it gets its own type again.
    fn crossing(&mut self, first: usize, end: usize, past: usize, refused: &str) -> String {
        let name = self.source.word(first).to_string();
        let kind = self.source.text_of(first + 2, end).to_string();
        if kind == "Global" {
            self.source.replace(first, past, "");
            return format!("\nlet {} = Global;", name);
        }
        let target = match kind.strip_prefix('&') {
            Some(target) => target,
            None => return String::new(),
        };
        let (item, pointer, array) = match target.strip_prefix("mut ") {
            Some(item) => (item, "*mut", "slice_mut"),
            None => (target, "*const", "slice"),
        };
        let found = match item
            .strip_prefix('[')
            .and_then(|item| item.strip_suffix(']'))
        {
            Some(item) => {
                self.scope.used.insert(array);
                let crossing = format!("{} {}, {}_len: usize", pointer, item, name);
                self.source.replace(first + 2, end, &crossing);
                format!("unsafe {{ {0}({1}, {1}_len) }}", array, name)
            }
            None => {
                let crossing = format!("Option<{}>", kind);
                self.source.replace(first + 2, end, &crossing);
                name.clone()
            }
        };
        self.opened(&name, &found, refused)
    }

    /// The lines by which a parameter has its own type again, where `found` is an Option of it.
    fn opened(&mut self, name: &str, found: &str, refused: &str) -> String {
        if OPTIONAL.contains(&name) {
            self.scope.used.insert("spare");
            return format!(
                "\nlet mut spare_{0} = unsafe {{ spare() }};\nlet {0} = {1}.unwrap_or(&mut spare_{0});",
                name, found
            );
        }
        format!(
            "\nlet {0} = match {1} {{ Some({0}) => {0}, None => {2} }};",
            name, found, refused
        )
    }

    /// Rule 12, at a method's name.
    pub(super) fn call(&mut self, i: usize) -> Result<(), Fault> {
        if self.source.before(i) != "." || self.source.word(i + 1) != "(" {
            return Ok(());
        }
        let (name, needs) = match (self.source.word(i), self.source.word(i + 2)) {
            ("collect", first) if first != ")" => ("collect_in", "CollectIn"),
            ("expect", first) if !first.starts_with('"') => ("expect_in", "ExpectIn"),
            ("expect_err", first) if !first.starts_with('"') => ("expect_err_in", "ExpectErrIn"),
            _ => return Ok(()),
        };
        self.source.count(12);
        self.source.replace(i, i + 1, name);
        self.scope.used.insert(needs);
        Ok(())
    }
}
