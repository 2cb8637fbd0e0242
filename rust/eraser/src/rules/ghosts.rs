//! What only the prover reads: rules 1 to 5.
use super::Walk;
use crate::fault::Fault;

impl Walk<'_, '_> {
    /// Rule 1, at the word `ghost`.
    pub(super) fn ghost(&mut self, i: usize) -> Result<usize, Fault> {
        let first = if self.source.before(i) == "pub" {
            i - 1
        } else {
            i
        };
        let mut j = i + 1;
        if self.source.word(j) == "use" {
            while !matches!(self.source.word(j), ";" | "") {
                j += 1;
            }
        } else if self.source.is_word(j) {
            j += 1;
            if self.source.word(j) == ":" {
                j = self.source.closed(j + 1)?;
            }
            if self.source.word(j) == "=" {
                j = self.source.closed(j + 1)?;
            }
        }
        if !matches!(self.source.word(j), ";" | ",") || j == i + 1 {
            return Err(self.source.fault(i, "a ghost item of an unknown form"));
        }
        self.source.count(1);
        self.source.cut_item(first, j + 1);
        Ok(j + 1)
    }

    /// Rule 2, at the first clause of a function.
    pub(super) fn clauses(&mut self, first: usize) -> Result<usize, Fault> {
        let mut i = first;
        while matches!(self.source.word(i), "requires" | "ensures") {
            self.source.count(2);
            i = self.clause_end(i)?;
        }
        if !matches!(self.source.word(i), "{" | ";") {
            return Err(self.source.fault(i, "clauses that no body follows"));
        }
        self.source.cut_behind(first - 1, i);
        Ok(i)
    }

    /// The token behind a clause: its word, a star or none, a name or none, and a block.
    pub(super) fn clause_end(&self, i: usize) -> Result<usize, Fault> {
        let mut open = i + 1;
        if self.source.word(open) == "*" {
            open += 1;
        }
        if self.source.is_word(open) {
            open += 1;
        }
        if self.source.word(open) != "{" {
            return Err(self.source.fault(open, "a clause of an unknown form"));
        }
        self.source.closed(open)
    }

    /// Rule 3, at the word `impl`; and what is no `impl Model` is read on.
    pub(super) fn model_or_impl(&mut self, i: usize) -> Result<usize, Fault> {
        let (of, body) = self.trait_and_body(i)?;
        match of {
            "Model" => {
                let end = self.source.closed(body)?;
                let first = self.first_of_item(i);
                self.source.count(3);
                self.source.cut_item(first, end);
                Ok(end)
            }
            "Drop" => Err(self.source.fault(i, "an impl of Drop")),
            _ => Ok(i + 1),
        }
    }

    /// The last name of an impl's trait, and where its body opens.
    fn trait_and_body(&self, i: usize) -> Result<(&'static str, usize), Fault> {
        let mut of = "";
        let mut last = "";
        let mut j = i + 1;
        while self.source.word(j) != "{" {
            match self.source.word(j) {
                "" => return Err(self.source.fault(i, "an impl without a body")),
                "<" => {
                    j = self.source.angles_closed(j)?;
                    continue;
                }
                "for" => of = last,
                "Model" => last = "Model",
                "Drop" => last = "Drop",
                _ => last = "",
            }
            j += 1;
        }
        Ok((of, j))
    }

    /// The first token of the item whose keyword stands at `i`: its attributes and what stands before the keyword.
    fn first_of_item(&self, i: usize) -> usize {
        let mut first = i;
        while matches!(self.source.before(first), "pub" | "unsafe" | "const") {
            first -= 1;
        }
        first
    }

    /// Rules 4, 5, 8, 9 and 11, at the `#` of an attribute; and a note for rule 14.
    pub(super) fn attribute(&mut self, i: usize) -> Result<usize, Fault> {
        let open = if self.source.word(i + 1) == "!" {
            i + 2
        } else {
            i + 1
        };
        if self.source.word(open) != "[" {
            return Ok(i + 1);
        }
        let end = self.source.closed(open)?;
        match self.source.word(open + 1) {
            "tactic" | "cycle" => {
                self.source.count(4);
                if open == i + 1 {
                    self.source.cut_with_space(i, end);
                } else {
                    self.source.cut_item(i, end);
                }
            }
            "derive" => self.derive(i, end)?,
            "derive_where" => {
                self.source.count(8);
                self.source.replace(open + 1, open + 2, "derive");
            }
            "inline" | "cold" | "test" => self.is_hinted = true,
            "unsafe" if self.source.reads(open + 2, &["(", "no_mangle", ")"]) => {
                self.source.replace(open + 1, end - 1, "no_mangle");
            }
            "error" | "from" if self.is_cut(i) => {}
            "error" | "from" => {
                return Err(self
                    .source
                    .fault(i, "an attribute of thiserror in an unknown place"))
            }
            _ => {}
        }
        Ok(end)
    }

    /// Rule 5, at the bound `Drop`.
    pub(super) fn drop_bound(&mut self, i: usize) -> Result<usize, Fault> {
        self.source.count(5);
        if self.source.before(i) == "+" {
            self.source.cut_behind(i - 2, i + 1);
        } else if self.source.word(i + 1) == "+" {
            self.source.replace(i, i + 2, "");
        } else if self.source.before(i) == ":" && self.source.before(i - 1) != ":" {
            self.source.cut_behind(i - 2, i + 1);
        } else {
            return Err(self.source.fault(i, "Drop in an unknown place"));
        }
        Ok(i + 1)
    }
}
