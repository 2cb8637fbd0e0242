//! A source as tokens, and the edits that are made of it. Nothing is moved: an edit cuts a stretch of the text, and may put
//! other text in its place.
use crate::fault::Fault;
use crate::lexer::{tokens, Kind, Token};
use std::collections::BTreeMap;

/// A stretch of the text that goes, and what comes in its place.
#[derive(Clone, Debug)]
pub struct Edit {
    pub start: usize,
    pub end: usize,
    pub put: String,
}

/// A source, the tokens of its code without spaces and comments, and the edits that were made so far.
pub struct Source<'a> {
    pub name: &'a str,
    pub text: &'a str,
    all: Vec<Token>,
    /// Where the tokens of code stand among all.
    code: Vec<usize>,
    pub edits: Vec<Edit>,
    /// How often each rule was applied, by its number.
    pub counts: BTreeMap<u32, usize>,
}

impl<'a> Source<'a> {
    /// Reads a source.
    pub fn new(name: &'a str, text: &'a str) -> Result<Source<'a>, Fault> {
        let all = tokens(name, text)?;
        let is_code = |t: &Token| t.kind != Kind::Space && t.kind != Kind::Comment;
        let code = (0..all.len()).filter(|&n| is_code(&all[n])).collect();
        Ok(Source {
            name,
            text,
            all,
            code,
            edits: Vec::new(),
            counts: BTreeMap::new(),
        })
    }

    /// How many tokens of code there are.
    pub fn len(&self) -> usize {
        self.code.len()
    }

    pub fn is_empty(&self) -> bool {
        self.code.is_empty()
    }

    pub fn token(&self, i: usize) -> Token {
        self.all[self.code[i]]
    }

    /// The text of token `i`; nothing before the first and behind the last.
    pub fn word(&self, i: usize) -> &'a str {
        match self.code.get(i) {
            Some(&n) => &self.text[self.all[n].start..self.all[n].end],
            None => "",
        }
    }

    /// The text of the token before token `i`.
    pub fn before(&self, i: usize) -> &'a str {
        if i == 0 {
            ""
        } else {
            self.word(i - 1)
        }
    }

    pub fn kind(&self, i: usize) -> Option<Kind> {
        self.code.get(i).map(|&n| self.all[n].kind)
    }

    pub fn is_word(&self, i: usize) -> bool {
        self.kind(i) == Some(Kind::Word)
    }

    /// Whether the tokens from `i` on are these.
    pub fn reads(&self, i: usize, words: &[&str]) -> bool {
        words
            .iter()
            .enumerate()
            .all(|(n, word)| self.word(i + n) == *word)
    }

    /// The text from token `i` on and before token `j`.
    pub fn text_of(&self, i: usize, j: usize) -> &'a str {
        if i >= j {
            ""
        } else {
            &self.text[self.token(i).start..self.token(j - 1).end]
        }
    }

    pub fn fault(&self, i: usize, what: &str) -> Fault {
        let at = self
            .code
            .get(i)
            .map_or(self.text.len(), |&n| self.all[n].start);
        Fault::at(self.name, self.text, at, what)
    }

    /// The token behind the bracket that closes the one at `i`.
    pub fn closed(&self, i: usize) -> Result<usize, Fault> {
        let mut open = Vec::new();
        for j in i..self.len() {
            match (self.kind(j), self.word(j)) {
                (Some(Kind::Mark), "{") => open.push("}"),
                (Some(Kind::Mark), "(") => open.push(")"),
                (Some(Kind::Mark), "[") => open.push("]"),
                (Some(Kind::Mark), w @ ("}" | ")" | "]")) => {
                    if open.pop() != Some(w) {
                        return Err(self.fault(j, "a bracket that closes none"));
                    }
                }
                _ => {}
            }
            if open.is_empty() {
                return if j > i {
                    Ok(j + 1)
                } else {
                    Err(self.fault(i, "a bracket was expected"))
                };
            }
        }
        Err(self.fault(i, "a bracket without end"))
    }

    /// Tests that all brackets of the text are closed.
    pub fn check_brackets(&self) -> Result<(), Fault> {
        let mut i = 0;
        while i < self.len() {
            i = match self.word(i) {
                "{" | "(" | "[" => self.closed(i)?,
                "}" | ")" | "]" => return Err(self.fault(i, "a bracket that closes none")),
                _ => i + 1,
            };
        }
        Ok(())
    }

    /// The token behind the angle brackets that open at `i`.
    pub fn angles_closed(&self, i: usize) -> Result<usize, Fault> {
        let mut depth = 0;
        let mut j = i;
        while j < self.len() {
            match self.word(j) {
                "<" => depth += 1,
                ">" if self.before(j) != "-" && self.before(j) != "=" => depth -= 1,
                "(" | "[" | "{" => j = self.closed(j)? - 1,
                _ => {}
            }
            j += 1;
            if depth == 0 {
                return Ok(j);
            }
        }
        Err(self.fault(i, "an angle bracket without end"))
    }

    /// Cuts the text of the tokens from `i` on and before `j`, and puts other text there.
    pub fn replace(&mut self, i: usize, j: usize, put: &str) {
        let (start, end) = (self.token(i).start, self.token(j - 1).end);
        self.edits.push(Edit {
            start,
            end,
            put: put.to_string(),
        });
    }

    /// Puts a text before token `i`.
    pub fn insert(&mut self, i: usize, put: &str) {
        let start = self
            .code
            .get(i)
            .map_or(self.text.len(), |&n| self.all[n].start);
        self.edits.push(Edit {
            start,
            end: start,
            put: put.to_string(),
        });
    }

    /// Puts a text behind token `i`.
    pub fn append(&mut self, i: usize, put: &str) {
        let end = self.token(i).end;
        self.edits.push(Edit {
            start: end,
            end,
            put: put.to_string(),
        });
    }

    /// Cuts what stands between token `i` and token `j - 1`, this one included: comments before it go as well.
    pub fn cut_behind(&mut self, i: usize, j: usize) {
        let (start, end) = (self.token(i).end, self.token(j - 1).end);
        self.edits.push(Edit {
            start,
            end,
            put: String::new(),
        });
    }

    /// Cuts the tokens from `i` on and before `j`, and the space behind them.
    pub fn cut_with_space(&mut self, i: usize, j: usize) {
        let last = self.code[j - 1];
        let behind = self.all.get(last + 1).filter(|t| t.kind == Kind::Space);
        self.edits.push(Edit {
            start: self.token(i).start,
            end: behind.map_or(self.all[last].end, |space| space.end),
            put: String::new(),
        });
    }

    /// Cuts an item with the comments right above it.
    pub fn cut_item(&mut self, i: usize, j: usize) {
        let (start, end) = (self.comments_above(i), self.token(j - 1).end);
        self.edits.push(Edit {
            start,
            end,
            put: String::new(),
        });
    }

    /// Rule 17: cuts `(docs/..)` in the comments, with the space before it, also where that begins a line of the comment.
    pub fn cut_references(&mut self) {
        let mut at = 0;
        while let Some(found) = self.text[at..].find("(docs/") {
            let start = at + found;
            at = start + 1;
            let is_comment = self
                .all
                .iter()
                .any(|t| t.kind == Kind::Comment && t.start <= start && start < t.end);
            let end = match self.text[start..].find(')') {
                Some(length) if is_comment => start + length + 1,
                _ => continue,
            };
            let is_cut = self.edits.iter().any(|e| e.start <= start && end <= e.end);
            if !is_cut {
                let before = self.text[..start].trim_end();
                let before = ["///", "//!", "//"]
                    .iter()
                    .find_map(|mark| before.strip_suffix(mark))
                    .unwrap_or(before);
                self.count(17);
                self.edits.push(Edit {
                    start: before.trim_end().len(),
                    end,
                    put: String::new(),
                });
            }
        }
    }

    /// Rule 18 in the comments.
    pub fn name_powers(&mut self) {
        const POWER: &str = "4294967296";
        for token in self.all.iter().filter(|t| t.kind == Kind::Comment) {
            for (at, _) in self.text[token.start..token.end].match_indices(POWER) {
                let start = token.start + at;
                let end = start + POWER.len();
                if !self.edits.iter().any(|e| e.start <= start && end <= e.end) {
                    *self.counts.entry(18).or_insert(0) += 1;
                    self.edits.push(Edit {
                        start,
                        end,
                        put: "`1 << 32`".to_string(),
                    });
                }
            }
        }
    }

    pub fn count(&mut self, rule: u32) {
        *self.counts.entry(rule).or_insert(0) += 1;
    }

    /// Where the comments begin that stand right above token `i`, with no empty line between.
    fn comments_above(&self, i: usize) -> usize {
        let mut n = self.code[i];
        let mut start = self.all[n].start;
        while n > 0 {
            n -= 1;
            let token = self.all[n];
            let text = &self.text[token.start..token.end];
            match token.kind {
                Kind::Comment if !text.starts_with("//!") => start = token.start,
                Kind::Space if text.matches('\n').count() < 2 => {}
                _ => break,
            }
        }
        start
    }

    /// The text with all edits made.
    pub fn edited(&mut self) -> Result<String, Fault> {
        self.edits.sort_by_key(|e| (e.start, e.end));
        let mut made = String::with_capacity(self.text.len());
        let mut at = 0;
        for edit in &self.edits {
            if edit.start < at {
                return Err(Fault::at(
                    self.name,
                    self.text,
                    edit.start,
                    "two rules cut the same text",
                ));
            }
            made.push_str(&self.text[at..edit.start]);
            made.push_str(&edit.put);
            at = edit.end;
        }
        made.push_str(&self.text[at..]);
        Ok(made)
    }
}
