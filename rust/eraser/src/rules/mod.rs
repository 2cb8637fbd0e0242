//! The rules, by number. Those from 1 to 5 cut what only the prover reads; the others rewrite what Rust says otherwise.
//! docs/PLAIN.md has the reason for each, and an example.
//!
//! 1. A ghost item goes: `ghost use ..;`, a ghost field, a ghost member of a trait or an impl.
//! 2. A clause goes: `requires` and `ensures`, with the comments between clauses.
//! 3. An `impl Model` goes, with its import.
//! 4. The attributes `tactic` and `cycle` go.
//! 5. `Drop` goes, as a derive and as a bound: in Rust every value may be dropped.
//! 6. A path's head is named anew: `std`, the library's crates, and `crate` within the library.
//! 7. The names of Rattle's prelude that Rust's hasn't are imported.
//! 8. `derive_where(..)` becomes `derive(..)`.
//! 9. What thiserror derives is written out.
//! 10. A handle that `main` or a test is given is made at its begin.
//! 11. An export takes no allocator, and a slice as a pointer and a length.
//! 12. A call of Rust's name that takes an allocator or a handle is called `.._in`.
//! 13. `let .. else` becomes `let .. = match ..`, or `?`.
//! 14. A function of the library that has no hint to inline gets `#[inline]`.
//! 15. A public function of the library that changes nothing gets `#[must_use]` for its answer.
//! 16. A law goes, and so do its calls and imports: a function without parameters and without a body, or one named `prove_..`.
//! 17. In the library a reference to a page of the repository goes: `(docs/..)` in a comment.
//! 18. The greatest `u64` is called so, and 4294967296, one more than the greatest `u32`, is `1 << 32`, in comments of the library too.
//! 19. A module of the library that belongs to a feature is compiled with that alone.
mod choices;
mod derives;
mod ghosts;
mod handles;
mod laws;
mod names;

use crate::fault::Fault;
use crate::source::Source;
pub use laws::laws_of;
use std::collections::BTreeSet;

/// Modules of the library that belong to a feature of its package, and the feature.
pub const FEATURES: [(&str, &str); 6] = [
    ("atlas_cache", "cache"),
    ("atlas_entries", "cache"),
    ("atlas_maxrects", "sheet"),
    ("atlas_sheet", "sheet"),
    ("guillotiere_recording", "recording"),
    ("guillotiere_total::recording", "recording"),
];

/// The line above the declaration of a module that belongs to a feature.
pub fn condition_of(module: &str) -> String {
    let found = FEATURES.iter().find(|(name, _)| *name == module);
    found.map_or(String::new(), |(_, feature)| {
        format!("#[cfg(feature = \"{}\")]\n", feature)
    })
}

/// Where a source goes, as far as the rules ask it.
#[derive(Clone, Debug)]
pub struct Place {
    /// The crate that it belongs to.
    pub name: String,
    /// Whether it becomes a module of the library's one crate.
    pub is_library: bool,
    /// The crates that are modules of the library's one crate.
    pub library: BTreeSet<String>,
    /// The laws of all sources, by their names.
    pub laws: BTreeSet<String>,
}

/// The file, or a module that stands in it with its body.
struct Scope {
    /// The tokens of its items: from the first on and before the other.
    first: usize,
    end: usize,
    /// Names of the prelude that the text uses.
    used: BTreeSet<&'static str>,
    /// Names that the text imports itself.
    imported: BTreeSet<String>,
}

impl Scope {
    fn new(first: usize, end: usize) -> Scope {
        Scope {
            first,
            end,
            used: BTreeSet::new(),
            imported: BTreeSet::new(),
        }
    }
}

/// What the walk keeps beside the source.
struct Walk<'a, 's> {
    source: &'a mut Source<'s>,
    place: &'a Place,
    /// The module that is being read.
    scope: Scope,
    /// Those that it stands in.
    outer: Vec<Scope>,
    /// Whether the next function has a hint to inline, or not to.
    is_hinted: bool,
}

/// Makes the edits of all rules.
pub fn apply(source: &mut Source<'_>, place: &Place) -> Result<(), Fault> {
    source.check_brackets()?;
    let mut place = place.clone();
    place.laws.extend(laws_of(source)?);
    let place = &place;
    let scope = Scope::new(0, source.len());
    let mut walk = Walk {
        source,
        place,
        scope,
        outer: Vec::new(),
        is_hinted: false,
    };
    let mut i = 0;
    while i < walk.source.len() {
        walk.leave_module(i);
        i = walk.step(i)?;
    }
    walk.import_prelude();
    if place.is_library {
        source.cut_references();
        source.name_powers();
    }
    Ok(())
}

impl Walk<'_, '_> {
    /// At the word `mod`: what stands in the brackets of a module is a scope of its own.
    fn enter_module(&mut self, i: usize) -> Result<(), Fault> {
        let module = format!("{}::{}", self.place.name, self.source.word(i + 1));
        let condition = condition_of(&module);
        if self.place.is_library && self.source.word(i + 2) == ";" && !condition.is_empty() {
            let first = i - (self.source.before(i) == "pub") as usize;
            self.source.count(19);
            self.source.insert(first, &condition);
        }
        if self.source.word(i + 2) == "{" {
            let end = self.source.closed(i + 2)? - 1;
            let inner = Scope::new(i + 3, end);
            self.outer.push(std::mem::replace(&mut self.scope, inner));
        }
        Ok(())
    }

    fn leave_module(&mut self, i: usize) {
        while i >= self.scope.end {
            match self.outer.pop() {
                Some(outer) => {
                    self.import_prelude();
                    self.scope = outer;
                }
                None => return,
            }
        }
    }

    /// Applies the rule that holds at token `i`, if one does. The token to go on with.
    fn step(&mut self, i: usize) -> Result<usize, Fault> {
        if let Some(end) = self.law(i)? {
            return Ok(end);
        }
        match self.source.word(i) {
            "18446744073709551615" => {
                self.source.count(18);
                self.source.replace(i, i + 1, "u64::MAX");
                return Ok(i + 1);
            }
            "4294967296" => {
                let is_alone = self.source.before(i) == "=" && self.source.word(i + 1) == ";";
                let put = if is_alone { "1 << 32" } else { "(1 << 32)" };
                self.source.count(18);
                self.source.replace(i, i + 1, put);
                return Ok(i + 1);
            }
            "#" => return self.attribute(i),
            _ if !self.source.is_word(i) => return Ok(i + 1),
            "ghost" => return self.ghost(i),
            "requires" | "ensures" => return self.clauses(i),
            "impl" => return self.model_or_impl(i),
            "use" => return self.import(i),
            "fn" => self.function(i)?,
            "let" => self.choice(i)?,
            "mod" => self.enter_module(i)?,
            "Drop" => return self.drop_bound(i),
            "tactic" | "Model" | "invariant" | "measure" => {
                return Err(self
                    .source
                    .fault(i, "a word of the prover in an unknown place"));
            }
            _ => {}
        }
        self.call(i)?;
        self.head_of_path(i)?;
        self.name_of_prelude(i);
        Ok(i + 1)
    }
}
