//! What a run read and wrote, in a hidden file beside its files: so that the next one knows what is up to date, and what is its own.
use crate::inputs::{self, Input};
use crate::sums;
use serde::{Deserialize, Serialize};
use std::collections::HashSet;
use std::fs;
use std::path::Path;

/// A file that was written.
#[derive(Clone, Debug, PartialEq, Serialize, Deserialize)]
pub struct Written {
    pub name: String,
    pub sum: String,
}

impl Written {
    /// Whether it is called by what it has.
    pub fn is_by_content(&self) -> bool {
        self.name.contains(sums::short(&self.sum))
    }

    /// Whether it lies there as it was written. A stamp may come from elsewhere.
    pub fn is_in(&self, folder: &Path) -> bool {
        let is_plain = Path::new(&self.name)
            .file_name()
            .map_or(false, |name| name == self.name.as_str());
        is_plain
            && fs::read(folder.join(&self.name)).map_or(false, |bytes| sums::of(&bytes) == self.sum)
    }
}

/// What a run is made from, and what it tells.
#[derive(Clone, Debug, Default, PartialEq, Serialize, Deserialize)]
pub struct Made {
    /// Of the program, the words, and which files there are.
    pub asked: String,
    pub inputs: Vec<Input>,
    /// When they were looked at.
    pub seen: i64,
    pub lines: Vec<String>,
    pub notes: Vec<String>,
    pub has_left_out: bool,
}

#[derive(Clone, Debug, Default, PartialEq, Serialize, Deserialize)]
pub struct Stamp {
    pub made: Made,
    pub outputs: Vec<Written>,
    /// The outputs, as they lay in their places.
    pub placed: Vec<Input>,
    /// Files of the set before that are called by what they have, and stay for those who read its record.
    pub before: Vec<Written>,
    /// Other files of earlier runs, which this one doesn't write.
    pub left: Vec<Written>,
}

impl Stamp {
    /// That of a file; an empty one where there is none that can be read.
    pub fn read(path: &Path) -> Stamp {
        let is_file = fs::symlink_metadata(path).map_or(false, |there| there.is_file());
        let text = is_file.then(|| fs::read(path).ok()).flatten();
        text.and_then(|text| serde_json::from_slice(&text).ok())
            .unwrap_or_default()
    }

    pub fn bytes(&self) -> Vec<u8> {
        let mut text = serde_json::to_vec(self).expect("text alone is written");
        text.push(b'\n');
        text
    }

    /// That of a run which writes these files after this one.
    pub fn next(&self, made: &Made, outputs: Vec<Written>) -> Stamp {
        let names: HashSet<&str> = outputs.iter().map(|one| one.name.as_str()).collect();
        let is_left = |one: &&Written| !names.contains(one.name.as_str());
        let (before, mut left): (Vec<Written>, Vec<Written>) = self
            .outputs
            .iter()
            .filter(is_left)
            .cloned()
            .partition(Written::is_by_content);
        left.extend(self.left.iter().filter(is_left).cloned());
        Stamp {
            before,
            left,
            made: made.clone(),
            placed: Vec::new(),
            outputs,
        }
    }

    /// Whether it tells of a file.
    pub fn has(&self, name: &str) -> bool {
        self.outputs
            .iter()
            .chain(&self.before)
            .any(|one| one.name == name)
    }

    /// How it would be written now, if all that was read and written has what it had.
    pub fn fresh(&self, asked: &str) -> Option<Stamp> {
        if self.made.asked != asked || self.placed.is_empty() {
            return None;
        }
        let seen = inputs::now();
        let same = |all: &[Input]| -> Option<Vec<Input>> {
            all.iter().map(|one| one.same(self.made.seen)).collect()
        };
        let (placed, inputs) = (same(&self.placed)?, same(&self.made.inputs)?);
        let is_seen = placed == self.placed && inputs == self.made.inputs;
        let made = Made {
            inputs,
            seen: if is_seen { self.made.seen } else { seen },
            ..self.made.clone()
        };
        Some(Stamp {
            made,
            placed,
            ..self.clone()
        })
    }
}
