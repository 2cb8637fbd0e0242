//! What stops the eraser: a line that names the file, the line and what is wrong.
use std::fmt;

/// Why nothing is written.
#[derive(Clone, Debug, PartialEq, Eq)]
pub struct Fault(pub String);

impl Fault {
    /// A fault at a place in a text, told by its line.
    pub fn at(name: &str, text: &str, at: usize, what: &str) -> Fault {
        let line = text[..at].matches('\n').count() + 1;
        Fault(format!("{}:{}: {}", name, line, what))
    }

    /// A fault of a whole file.
    pub fn of(name: &str, what: &str) -> Fault {
        Fault(format!("{}: {}", name, what))
    }
}

impl fmt::Display for Fault {
    fn fmt(&self, f: &mut fmt::Formatter<'_>) -> fmt::Result {
        f.write_str(&self.0)
    }
}

impl std::error::Error for Fault {}
