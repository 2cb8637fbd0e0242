//! How a test fails.

use core::fmt;
use rust_alloc::string::{String, ToString};

/// A test's failure: any error, as its text. A test returns `Result<(), Fail>`, and `?` makes it.
pub struct Fail {
    text: String,
}

impl Fail {
    /// A failure for this reason.
    pub fn new<D: fmt::Display>(reason: D) -> Fail {
        Fail {
            text: reason.to_string(),
        }
    }
}

// Not `Display`, so that each error which is may become one.
impl fmt::Debug for Fail {
    fn fmt(&self, f: &mut fmt::Formatter<'_>) -> fmt::Result {
        f.write_str(&self.text)
    }
}

impl<E: fmt::Display> From<E> for Fail {
    fn from(error: E) -> Fail {
        Fail::new(error)
    }
}
