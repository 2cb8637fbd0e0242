//! Text that is given an allocator.

use crate::alloc::{AllocError, Allocator, Global};
use crate::room;
use core::fmt;
use core::hash::{Hash, Hasher};
use core::ops::Deref;
use rust_alloc::string::String as Text;

/// Text, whose memory an allocator grants. A call that gives an Err leaves it as it was, unless it says otherwise.
pub struct String<A: Allocator = Global> {
    text: Text,
    alloc: A,
}

impl<A: Allocator> String<A> {
    /// No text. Takes no memory.
    pub fn new(alloc: A) -> String<A> {
        String {
            text: Text::new(),
            alloc,
        }
    }

    /// A copy of a text.
    pub fn from_str(alloc: A, text: &str) -> Result<String<A>, AllocError> {
        let mut made = String::new(alloc);
        made.push_str(text)?;
        Ok(made)
    }

    /// The text that `format!` is given.
    pub fn format(alloc: A, arguments: fmt::Arguments<'_>) -> Result<String<A>, AllocError> {
        let mut made = String::new(alloc);
        made.write_fmt(arguments)?;
        Ok(made)
    }

    /// Makes room for so many more bytes, as a list of bytes does.
    pub fn reserve(&mut self, additional: usize) -> Result<(), AllocError> {
        let (len, before) = (self.text.len(), self.text.capacity());
        if additional <= before - len {
            return Ok(());
        }
        let after = room::grown::<u8>(before, len.checked_add(additional).ok_or(AllocError)?);
        let text = &mut self.text;
        room::exchange::<u8, A, _>(&self.alloc, before, after, || {
            text.try_reserve_exact(after - len)
        })
    }

    /// Appends a text.
    pub fn push_str(&mut self, text: &str) -> Result<(), AllocError> {
        self.reserve(text.len())?;
        self.text.push_str(text);
        Ok(())
    }

    /// Appends a character.
    pub fn push(&mut self, character: char) -> Result<(), AllocError> {
        self.push_str(character.encode_utf8(&mut [0; 4]))
    }

    /// For `write!`: appends what is told. On an Err a part of it may stand.
    pub fn write_fmt(&mut self, arguments: fmt::Arguments<'_>) -> Result<(), AllocError> {
        fmt::write(self, arguments).map_err(|fmt::Error| AllocError)
    }

    /// Takes all text out. The capacity stays.
    pub fn clear(&mut self) {
        self.text.clear();
    }

    /// The text.
    pub fn as_str(&self) -> &str {
        &self.text
    }

    /// The text as bytes.
    pub fn as_bytes(&self) -> &[u8] {
        self.text.as_bytes()
    }

    /// How many bytes it has.
    pub fn len(&self) -> usize {
        self.text.len()
    }

    /// Whether it has none.
    pub fn is_empty(&self) -> bool {
        self.text.is_empty()
    }

    /// How many bytes it has room for.
    pub fn capacity(&self) -> usize {
        self.text.capacity()
    }

    /// The allocator that it was given.
    pub fn allocator(&self) -> &A {
        &self.alloc
    }
}

impl<A: Allocator> Drop for String<A> {
    fn drop(&mut self) {
        room::give_back::<u8, A>(&self.alloc, self.text.capacity());
    }
}

impl<A: Allocator> fmt::Write for String<A> {
    fn write_str(&mut self, text: &str) -> fmt::Result {
        self.push_str(text).map_err(|AllocError| fmt::Error)
    }
}

impl<A: Allocator> Deref for String<A> {
    type Target = str;

    fn deref(&self) -> &str {
        &self.text
    }
}

impl<A: Allocator> fmt::Display for String<A> {
    fn fmt(&self, f: &mut fmt::Formatter<'_>) -> fmt::Result {
        fmt::Display::fmt(self.as_str(), f)
    }
}

impl<A: Allocator> fmt::Debug for String<A> {
    fn fmt(&self, f: &mut fmt::Formatter<'_>) -> fmt::Result {
        fmt::Debug::fmt(self.as_str(), f)
    }
}

impl<A: Allocator, B: Allocator> PartialEq<String<B>> for String<A> {
    fn eq(&self, other: &String<B>) -> bool {
        self.as_str() == other.as_str()
    }
}

impl<A: Allocator> Eq for String<A> {}

impl<A: Allocator> PartialEq<str> for String<A> {
    fn eq(&self, other: &str) -> bool {
        self.as_str() == other
    }
}

impl<A: Allocator> PartialEq<&str> for String<A> {
    fn eq(&self, other: &&str) -> bool {
        self.as_str() == *other
    }
}

impl<A: Allocator> Hash for String<A> {
    fn hash<H: Hasher>(&self, state: &mut H) {
        self.as_str().hash(state);
    }
}
