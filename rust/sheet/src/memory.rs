//! How much memory pictures and sheets may take, at four bytes a pixel.
use crate::fault::{Fault, ROOM};
use std::fmt;
use std::str::FromStr;
use sysinfo::{RefreshKind, System, SystemExt};

/// A number of bytes.
#[derive(Clone, Copy, Debug, PartialEq, Eq, PartialOrd, Ord)]
pub struct Bytes(pub u64);

impl Bytes {
    /// Of a picture.
    pub fn of(width: u64, height: u64) -> Bytes {
        Bytes(width.saturating_mul(height).saturating_mul(4))
    }

    pub fn and(self, more: Bytes) -> Bytes {
        Bytes(self.0.saturating_add(more.0))
    }

    /// Half of what the machine has.
    pub fn usual() -> Bytes {
        let system = System::new_with_specifics(RefreshKind::new().with_memory());
        Bytes(system.total_memory() / 2)
    }

    /// Whether `what` may take so many.
    pub fn allow(self, taken: Bytes, what: &str) -> Result<(), Fault> {
        if taken <= self {
            return Ok(());
        }
        let line = format!(
            "{} take {} at four bytes a pixel, and --memory allows {}",
            what, taken, self
        );
        Err(Fault::new(ROOM, line))
    }
}

impl fmt::Display for Bytes {
    fn fmt(&self, f: &mut fmt::Formatter<'_>) -> fmt::Result {
        let units = [(1u64 << 30, "G"), (1 << 20, "M"), (1 << 10, "K")];
        match units.iter().find(|(size, _)| self.0 >= *size) {
            Some((size, unit)) => write!(f, "{:.1}{}", self.0 as f64 / *size as f64, unit),
            None => write!(f, "{}", self.0),
        }
    }
}

impl FromStr for Bytes {
    type Err = String;

    fn from_str(text: &str) -> Result<Bytes, String> {
        let why = || "memory is a whole number of bytes, or of K, M or G, as 500M".to_string();
        let (digits, unit) = match text.char_indices().last() {
            Some((place, 'K')) => (&text[..place], 1 << 10),
            Some((place, 'M')) => (&text[..place], 1 << 20),
            Some((place, 'G')) => (&text[..place], 1u64 << 30),
            _ => (text, 1),
        };
        if !digits.bytes().all(|byte| byte.is_ascii_digit()) {
            return Err(why());
        }
        let number: u64 = digits.parse().map_err(|_| why())?;
        Ok(Bytes(number.checked_mul(unit).ok_or_else(why)?))
    }
}

#[cfg(test)]
mod tests {
    use super::Bytes;

    #[test]
    fn reads_and_writes() {
        for (text, bytes, shown) in [
            ("0", 0, "0"),
            ("1023", 1023, "1023"),
            ("2K", 2048, "2.0K"),
            ("1536K", 1 << 20 | 1 << 19, "1.5M"),
            ("3G", 3 << 30, "3.0G"),
        ] {
            let read: Bytes = text.parse().unwrap();
            assert_eq!((read.0, read.to_string().as_str()), (bytes, shown));
        }
        for text in ["", "M", "-1", "+1", "1.5G", "1T", "99999999999G"] {
            assert!(text.parse::<Bytes>().is_err(), "{}", text);
        }
        assert_eq!(Bytes::of(1 << 40, 1 << 40).0, u64::MAX);
    }
}
