//! By what a sheet is smaller than the pictures.
use std::fmt;
use std::str::FromStr;

/// A number above 0 and up to 1, with up to four decimals.
#[derive(Clone, Copy, Debug, PartialEq, Eq)]
pub struct Scale {
    ten_thousandths: u64,
}

impl Scale {
    pub fn is_one(self) -> bool {
        self.ten_thousandths == 10_000
    }

    /// The number.
    pub fn value(self) -> f64 {
        self.ten_thousandths as f64 / 10_000.0
    }

    /// A side of a picture, rounded up.
    pub fn of(self, side: u64) -> u64 {
        (side * self.ten_thousandths + 9_999) / 10_000
    }

    /// What follows the name of the sheet.
    pub fn suffix(self) -> String {
        if self.is_one() {
            String::new()
        } else {
            format!("@{}x", self)
        }
    }
}

impl fmt::Display for Scale {
    fn fmt(&self, f: &mut fmt::Formatter<'_>) -> fmt::Result {
        if self.is_one() {
            return f.write_str("1");
        }
        let decimals = format!("{:04}", self.ten_thousandths);
        write!(f, "0.{}", decimals.trim_end_matches('0'))
    }
}

impl FromStr for Scale {
    type Err = String;

    fn from_str(text: &str) -> Result<Scale, String> {
        let why = || "a scale is above 0 and up to 1, with up to four decimals".to_string();
        let (whole, decimals) = text.split_once('.').unwrap_or((text, ""));
        let digits = whole.len() == 1
            && decimals.len() <= 4
            && decimals.bytes().all(|byte| byte.is_ascii_digit());
        let ten_thousandths = if digits {
            format!("{}{:0<4}", whole, decimals)
                .parse()
                .map_err(|_| why())?
        } else {
            0
        };
        if ten_thousandths == 0 || ten_thousandths > 10_000 {
            return Err(why());
        }
        Ok(Scale { ten_thousandths })
    }
}

#[cfg(test)]
mod tests {
    use super::Scale;

    #[test]
    fn reads_and_writes() {
        for (text, shown) in [
            ("1", "1"),
            ("1.0", "1"),
            ("0.50", "0.5"),
            ("0.3333", "0.3333"),
            ("0.05", "0.05"),
        ] {
            assert_eq!(text.parse::<Scale>().unwrap().to_string(), shown);
        }
        for text in [
            "0", "2", "1.0001", "", ".5", "0.12345", "-1", "+1", "0,5", "x", "0.0000", "1e0",
        ] {
            assert!(text.parse::<Scale>().is_err(), "{}", text);
        }
    }

    #[test]
    fn rounds_up() {
        let half: Scale = "0.5".parse().unwrap();
        assert_eq!([1, 2, 3, 4].map(|side| half.of(side)), [1, 1, 2, 2]);
        let tenth: Scale = "0.1".parse().unwrap();
        assert_eq!([1, 10, 30, 31].map(|side| tenth.of(side)), [1, 1, 3, 4]);
    }
}
