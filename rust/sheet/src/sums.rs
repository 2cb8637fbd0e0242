//! Sums of bytes, by which files are told apart: SHA-256.
use sha2::{Digest, Sha256};

/// In hexadecimal digits, as `sha256sum` writes it.
pub fn of(bytes: &[u8]) -> String {
    let sum = Sha256::digest(bytes);
    sum.iter().map(|byte| format!("{:02x}", byte)).collect()
}

/// What stands of a sum in the name of a file.
pub fn short(sum: &str) -> &str {
    &sum[..16]
}

#[cfg(test)]
mod tests {
    #[test]
    fn sums() {
        // FIPS 180-2, appendix B.1.
        let abc = "ba7816bf8f01cfea414140de5dae2223b00361a396177a9cb410ff61f20015ad";
        assert_eq!(
            (super::of(b"abc").as_str(), super::short(abc)),
            (abc, "ba7816bf8f01cfea")
        );
    }
}
