//! Pictures as the bytes of WebP files, by the program of libwebp.
use crate::decode;
use crate::picture::Picture;
use std::io::{ErrorKind, Write};
use std::path::Path;
use std::process::{Command, Stdio};

const PROGRAM: &str = "cwebp";
/// The greatest side of a WebP.
pub const GREATEST: u32 = 16383;

// A picture in the form that netpbm calls PAM, of eight bits with alpha.
fn pam(picture: &Picture) -> Vec<u8> {
    let head = format!(
        "P7\nWIDTH {}\nHEIGHT {}\nDEPTH 4\nMAXVAL 255\nTUPLTYPE RGB_ALPHA\nENDHDR\n",
        picture.width, picture.height
    );
    [head.into_bytes(), picture.pixels.concat()].concat()
}

fn encoded(picture: &Picture, is_small: bool) -> Result<Vec<u8>, String> {
    let told = |error: std::io::Error| match error.kind() {
        ErrorKind::NotFound => format!(
            "there is no command {}, which writes WebP: Debian's package is called webp",
            PROGRAM
        ),
        _ => format!("{}: {}", PROGRAM, error),
    };
    let level = if is_small { "9" } else { "6" };
    // `-z` asks for no loss, and `-exact` keeps the colours of transparent pixels.
    let words = ["-quiet", "-z", level, "-exact", "-metadata", "none"];
    let mut running = Command::new(PROGRAM)
        .args(words)
        .args(["-o", "-", "--", "-"])
        .stdin(Stdio::piped())
        .stdout(Stdio::piped())
        .stderr(Stdio::piped())
        .spawn()
        .map_err(told)?;
    // It reads all before it writes. Where it ends early, what it says counts.
    let written = running
        .stdin
        .take()
        .map_or(Ok(()), |mut input| input.write_all(&pam(picture)));
    let done = running.wait_with_output().map_err(told)?;
    if !done.status.success() || written.is_err() {
        let said = String::from_utf8_lossy(&done.stderr);
        let said = said.split_whitespace().collect::<Vec<_>>().join(" ");
        return Err(format!("{} failed: {} {}", PROGRAM, done.status, said));
    }
    Ok(done.stdout)
}

/// The bytes of a WebP without loss; of the smallest that the library finds, if it is to be small. It is read again and compared.
pub fn bytes(picture: &Picture, is_small: bool) -> Result<Vec<u8>, String> {
    if picture.width > GREATEST || picture.height > GREATEST {
        return Err(format!("a WebP has sides up to {}", GREATEST));
    }
    let bytes = encoded(picture, is_small)?;
    let again = decode::decoded(Path::new(PROGRAM), &bytes, u64::MAX);
    let (again, _) = again.map_err(|why| format!("{} wrote {}", PROGRAM, why))?;
    if again != *picture {
        return Err(format!("{} changed its pixels", PROGRAM));
    }
    Ok(bytes)
}
