//! The layout of what is erased: rustfmt's.
use crate::fault::Fault;
use std::io::Write;
use std::path::Path;
use std::process::{Command, Stdio};

/// The text in rustfmt's layout. `folder` is where rustfmt looks for its settings.
pub fn laid_out(name: &str, text: &str, folder: &Path) -> Result<String, Fault> {
    let failed = |what: &str| Fault::of(name, &format!("rustfmt: {}", what));
    let mut child = Command::new("rustfmt")
        .args(["--edition", "2021", "--emit", "stdout"])
        .current_dir(folder)
        .stdin(Stdio::piped())
        .stdout(Stdio::piped())
        .stderr(Stdio::piped())
        .spawn()
        .map_err(|e| failed(&e.to_string()))?;
    let mut input = child.stdin.take().ok_or_else(|| failed("no input"))?;
    let text = text.to_string();
    let writer = std::thread::spawn(move || input.write_all(text.as_bytes()));
    let output = child
        .wait_with_output()
        .map_err(|e| failed(&e.to_string()))?;
    let is_written = writer.join().map_or(false, |w| w.is_ok());
    if !output.status.success() || !is_written {
        return Err(failed(String::from_utf8_lossy(&output.stderr).trim()));
    }
    String::from_utf8(output.stdout).map_err(|e| failed(&e.to_string()))
}
