//! The end by Ctrl-C or another signal that asks for it: what is written in part is removed first.
use crate::fault::Fault;
use std::fs;
use std::io;
use std::path::{Path, PathBuf};
use std::sync::atomic::{AtomicBool, Ordering};
use std::sync::{Mutex, MutexGuard, PoisonError};

/// The status of a program that a signal ended.
const STOPPED: i32 = 130;

static PATHS: Mutex<Vec<PathBuf>> = Mutex::new(Vec::new());

fn paths() -> MutexGuard<'static, Vec<PathBuf>> {
    PATHS.lock().unwrap_or_else(PoisonError::into_inner)
}

fn remove(path: &Path) {
    let _ = if path.is_dir() {
        fs::remove_dir_all(path)
    } else {
        fs::remove_file(path)
    };
}

/// A file or folder that is removed where this is dropped, or a signal comes.
pub struct Held(PathBuf);

/// Does this with no stop in between.
pub fn whole<T>(work: impl FnOnce() -> T) -> T {
    let _held = paths();
    work()
}

impl Held {
    /// Of a path that this makes, with no stop in between.
    pub fn new(path: &Path, make: impl FnOnce() -> io::Result<()>) -> io::Result<Held> {
        let mut held = paths();
        make()?;
        held.push(path.to_path_buf());
        Ok(Held(path.to_path_buf()))
    }

    /// Does this, which takes the path to its end, with no stop in between.
    pub fn end(self, work: impl FnOnce() -> Result<(), Fault>) -> Result<(), Fault> {
        let mut held = paths();
        let done = work();
        held.retain(|path| *path != self.0);
        drop(held);
        done
    }
}

impl Drop for Held {
    fn drop(&mut self) {
        let mut held = paths();
        held.retain(|path| *path != self.0);
        remove(&self.0);
    }
}

// Whether a signal asks for an end of the search first, and whether one did.
static CAN_ASK: AtomicBool = AtomicBool::new(false);
static IS_ASKED: AtomicBool = AtomicBool::new(false);

/// While this is there, the first signal only asks for an end.
pub struct Asked(());

impl Asked {
    pub fn new() -> Asked {
        CAN_ASK.store(true, Ordering::SeqCst);
        Asked(())
    }
}

impl Drop for Asked {
    fn drop(&mut self) {
        CAN_ASK.store(false, Ordering::SeqCst);
    }
}

/// Whether a signal asked for an end.
pub fn is_asked() -> bool {
    IS_ASKED.load(Ordering::SeqCst)
}

// Whether a run is to outlive its terminal, as by nohup.
fn is_hangup_ignored() -> bool {
    let status = fs::read_to_string("/proc/self/status").unwrap_or_default();
    let ignored = status.lines().find_map(|line| line.strip_prefix("SigIgn:"));
    let signals = ignored.and_then(|ignored| u64::from_str_radix(ignored.trim(), 16).ok());
    signals.map_or(false, |signals| signals & 1 == 1)
}

#[cfg(unix)]
fn ignore(signal: libc::c_int) {
    // Nothing is called by it.
    unsafe { libc::signal(signal, libc::SIG_IGN) };
}

/// Removes what is held, where no thread is in the middle of it.
pub fn clear() {
    if let Ok(held) = PATHS.try_lock() {
        held.iter().for_each(|path| remove(path));
    }
}

/// From now on a signal removes what is held, and ends the program. A hangup that was ignored still is, and a file that grows beyond a
/// limit is a failed write.
pub fn listen() {
    let outlives = is_hangup_ignored();
    let end = || {
        if CAN_ASK.load(Ordering::SeqCst) && !IS_ASKED.swap(true, Ordering::SeqCst) {
            return;
        }
        let held = paths();
        held.iter().for_each(|path| remove(path));
        std::process::exit(STOPPED);
    };
    // Where no signal can be waited for, it ends the program as it would have.
    let _ = ctrlc::set_handler(end);
    #[cfg(unix)]
    {
        ignore(libc::SIGXFSZ);
        if outlives {
            ignore(libc::SIGHUP);
        }
    }
    #[cfg(not(unix))]
    let _ = outlives;
}
