//! Files that a run reads or writes, as they were then: by their size and time, and where these differ by what they have.
use crate::sums;
use serde::{Deserialize, Serialize};
use std::fs::{self, Metadata};
use std::path::Path;
use std::time::{Duration, SystemTime, UNIX_EPOCH};

// Within so many nanoseconds a file can change twice and keep its time.
const COARSE: i64 = 50_000_000;

/// A file.
#[derive(Clone, Debug, Default, PartialEq, Serialize, Deserialize)]
pub struct Input {
    pub path: String,
    is_there: bool,
    size: u64,
    time: i64,
    // What else tells whether it is the same: the numbers of its disk and of it there, and the time of its last change of any kind.
    more: [i64; 4],
    /// Of its bytes, where they were read.
    pub sum: String,
}

fn nanoseconds(time: SystemTime) -> i64 {
    let since = time.duration_since(UNIX_EPOCH);
    since.map_or(0, |since| since.as_nanos() as i64)
}

pub fn now() -> i64 {
    nanoseconds(SystemTime::now())
}

// A file that comes to the place of another may be as long, and have the same time.
#[cfg(unix)]
fn more(file: &Metadata) -> [i64; 4] {
    use std::os::unix::fs::MetadataExt;
    let (disk, number) = (file.dev() as i64, file.ino() as i64);
    [disk, number, file.ctime(), file.ctime_nsec()]
}

#[cfg(not(unix))]
fn more(_: &Metadata) -> [i64; 4] {
    [0; 4]
}

impl Input {
    /// As it is now, without its sum. What a link leads to counts.
    pub fn look(path: &Path) -> Input {
        let file = fs::metadata(path).ok();
        let time = file.as_ref().and_then(|file| file.modified().ok());
        Input {
            path: path.to_string_lossy().into_owned(),
            is_there: file.is_some(),
            size: file.as_ref().map_or(0, Metadata::len),
            time: time.map_or(0, nanoseconds),
            more: file.as_ref().map_or([0; 4], more),
            sum: String::new(),
        }
    }

    /// With its sum, if it is a file that can be read.
    pub fn read(path: &Path) -> Input {
        let look = Input::look(path);
        let is_file = path.is_file();
        let bytes = is_file.then(|| fs::read(path).ok()).flatten();
        Input {
            sum: bytes.map_or_else(String::new, |bytes| sums::of(&bytes)),
            ..look
        }
    }

    pub fn with(self, sum: String) -> Input {
        Input { sum, ..self }
    }

    /// The same file by another of its names.
    pub fn of(&self, path: &Path) -> Input {
        Input {
            path: path.to_string_lossy().into_owned(),
            ..self.clone()
        }
    }

    /// Which file a path leads to; none where that isn't known.
    pub fn number(&self) -> Option<[i64; 2]> {
        let number = [self.more[0], self.more[1]];
        Some(number).filter(|number| *number != [0; 2])
    }

    // A time that had just come when this was looked at may be that of a later change too.
    fn is_young(&self, seen: i64) -> bool {
        let changed = Duration::new(self.more[2].max(0) as u64, self.more[3].max(0) as u32);
        self.time.max(changed.as_nanos() as i64) > seen - COARSE
    }

    /// A file that was just written.
    pub fn written(path: &Path, size: u64, sum: String) -> Input {
        Input {
            path: path.to_string_lossy().into_owned(),
            is_there: true,
            size,
            sum,
            ..Input::default()
        }
    }

    /// How it is now, if it has what it had when this was seen.
    pub fn same(&self, seen: i64) -> Option<Input> {
        let path = Path::new(&self.path);
        let sum = self.sum.clone();
        let now = Input {
            sum,
            ..Input::look(path)
        };
        if now == *self && (!self.is_there || !self.is_young(seen)) {
            return Some(now);
        }
        let may_be = self.is_there && now.is_there && self.size == now.size;
        (may_be && !self.sum.is_empty() && Input::read(path).sum == self.sum).then_some(now)
    }
}
