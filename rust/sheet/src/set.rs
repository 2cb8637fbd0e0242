//! A set of files that is whole or isn't there, written by one run at a time.
//!
//! All files are first written into a hidden folder beside their places. Its new name, `.OUT.ready`, says that they are complete: from then
//! on this run, or else the next one, gives them their places. Where a picture is replaced, the records go first and come last, so that
//! whoever finds a record finds the pictures that it was written with. Where none is, each record is replaced by one rename.
use crate::fault::{Fault, FILES, STALE};
use crate::forms::File;
use crate::inputs::Input;
use crate::output::note;
use crate::stale;
use crate::stamp::{Made, Stamp, Written};
use crate::stop;
use crate::sums;
use fd_lock::RwLock;
use same_file::Handle;
use std::fs;
use std::io::{self, ErrorKind, Write};
use std::path::{Path, PathBuf};

// How a stamp's name ends.
const STAMP: &str = ".stamp";
const STRANGE: &str = "it isn't of this program's making; remove it";

/// Where the files of one OUT lie.
pub struct Target {
    folder: PathBuf,
    stem: String,
    form: String,
    ending: &'static str,
}

impl Target {
    /// By the form of the records, since several forms can have the same OUT. `ending` is that of the pictures.
    pub fn new(folder: PathBuf, stem: &str, form: &str, ending: &'static str) -> Target {
        Target {
            folder,
            stem: stem.to_string(),
            form: form.to_string(),
            ending,
        }
    }

    // The name of the stamp.
    fn stamp(&self) -> String {
        format!(".{}.{}{}", self.stem, self.form, STAMP)
    }

    fn is_stamp(&self, name: &str) -> bool {
        let inside = name
            .strip_prefix('.')
            .and_then(|name| name.strip_prefix(&self.stem));
        inside.map_or(false, |inside| {
            inside.starts_with('.') && inside.ends_with(STAMP)
        })
    }

    /// What the run before wrote.
    pub fn stamped(&self) -> Stamp {
        Stamp::read(&self.folder.join(self.stamp()))
    }

    // The stamp of these files.
    fn next(&self, old: &Stamp, files: &[File], made: &Made) -> Stamp {
        let (mut written, mut placed) = (Vec::new(), Vec::new());
        for (name, bytes) in files {
            let sum = sums::of(bytes);
            let path = self.folder.join(name);
            placed.push(Input::written(&path, bytes.len() as u64, sum.clone()));
            let name = name.clone();
            written.push(Written { name, sum });
        }
        let is_same = written == old.outputs;
        let mut new = old.next(made, written);
        new.left.retain(|one| one.is_in(&self.folder));
        Stamp {
            placed,
            before: if is_same {
                old.before.clone()
            } else {
                new.before
            },
            ..new
        }
    }

    /// Writes the stamp alone. Where that fails, the next run does what it would have spared.
    pub fn renew(&self, stamp: &Stamp) {
        let (path, bytes) = (self.folder.join(self.stamp()), stamp.bytes());
        if !fs::read(&path).map_or(false, |there| there == bytes) {
            let _ = self.replace(&path, &bytes);
        }
    }

    /// Writes one file anew, by one rename.
    pub fn replace(&self, path: &Path, bytes: &[u8]) -> io::Result<()> {
        let new = self.hidden("new");
        let written = fs::write(&new, bytes).and_then(|()| fs::rename(&new, path));
        if written.is_err() {
            let _ = fs::remove_file(&new);
        }
        written
    }

    /// Whether a run was ended while it gave its files their places.
    pub fn is_in_part(&self) -> bool {
        self.hidden("ready").is_dir()
    }

    /// Whether another run writes the same OUT, or was ended while it did.
    pub fn is_busy(&self) -> bool {
        ["lock", "new", "part", "ready"]
            .iter()
            .any(|ending| self.hidden(ending).exists())
    }

    // Those of other forms.
    fn other_stamps(&self) -> Vec<Stamp> {
        let names = fs::read_dir(&self.folder).into_iter().flatten();
        let names = names.filter_map(|entry| entry.ok()?.file_name().into_string().ok());
        names
            .filter(|name| self.is_stamp(name) && *name != self.stamp())
            .map(|name| Stamp::read(&self.folder.join(name)))
            .collect()
    }

    // Whether a file is called as those of this OUT, and is as it was written.
    fn is_own(&self, one: &Written) -> bool {
        one.name.starts_with(&self.stem) && one.is_in(&self.folder)
    }

    // Takes away what the stamp says is of the set before the one that is there, but what is written anew or another form has.
    fn prune(&self, old: &Stamp, new: &Stamp) {
        let others = self.other_stamps();
        let is_needed = |name: &str| new.has(name) || others.iter().any(|stamp| stamp.has(name));
        for one in old.before.iter().filter(|one| !is_needed(&one.name)) {
            if one.is_by_content() && self.is_own(one) {
                let _ = fs::remove_file(self.folder.join(&one.name));
            }
        }
    }

    fn hidden(&self, ending: &str) -> PathBuf {
        self.folder.join(format!(".{}.{}", self.stem, ending))
    }

    // Where no file can be made in the folder, the system tells of a file that isn't there.
    fn unwritten(&self, name: &str, error: impl std::fmt::Display) -> Fault {
        let path = self.folder.join(name);
        Fault::file(&path, format!("it can't be written there: {}", error))
    }

    // The picture of the sheet.
    fn sheet(&self) -> String {
        format!("{}{}", self.stem, self.ending)
    }

    /// Does this only if no other run writes the same OUT just now.
    pub fn alone_in_silence(&self, work: impl FnOnce()) -> io::Result<()> {
        let path = self.hidden("lock");
        if self.refuse_strangers().is_err() || path.exists() {
            return Ok(());
        }
        let file = fs::OpenOptions::new()
            .create_new(true)
            .write(true)
            .open(&path)?;
        let _held = stop::Held::new(&path, || Ok(()))?;
        let mut lock = RwLock::new(file);
        let _guard = lock.try_write()?;
        work();
        Ok(())
    }

    /// Does this while no other run does it for the same OUT. What an earlier run left behind is put in its place or removed first.
    pub fn alone<T>(&self, work: impl FnOnce() -> Result<T, Fault>) -> Result<T, Fault> {
        let path = self.hidden("lock");
        let failed = |error: io::Error| self.unwritten(&self.sheet(), error);
        self.refuse_strangers()?;
        loop {
            let file = fs::OpenOptions::new()
                .create(true)
                .write(true)
                .open(&path)
                .map_err(failed)?;
            let opened = Handle::from_file(file.try_clone().map_err(failed)?).map_err(failed)?;
            let mut lock = RwLock::new(file);
            if matches!(lock.try_write(), Err(error) if error.kind() == ErrorKind::WouldBlock) {
                note(&format!(
                    "{}: waiting for another run that writes it",
                    self.stem
                ));
            }
            let _guard = lock.write().map_err(failed)?;
            // The run before took its file away when it ended.
            if !Handle::from_path(&path).map_or(false, |there| there == opened) {
                continue;
            }
            let _held = stop::Held::new(&path, || Ok(())).map_err(failed)?;
            self.clear()?;
            return work();
        }
    }

    // What has one of the hidden names and isn't this program's: a pipe would never be opened, and a link lead to files of others.
    fn refuse_strangers(&self) -> Result<(), Fault> {
        for (ending, is_folder) in [
            ("lock", false),
            ("new", false),
            ("part", true),
            ("ready", true),
        ] {
            let path = self.hidden(ending);
            let kind = fs::symlink_metadata(&path).map(|there| there.file_type());
            let is_own = |kind: fs::FileType| match is_folder {
                true => kind.is_dir(),
                false => kind.is_file(),
            };
            if !kind.map_or(true, is_own) {
                return Err(Fault::file(&path, STRANGE));
            }
        }
        Ok(())
    }

    // A set that is complete gets its places, and one that isn't is removed.
    fn clear(&self) -> Result<(), Fault> {
        let failed = |error: io::Error| self.unwritten(&self.sheet(), error);
        let new = self.hidden("new");
        if new.exists() {
            remove(&new).map_err(failed)?;
        }
        let part = self.hidden("part");
        if part.is_dir() {
            fs::remove_dir_all(&part).map_err(failed)?;
        }
        if self.hidden("ready").is_dir() {
            self.place()?;
        }
        Ok(())
    }

    // The name of a file in its place; none of one that isn't of this OUT.
    fn name_in_place<'a>(&self, ready: &'a str) -> Option<&'a str> {
        let (number, name) = ready.split_once('-')?;
        let is_number = number.len() == 8 && number.bytes().all(|byte| byte.is_ascii_digit());
        let is_own = name.starts_with(&self.stem) || self.is_stamp(name);
        Some(name).filter(|_| is_number && is_own)
    }

    // Whether each file is there with these bytes.
    fn has(&self, files: &[File]) -> bool {
        files.iter().all(|file| self.has_one(file))
    }

    /// The files of earlier runs that are there as they were written, and that neither the run of this stamp nor another form has.
    pub fn left(&self, stamp: &Stamp) -> Vec<Written> {
        if stamp.left.is_empty() {
            return Vec::new();
        }
        let others = self.other_stamps();
        let is_ours = |one: &&Written| {
            let is_theirs = others.iter().any(|stamp| stamp.has(&one.name));
            !is_theirs && self.is_own(one)
        };
        stamp.left.iter().filter(is_ours).cloned().collect()
    }

    /// Removes these.
    pub fn clean(&self, left: &[Written]) -> Result<(), Fault> {
        let folder = &self.folder;
        for path in left.iter().map(|one| folder.join(&one.name)) {
            remove(&path).map_err(|error| Fault::file(&path, error))?;
        }
        Ok(())
    }

    /// What is told of each of these.
    pub fn lines_of(&self, left: &[Written]) -> Vec<String> {
        let line = |one: &Written| {
            format!(
                "{}: it is of an earlier run and isn't written any more; --clean removes it",
                self.folder.join(&one.name).display()
            )
        };
        left.iter().map(line).collect()
    }

    /// Names each file that isn't there with these bytes, and each that a run would leave.
    pub fn check(&self, files: &[File]) -> Result<(), Fault> {
        let differ = files.iter().filter(|file| !self.has_one(file));
        let line =
            |(name, _): &File| format!("{}: it isn't up to date", self.folder.join(name).display());
        let mut lines: Vec<String> = differ.map(line).collect();
        if lines.is_empty() && self.is_in_part() {
            lines.push(format!("{}: it was written in part", self.stem));
        }
        let next = self.next(&self.stamped(), files, &Made::default());
        lines.extend(self.lines_of(&self.left(&next)));
        if lines.is_empty() {
            return Ok(());
        }
        Err(Fault {
            status: STALE,
            lines,
        })
    }

    fn has_one(&self, (name, bytes): &File) -> bool {
        let path = self.folder.join(name);
        let is_as_long = |file: fs::Metadata| file.is_file() && file.len() == bytes.len() as u64;
        fs::metadata(&path).map_or(false, is_as_long)
            && fs::read(&path).map_or(false, |there| there == *bytes)
    }

    /// Writes the pictures that differ from those that are there, and all records if one file differs. `files` has the pictures first, and
    /// the record that names others last. What is told then, of each record that doesn't fit its picture any more, and the stamp.
    pub fn write(&self, files: &[File], made: &Made) -> Result<(Vec<String>, Stamp), Fault> {
        for (name, _) in files {
            let path = self.folder.join(name);
            if path.is_dir() {
                return Err(Fault::file(&path, "it is a folder"));
            }
        }
        let old = self.stamped();
        let new = self.next(&old, files, made);
        let stamp = (self.stamp(), new.bytes());
        if self.has(files) {
            self.renew(&new);
            return Ok((Vec::new(), new));
        }
        let changed: Vec<&File> = files
            .iter()
            .filter(|file| !is_picture(&file.0) || !self.has_one(file))
            .collect();
        // Where this form's record stays as it is, sprites lie where they lay.
        let is_moved = |file: &File| !is_picture(&file.0) && !self.has_one(file);
        let notes = match files.iter().any(is_moved) {
            true => stale::notes(&self.folder, &self.stem, files, &changed),
            false => Vec::new(),
        };
        // Where the folder can't be opened, nothing is begun.
        fs::read_dir(&self.folder).map_err(|error| self.unwritten(&self.sheet(), error))?;
        let part = self.hidden("part");
        let held = stop::Held::new(&part, || fs::create_dir(&part))
            .map_err(|error| self.unwritten(&self.sheet(), error))?;
        for (place, (name, bytes)) in changed.into_iter().chain([&stamp]).enumerate() {
            let beside = part.join(format!("{:08}-{}", place, name));
            stop::whole(|| write_through(&beside, bytes))
                .map_err(|error| self.unwritten(name, error))?;
        }
        let failed = |error: io::Error| self.unwritten(&self.sheet(), error);
        self.prune(&old, &new);
        held.end(|| {
            sync_folder(&part)
                .and_then(|()| fs::rename(&part, self.hidden("ready")))
                .and_then(|()| sync_folder(&self.folder))
                .map_err(failed)?;
            self.place()
        })?;
        Ok((notes, new))
    }

    // Renames what is ready in the order of its numbers. Where a picture is replaced the records go first: without its record nobody takes
    // a picture for one of the set.
    fn place(&self) -> Result<(), Fault> {
        let ready = self.hidden("ready");
        let failed = |error: io::Error| self.unwritten(&self.sheet(), error);
        let entries: io::Result<Vec<fs::DirEntry>> =
            fs::read_dir(&ready).map_err(failed)?.collect();
        let mut names: Vec<String> = entries
            .map_err(failed)?
            .iter()
            .filter_map(|entry| entry.file_name().into_string().ok())
            .collect();
        names.sort();
        if names.iter().any(|name| self.name_in_place(name).is_none()) {
            return Err(Fault::file(&ready, STRANGE));
        }
        let place = |name: &str| {
            self.folder
                .join(self.name_in_place(name).unwrap_or_default())
        };
        let is_there = |name: &&String| is_picture(name) && place(name).exists();
        if names.iter().any(|name| is_there(&name)) {
            let is_record = |name: &&String| !is_picture(name) && !name.ends_with(STAMP);
            for name in names.iter().rev().filter(is_record) {
                remove(&place(name)).map_err(failed)?;
            }
            sync_folder(&self.folder).map_err(failed)?;
        }
        for name in &names {
            let path = place(name);
            fs::rename(ready.join(name), &path).map_err(|error| {
                Fault::file(&path, format!("it can't be written there: {}", error))
            })?;
        }
        sync_folder(&self.folder)
            .and_then(|()| fs::remove_dir(&ready))
            .map_err(failed)
    }
}

pub fn is_picture(name: &str) -> bool {
    name.ends_with(".png") || name.ends_with(".webp")
}

fn remove(path: &Path) -> io::Result<()> {
    match fs::remove_file(path) {
        Err(error) if error.kind() != ErrorKind::NotFound => Err(error),
        _ => Ok(()),
    }
}

// To the disk, so that a new name doesn't come there before what it names.
fn write_through(path: &Path, bytes: &[u8]) -> io::Result<()> {
    let mut file = fs::File::create(path)?;
    file.write_all(bytes)?;
    file.sync_all()
}

#[cfg(unix)]
fn sync_folder(path: &Path) -> io::Result<()> {
    fs::File::open(path)?.sync_all()
}

// Elsewhere a folder can't be opened like a file.
#[cfg(not(unix))]
fn sync_folder(_: &Path) -> io::Result<()> {
    Ok(())
}

/// What is told of a picture that can't be made.
pub fn unmade(name: &str, why: impl std::fmt::Display) -> Fault {
    Fault::new(FILES, format!("{}: {}", name, why))
}
