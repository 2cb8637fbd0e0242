//! Sheets that follow their folder.
use crate::anchor;
use crate::animation;
use crate::fault::{Fault, FILES};
use crate::folder::{self, Patterns};
use crate::inputs::Input;
use crate::words::Words;
use crate::{run, tell_fault, told, Done};
use notify::event::{AccessKind, AccessMode, EventKind};
use notify::{Event, RecommendedWatcher, RecursiveMode, Watcher};
use same_file::Handle;
use std::path::{Path, PathBuf};
use std::sync::mpsc::{channel, Receiver, RecvTimeoutError};
use std::time::Duration;

// So long nothing changes before the folder is read.
const QUIET: Duration = Duration::from_millis(150);
// So often it is seen whether another folder has the name.
const EACH: Duration = Duration::from_millis(400);

// Reading a file is told too, and changes nothing.
fn is_change(event: &notify::Result<Event>) -> bool {
    let is_written = |access: &AccessKind| *access == AccessKind::Close(AccessMode::Write);
    match event {
        Ok(event) => !matches!(&event.kind, EventKind::Access(access) if !is_written(access)),
        Err(_) => true,
    }
}

/// A folder that is watched, and which one it is. There is none while no folder has the name.
struct Watched {
    folder: Option<(RecommendedWatcher, Handle)>,
    events: Receiver<notify::Result<Event>>,
}

impl Watched {
    fn new(path: &Path) -> Watched {
        let (sender, events) = channel();
        let watch = || {
            let mut watcher = notify::recommended_watcher(sender).ok()?;
            let handle = Handle::from_path(path).ok()?;
            watcher.watch(path, RecursiveMode::Recursive).ok()?;
            Some((watcher, handle))
        };
        Watched {
            folder: watch(),
            events,
        }
    }

    // Whether this is still the folder of the name.
    fn is_there(&self, path: &Path) -> bool {
        match &self.folder {
            Some((_, handle)) => Handle::from_path(path).map_or(false, |there| there == *handle),
            None => !path.is_dir(),
        }
    }

    /// Waits until something may have changed, in the folder or `elsewhere`, and then until nothing in it does for a while; false where it
    /// is another folder.
    fn wait(&self, path: &Path, elsewhere: impl Fn() -> bool) -> bool {
        loop {
            match self.events.recv_timeout(EACH) {
                Ok(event) if is_change(&event) => break,
                Ok(_) => {}
                Err(_) if elsewhere() => break,
                Err(RecvTimeoutError::Timeout) if self.is_there(path) => {}
                Err(RecvTimeoutError::Timeout) => return false,
                // Nothing is watched.
                Err(RecvTimeoutError::Disconnected) if self.is_there(path) => {
                    std::thread::sleep(EACH)
                }
                Err(RecvTimeoutError::Disconnected) => return false,
            }
        }
        while self.events.recv_timeout(QUIET).is_ok() {}
        self.is_there(path)
    }
}

// What a run reads: files, and what is told of the folder.
type Seen = (Vec<Input>, Vec<String>);

// What it wrote, and the folder of that.
fn held(written: &[PathBuf], words: &Words) -> Vec<Input> {
    let files = written.iter().map(|path| Input::look(path));
    let mut all: Vec<Input> = files.collect();
    all.push(Input::written(
        &words.target(),
        u64::from(words.target().is_dir()),
        String::new(),
    ));
    all
}

fn seen(words: &Words) -> Seen {
    let excluded = Patterns::new(&words.exclude);
    let target = words.target();
    let target = target.canonicalize().unwrap_or(target);
    let listed = excluded
        .map(|excluded| folder::files(&words.folder, &target, &excluded, words.drop_extension));
    let (mut paths, lines) = match listed {
        Ok(Ok(listed)) => (
            listed.files.into_iter().map(|(_, path)| path).collect(),
            listed.notes,
        ),
        Ok(Err(fault)) => (Vec::new(), fault.lines),
        Err(error) => (Vec::new(), vec![error.to_string()]),
    };
    paths.push(words.folder.join(anchor::FILE));
    paths.push(words.folder.join(animation::FILE));
    paths.extend(words.template.iter().chain(&words.config).cloned());
    (paths.iter().map(|path| Input::look(path)).collect(), lines)
}

/// Writes the sheets, and anew after each change of what is read, until the program is ended. Files of earlier runs that aren't written
/// any more are removed, and one that is taken away is written again. A fault is told, and the last sheets stay; where the folder is
/// removed, they follow the next one of its name. `again` gives the words anew, with those of a changed file.
pub fn watch(mut words: Words, again: impl Fn() -> Result<Words, Fault>) -> Result<Done, Fault> {
    let mut watched = Watched::new(&words.folder);
    if watched.folder.is_none() {
        return Err(Fault::new(
            FILES,
            format!("{}: it can't be watched", words.folder.display()),
        ));
    }
    let mut earlier: Vec<PathBuf> = Vec::new();
    loop {
        let before = seen(&words);
        match again() {
            Ok(new) => words = Words { watch: true, ..new },
            Err(fault) => {
                tell_fault(&fault);
            }
        }
        let done = run(&words);
        told(&done);
        if let Ok(done) = done {
            earlier = done.files;
        }
        let there = held(&earlier, &words);
        // There may be links to other folders than before.
        let next = Watched::new(&words.folder);
        if next.folder.is_some() {
            watched = next;
        }
        // The template, the file of options, and what a link leads to, may lie in another folder.
        let is_elsewhere = |one: &&Input| {
            let path = Path::new(&one.path);
            let own = [words.template.as_deref(), words.config.as_deref()];
            own.contains(&Some(path)) || path.is_symlink()
        };
        let elsewhere: Vec<&Input> = before.0.iter().filter(is_elsewhere).collect();
        let is_lost = || held(&earlier, &words) != there;
        let is_new = || {
            let is_other = |one: &&Input| Input::look(Path::new(&one.path)) != **one;
            elsewhere.iter().any(is_other) || is_lost()
        };
        // What changed while it ran was told, and what doesn't count changes nothing.
        while seen(&words) == before && !is_lost() {
            if !watched.wait(&words.folder, is_new) {
                watched = Watched::new(&words.folder);
            }
        }
    }
}
