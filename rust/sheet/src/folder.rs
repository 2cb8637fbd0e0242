//! The pictures of a folder: which files they are, and what is left out of them.
use crate::fault::{Fault, FILES};
use crate::nine;
use globset::{Glob, GlobBuilder, GlobSet, GlobSetBuilder};
use std::collections::{BTreeMap, HashSet};
use std::io::ErrorKind;
use std::path::{Path, PathBuf};
use walkdir::{DirEntry, WalkDir};

/// Of pictures that are read.
pub const ENDINGS: [&str; 9] = [
    "png", "jpg", "jpeg", "webp", "gif", "bmp", "tga", "tif", "tiff",
];
// Of pictures that aren't read.
const OTHERS: [&str; 26] = [
    "svg", "psd", "psb", "ico", "avif", "exr", "hdr", "qoi", "aseprite", "ase", "dds", "ktx",
    "ktx2", "pnm", "ppm", "pgm", "pbm", "pam", "heic", "heif", "jxl", "jp2", "xcf", "kra", "pcx",
    "apng",
];

/// A file by its name, which is its path in the folder with `/` between its parts.
pub type Named = (String, PathBuf);

/// The files of the pictures, in the order of their names' bytes, and a line for each that is left out without being asked for.
pub struct Listed {
    pub files: Vec<Named>,
    pub notes: Vec<String>,
    /// All folders that were looked at.
    pub folders: Vec<PathBuf>,
    /// The numbers of the patterns that were like something.
    pub used: HashSet<usize>,
}

/// Files and folders by patterns like those of a shell.
pub struct Patterns {
    names: GlobSet,
    paths: GlobSet,
    // Which of all patterns these are.
    of_names: Vec<usize>,
    of_paths: Vec<usize>,
}

impl Patterns {
    /// A pattern without `/` is that of a file's or a folder's own name, wherever it lies; another one that of its path in the folder.
    pub fn new(patterns: &[String]) -> Result<Patterns, globset::Error> {
        let (of_paths, of_names): (Vec<usize>, Vec<usize>) =
            (0..patterns.len()).partition(|number| patterns[*number].contains('/'));
        let those = |numbers: &[usize]| {
            numbers
                .iter()
                .map(|one| &patterns[*one])
                .collect::<Vec<_>>()
        };
        Ok(Patterns {
            names: set(&those(&of_names))?,
            paths: set(&those(&of_paths))?,
            of_names,
            of_paths,
        })
    }

    /// Whether one is like the path in the folder.
    pub fn has(&self, inside: &Path) -> bool {
        !self.like(inside).is_empty()
    }

    // The numbers of those that are like it.
    fn like(&self, inside: &Path) -> Vec<usize> {
        let name = inside.file_name().map(Path::new).unwrap_or(inside);
        let (names, paths) = (self.names.matches(name), self.paths.matches(inside));
        let names = names.into_iter().map(|one| self.of_names[one]);
        names
            .chain(paths.into_iter().map(|one| self.of_paths[one]))
            .collect()
    }
}

fn glob(pattern: &str) -> Result<Glob, globset::Error> {
    GlobBuilder::new(pattern).literal_separator(true).build()
}

fn set(patterns: &[&String]) -> Result<GlobSet, globset::Error> {
    let mut set = GlobSetBuilder::new();
    for pattern in patterns {
        set.add(glob(pattern)?);
    }
    set.build()
}

fn has_ending(path: &Path, endings: &[&str]) -> bool {
    let ending = path
        .extension()
        .and_then(|ending| ending.to_str())
        .map(str::to_ascii_lowercase);
    ending.map_or(false, |ending| endings.contains(&ending.as_str()))
}

/// The text of a file. What isn't a file may never end.
pub fn text(path: &Path) -> Result<String, Fault> {
    match std::fs::metadata(path) {
        Ok(there) if !there.is_file() => Err(Fault::file(path, "it isn't a file")),
        _ => std::fs::read_to_string(path).map_err(|error| Fault::file(path, error)),
    }
}

/// The lines of a file that say something, with their numbers; none where it isn't there. What can't be asked is no answer.
pub fn lines(path: &Path) -> Result<Vec<(usize, String)>, Fault> {
    let there = path.symlink_metadata();
    if matches!(there, Err(error) if error.kind() == ErrorKind::NotFound) {
        return Ok(Vec::new());
    }
    let text = text(path)?;
    let lines = (1..).zip(text.lines().map(str::to_string));
    let says = |(_, line): &(usize, String)| !line.trim().is_empty() && !line.starts_with('#');
    Ok(lines.filter(says).collect())
}

/// Whether a file is read, by its ending.
pub fn is_picture(path: &Path) -> bool {
    has_ending(path, &ENDINGS)
}

fn is_hidden(path: &Path) -> bool {
    let name = path.file_name().unwrap_or_default();
    name.to_string_lossy().starts_with('.')
}

// A link that leads to nothing.
fn is_broken_link(path: &Path, kind: ErrorKind) -> bool {
    kind == ErrorKind::NotFound && path.is_symlink()
}

// A folder for `target`, the one that the sheets are written to, can only be a link.
fn is_target(entry: &DirEntry, target: &Path) -> bool {
    entry.depth() > 0
        && entry.file_type().is_dir()
        && entry
            .path()
            .canonicalize()
            .map_or(false, |path| path == target)
}

/// Walks a folder.
struct Walk<'a> {
    folder: &'a Path,
    target: &'a Path,
    excluded: &'a Patterns,
    drop_extension: bool,
    // The patterns that were like something.
    used: HashSet<usize>,
    // Files of each ending of pictures that aren't read.
    others: BTreeMap<String, Vec<PathBuf>>,
    // The folder that is listed, and those in which it lies.
    inside: Vec<PathBuf>,
    files: Vec<Named>,
    notes: Vec<String>,
    folders: Vec<PathBuf>,
    faults: Vec<String>,
}

impl Walk<'_> {
    // What isn't looked at.
    fn is_passed_over(&mut self, path: &Path, depth: usize) -> bool {
        let inside = path.strip_prefix(self.folder).unwrap_or(path);
        let like = self.excluded.like(inside);
        self.used.extend(&like);
        depth > 0 && is_hidden(path) || !like.is_empty()
    }

    // A line for each kind of picture that isn't read.
    fn tell_others(&mut self) {
        for (ending, mut paths) in std::mem::take(&mut self.others) {
            paths.sort();
            let more = match paths.len() {
                1 => String::new(),
                count => format!(" and {} more .{}", count - 1, ending),
            };
            self.notes.push(format!(
                "{}{}: pictures of this kind aren't read; left out",
                paths[0].display(),
                more
            ));
        }
    }

    fn leave_out(&mut self, path: &Path, why: &str) {
        self.notes
            .push(format!("{}: {}; left out", path.display(), why));
    }

    /// Takes what was found, and says whether to go into it, if it is a folder.
    fn take(&mut self, entry: &DirEntry) -> bool {
        let path = entry.path();
        if self.is_passed_over(path, entry.depth()) {
            return false;
        }
        if is_target(entry, self.target) {
            self.leave_out(path, "it leads to the folder of the sheets");
            return false;
        }
        if entry.file_type().is_dir() {
            return true;
        }
        if has_ending(path, &OTHERS) {
            let ending = path.extension().unwrap_or_default();
            let ending = ending.to_string_lossy().to_ascii_lowercase();
            self.others
                .entry(ending)
                .or_default()
                .push(path.to_path_buf());
        } else if is_picture(path) && !entry.file_type().is_file() {
            self.leave_out(path, "it isn't a file");
        } else if is_picture(path) {
            match name_of(self.folder, path, self.drop_extension) {
                Ok(name) => self.files.push((name, path.to_path_buf())),
                Err(line) => self.faults.push(line),
            }
        }
        true
    }

    /// Of a link to nowhere nothing is told, but where a picture is meant. Where a folder can't be listed to its end no path is told.
    fn fail(&mut self, error: &walkdir::Error) {
        let depth = error.depth();
        let listed = self.inside.get(depth.saturating_sub(1));
        let path = error.path().or(listed.map(PathBuf::as_path));
        let path = path.unwrap_or(self.folder).to_path_buf();
        if self.is_passed_over(&path, depth) {
            return;
        }
        match error.io_error() {
            None => self.leave_out(&path, "it leads to a folder that it lies in"),
            Some(why) if is_broken_link(&path, why.kind()) && !is_picture(&path) => {}
            Some(why) => self.faults.push(format!("{}: {}", path.display(), why)),
        }
    }

    fn go(&mut self) {
        let mut walk = WalkDir::new(self.folder).follow_links(true).into_iter();
        while let Some(entry) = walk.next() {
            match entry {
                Ok(entry) => {
                    let is_folder = entry.file_type().is_dir();
                    if !self.take(&entry) && is_folder {
                        walk.skip_current_dir();
                    } else if is_folder {
                        self.inside.truncate(entry.depth());
                        self.folders.push(entry.path().to_path_buf());
                        self.inside.push(entry.into_path());
                    }
                }
                Err(error) => {
                    self.fail(&error);
                    // By Rust 1.63 a folder that can't be listed to its end says so again for ever.
                    if error.path().is_none() {
                        walk.skip_current_dir();
                    }
                }
            }
        }
        self.files.sort();
        for pair in self.files.windows(2).filter(|pair| pair[0].0 == pair[1].0) {
            let (first, second) = (pair[0].1.display(), pair[1].1.display());
            let what = "have the same name without their endings";
            self.faults
                .push(format!("{} and {} {}", first, second, what));
        }
        self.faults.sort();
        self.tell_others();
        self.notes.sort();
    }
}

/// The files of the pictures. `target` is the folder that the sheets are written to.
pub fn files(
    folder: &Path,
    target: &Path,
    excluded: &Patterns,
    drop_extension: bool,
) -> Result<Listed, Fault> {
    if !folder.is_dir() {
        return Err(Fault::file(folder, "it isn't a folder"));
    }
    let mut walk = Walk {
        folder,
        target,
        excluded,
        drop_extension,
        used: HashSet::new(),
        others: BTreeMap::new(),
        inside: Vec::new(),
        files: Vec::new(),
        notes: Vec::new(),
        folders: Vec::new(),
        faults: Vec::new(),
    };
    walk.go();
    if walk.files.is_empty() && walk.faults.is_empty() {
        walk.notes.push(format!(
            "{}: it contains no picture that is read",
            folder.display()
        ));
        walk.faults.append(&mut walk.notes);
    }
    if walk.faults.is_empty() {
        return Ok(Listed {
            files: walk.files,
            notes: walk.notes,
            folders: walk.folders,
            used: walk.used,
        });
    }
    Err(Fault {
        status: FILES,
        lines: walk.faults,
    })
}

fn name_of(folder: &Path, path: &Path, drop_extension: bool) -> Result<String, String> {
    let inside = path.strip_prefix(folder).unwrap_or(path);
    // A nine-patch loses its .9.
    let inside = match (nine::is_nine(path), drop_extension) {
        (true, true) => inside.with_extension("").with_extension(""),
        (true, false) => inside.with_extension("").with_extension("png"),
        (false, true) => inside.with_extension(""),
        (false, false) => inside.to_path_buf(),
    };
    let parts: Option<Vec<&str>> = inside.iter().map(|part| part.to_str()).collect();
    match parts.map(|parts| parts.join("/")) {
        None => Err(format!("{}: its name isn't UTF-8", path.display())),
        Some(name) if name.chars().any(char::is_control) => {
            Err(format!("{:?}: its name has a control character", path))
        }
        Some(name) => Ok(name),
    }
}
