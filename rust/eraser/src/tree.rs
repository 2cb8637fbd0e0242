//! What the sources of a repository give: files by their paths below rust/.
use crate::crates::{Crate, Crates, EXPORTS_FOLDER, PROGRAMS};
use crate::fault::Fault;
use crate::interface::{Interface, EXPORTS};
use crate::rules::laws_of;
use crate::source::Source;
use crate::{erased, layout};
use std::collections::{BTreeMap, BTreeSet};
use std::fs;
use std::path::{Path, PathBuf};
use std::sync::Mutex;
use std::thread;

/// What is made of the sources: what stands in the repository, what is written when it is built, or both.
#[derive(Clone, Copy, Debug, PartialEq, Eq)]
pub enum Part {
    Kept,
    Programs,
    All,
}

impl Part {
    fn has(self, is_kept: bool) -> bool {
        self == Part::All || is_kept == (self == Part::Kept)
    }

    /// The folders below rust/ that have nothing but what is written here, and what cargo makes.
    fn folders(self) -> &'static [&'static str] {
        match self {
            Part::Kept => &["core/src", EXPORTS_FOLDER],
            Part::Programs => &[PROGRAMS],
            Part::All => &["core/src", EXPORTS_FOLDER, PROGRAMS],
        }
    }
}

/// What cargo makes in the folder of a workspace.
const OF_CARGO: [&str; 2] = ["Cargo.lock", "target"];

/// Files by their paths below rust/, and how often each rule was applied.
pub struct Tree {
    pub part: Part,
    pub files: BTreeMap<PathBuf, String>,
    pub counts: BTreeMap<u32, usize>,
}

/// A source that is still to be erased.
struct Job<'a> {
    of: &'a Crate,
    path: PathBuf,
    file: PathBuf,
}

impl Tree {
    /// Erases sources of the repository at `root`.
    pub fn made(root: &Path, part: Part) -> Result<Tree, Fault> {
        let mut crates = Crates::read(root)?;
        crates.laws = laws(root, &crates)?;
        let mut jobs = Vec::new();
        let mut tree = Tree {
            part,
            files: BTreeMap::new(),
            counts: BTreeMap::new(),
        };
        let texts = tree.add_roots(root, &crates)?;
        for of in crates.all.iter().filter(|of| part.has(crates.is_kept(of))) {
            let folder = root.join("crates").join(&of.name).join("src");
            let files = sources(&folder)?;
            if !crates.library.contains(&of.name) {
                tree.add_package(&crates, of, &files);
            }
            for file in files {
                jobs.push(Job {
                    of,
                    path: folder.join(&file),
                    file,
                });
            }
        }
        tree.erase_all(root, &crates, &texts, jobs)?;
        Ok(tree)
    }

    /// Adds what a package of its own has beside its sources.
    fn add_package(&mut self, crates: &Crates, of: &Crate, files: &BTreeSet<PathBuf>) {
        let package = crates.package(of);
        let is_program = files.contains(Path::new("main.rt"));
        let mut add = |file: &str, text: String| self.files.insert(package.join(file), text);
        add("Cargo.toml", crates.manifest(of, is_program));
        if is_program {
            add("tests/stored.rs", stored_test(&of.name));
        }
        if is_program && files.len() > 1 {
            add("src/lib.rs", modules_of(&of.name, files));
        }
    }

    /// Adds what comes from no one source: the library's root, what is written of the exports for C, and the workspace of programs. Gives
    /// the texts of statuses.
    fn add_roots(&mut self, root: &Path, crates: &Crates) -> Result<String, Fault> {
        if self.part.has(false) {
            self.files.insert(
                Path::new(PROGRAMS).join("Cargo.toml"),
                crates.workspace(root)?,
            );
        }
        if !self.part.has(true) {
            return Ok(String::new());
        }
        self.files
            .insert(PathBuf::from("core/src/lib.rs"), crates.library_root());
        if !root.join("crates").join(EXPORTS).is_dir() {
            return Ok(String::new());
        }
        let (files, texts) = Interface::read(root)?.files(root)?;
        self.files.extend(files);
        Ok(texts)
    }

    fn erase_all(
        &mut self,
        root: &Path,
        crates: &Crates,
        texts: &str,
        jobs: Vec<Job<'_>>,
    ) -> Result<(), Fault> {
        let jobs = Mutex::new(jobs);
        let made = Mutex::new(Ok(&mut *self));
        thread::scope(|scope| {
            for _ in 0..4 {
                scope.spawn(|| loop {
                    let job = match jobs.lock().map(|mut j| j.pop()) {
                        Ok(Some(job)) => job,
                        _ => return,
                    };
                    let done = erase_one(root, crates, texts, &job);
                    if let Ok(mut made) = made.lock() {
                        match (&mut *made, done) {
                            (Ok(tree), Ok((text, counts))) => {
                                if !is_of_laws(&job.file) {
                                    tree.files.insert(crates.target(job.of, &job.file), text);
                                }
                                for (rule, n) in counts {
                                    *tree.counts.entry(rule).or_insert(0) += n;
                                }
                            }
                            (Err(Fault(a)), Err(Fault(b))) if *a <= b => {}
                            (_, Err(fault)) => *made = Err(fault),
                            _ => {}
                        }
                    }
                });
            }
        });
        made.into_inner()
            .unwrap_or_else(|e| e.into_inner())
            .map(|_| ())
    }

    /// What differs below rust/ from what is made: a line each.
    pub fn differences(&self, rust: &Path) -> Result<Vec<String>, Fault> {
        let mut found = Vec::new();
        for (path, text) in &self.files {
            match fs::read_to_string(rust.join(path)) {
                Ok(there) if there == *text => {}
                Ok(there) => {
                    let line = there
                        .lines()
                        .zip(text.lines())
                        .take_while(|(a, b)| a == b)
                        .count()
                        + 1;
                    found.push(format!(
                        "{}:{}: differs from what its source gives",
                        shown(path),
                        line
                    ));
                }
                Err(_) => found.push(format!("{}: isn't there", shown(path))),
            }
        }
        for path in there(rust, self.part)? {
            if !self.files.contains_key(&path) {
                found.push(format!("rust/{}: comes from no source", path.display()));
            }
        }
        Ok(found)
    }

    /// Writes what differs, and takes away what comes from no source. How many files changed.
    pub fn write(&self, rust: &Path) -> Result<usize, Fault> {
        let mut changed = 0;
        for (path, text) in &self.files {
            let path = rust.join(path);
            if fs::read_to_string(&path).map_or(false, |there| there == *text) {
                continue;
            }
            let failed = |e: std::io::Error| Fault::of(&path.display().to_string(), &e.to_string());
            if let Some(folder) = path.parent() {
                fs::create_dir_all(folder).map_err(failed)?;
            }
            fs::write(&path, text).map_err(failed)?;
            changed += 1;
        }
        for path in there(rust, self.part)? {
            if !self.files.contains_key(&path) {
                let path = rust.join(path);
                fs::remove_file(&path)
                    .map_err(|e| Fault::of(&path.display().to_string(), &e.to_string()))?;
                changed += 1;
                // Folders that are empty now go as well.
                let mut above = path.ancestors().skip(1);
                while above.next().map_or(false, |it| fs::remove_dir(it).is_ok()) {}
            }
        }
        Ok(changed)
    }
}

/// A path below rust/, or beside it, as it is in the repository.
pub fn shown(path: &Path) -> String {
    match path.strip_prefix("..") {
        Ok(beside) => beside.display().to_string(),
        Err(_) => format!("rust/{}", path.display()),
    }
}

/// Whether a source has nothing but laws: then no module is left of it.
fn is_of_laws(file: &Path) -> bool {
    file.file_stem().map_or(false, |name| name == "laws")
}

/// The laws of all sources, by their names.
fn laws(root: &Path, crates: &Crates) -> Result<BTreeSet<String>, Fault> {
    let mut found = BTreeSet::new();
    for of in &crates.all {
        let folder = root.join("crates").join(&of.name).join("src");
        for file in sources(&folder)? {
            let name = format!("crates/{}/src/{}", of.name, file.display());
            let text = fs::read_to_string(folder.join(&file))
                .map_err(|e| Fault::of(&name, &e.to_string()))?;
            found.extend(laws_of(&Source::new(&name, &text)?)?);
        }
    }
    Ok(found)
}

fn erase_one(
    root: &Path,
    crates: &Crates,
    texts: &str,
    job: &Job<'_>,
) -> Result<(String, BTreeMap<u32, usize>), Fault> {
    let name = format!("crates/{}/src/{}", job.of.name, job.file.display());
    if let Some(package) = crates.by_hand(job.of, &job.file) {
        let text = format!(
            "// In the place of {} by rust/erase: don't edit.\npub use {}::*;\n",
            name, package
        );
        return Ok((text, BTreeMap::new()));
    }
    let text = fs::read_to_string(&job.path).map_err(|e| Fault::of(&name, &e.to_string()))?;
    let (text, counts) = erased(&name, &text, &crates.place(job.of))?;
    if is_of_laws(&job.file) && !Source::new(&name, &text)?.is_empty() {
        return Err(Fault::of(&name, "something that is no law"));
    }
    let is_root = job.file == Path::new("lib.rt") || job.file == Path::new("main.rt");
    let mut whole = format!("// Erased from {} by rust/erase: don't edit.\n", name);
    if is_root && !crates.library.contains(&job.of.name) {
        whole.push_str(&with_head(&text, job.of.is_static_library, texts));
    } else {
        whole.push_str(&text);
    }
    // Nobody reads what isn't kept, and whoever builds it may have no rustfmt.
    if crates.is_kept(job.of) {
        whole = layout::laid_out(&name, &whole, &root.join("rust"))?;
    }
    Ok((whole, counts))
}

/// The modules of a program, as a library beside it: so the tests of rust/tests reach them.
fn modules_of(name: &str, files: &BTreeSet<PathBuf>) -> String {
    let is_module = |file: &&PathBuf| {
        file.components().count() == 1 && *file != Path::new("main.rt") && !is_of_laws(file)
    };
    let modules: String = files
        .iter()
        .filter(is_module)
        .map(|file| format!("pub mod {};\n", file.with_extension("").display()))
        .collect();
    let text = format!("//! The modules of the program, for tests.\n{}", modules);
    format!(
        "// Written by rust/erase from crates/{}/src: don't edit.\n{}",
        name,
        with_head(&text, false, "")
    )
}

/// The text of a root file with the attributes of its crate, behind its documentation.
fn with_head(text: &str, is_static_library: bool, texts: &str) -> String {
    let is_head = |line: &&str| line.starts_with("//!");
    let documentation: Vec<&str> = text.lines().take_while(is_head).collect();
    let rest: Vec<&str> = text.lines().skip(documentation.len()).collect();
    let (first, last) = if is_static_library {
        (
            "#![cfg_attr(not(feature = \"std\"), no_std)]\n",
            format!(
                "\nwollemigo_support::library_for_c! {{\n    guillotiere_set_memory, guillotiere_status_text,\n{}}}\n",
                texts
            ),
        )
    } else {
        ("#![forbid(unsafe_code)]\n", String::new())
    };
    format!(
        "{}\n{}#![allow(dead_code, unused_imports, unused_labels, unused_variables)]\n\n{}\n{}",
        documentation.join("\n"),
        first,
        rest.join("\n"),
        last
    )
}

fn stored_test(name: &str) -> String {
    format!(
        "// Written by rust/erase: don't edit.\n//! What the program writes is what its proved form wrote.\n\n#[test]\n\
         fn it_writes_what_is_stored() {{\n    stored::compare(env!(\"CARGO_BIN_EXE_{name}\"), \"{name}\");\n}}\n",
        name = name
    )
}

/// The sources below a folder, by their paths there.
fn sources(folder: &Path) -> Result<BTreeSet<PathBuf>, Fault> {
    files_below(folder, &|path| {
        path.is_dir() || path.extension().map_or(false, |e| e == "rt")
    })
}

/// The files below rust/ in the folders that have nothing but what is written here.
fn there(rust: &Path, part: Part) -> Result<BTreeSet<PathBuf>, Fault> {
    let mut found = BTreeSet::new();
    for folder in part.folders() {
        let here = rust.join(folder);
        if here.is_dir() {
            let of_cargo = OF_CARGO.map(|name| here.join(name));
            for path in files_below(&here, &|path| !of_cargo.iter().any(|it| it == path))? {
                found.insert(Path::new(folder).join(path));
            }
        }
    }
    Ok(found)
}

/// The files below a folder, by their paths there, but for files and folders that aren't wanted.
fn files_below(
    folder: &Path,
    is_wanted: &dyn Fn(&Path) -> bool,
) -> Result<BTreeSet<PathBuf>, Fault> {
    let failed = |e: std::io::Error| Fault::of(&folder.display().to_string(), &e.to_string());
    let mut found = BTreeSet::new();
    for entry in fs::read_dir(folder).map_err(failed)? {
        let entry = entry.map_err(failed)?;
        let (path, name) = (entry.path(), PathBuf::from(entry.file_name()));
        if !is_wanted(&path) {
            continue;
        }
        if path.is_dir() {
            found.extend(
                files_below(&path, is_wanted)?
                    .into_iter()
                    .map(|p| name.join(p)),
            );
        } else {
            found.insert(name);
        }
    }
    Ok(found)
}
