//! Packs a folder of pictures into sheets that engines load.
mod anchor;
mod animation;
mod colour;
mod config;
mod decode;
mod dropped;
mod fault;
mod folder;
mod forms;
mod fresh;
mod groups;
mod head;
mod heap;
mod inputs;
mod man;
mod memory;
mod nine;
mod output;
mod packing;
mod picture;
mod png_file;
mod progress;
mod reading;
mod room;
mod scale;
mod search;
mod set;
mod sheet;
mod stale;
mod stamp;
mod stop;
mod sums;
mod watch;
mod webp;
mod webp_file;
mod words;

use animation::{animations, Animation};
use colour::Settled;
use fault::{Fault, FILES, LEFT_OUT, STALE, WORDS};
use folder::{Listed, Named, Patterns};
use inputs::Input;
use progress::Progress;
use set::Target;
use sheet::{Built, Sprite};
use stamp::{Made, Written};
use std::path::{Path, PathBuf};
use std::process::ExitCode;
use std::sync::Arc;
use std::thread;
use words::{Image, Words};

/// What one run wrote and tells.
pub struct Done {
    /// Paths of the files.
    pub files: Vec<PathBuf>,
    /// For standard output.
    pub lines: Vec<String>,
    /// For standard error.
    pub notes: Vec<String>,
    pub has_left_out: bool,
    /// Files of earlier runs.
    pub left: Vec<Written>,
    /// The files and folders that it is made from.
    pub from: Vec<PathBuf>,
}

impl Done {
    fn new(words: &Words, listed: &Listed) -> Done {
        let texts = fresh::texts(words).into_iter().filter(|path| path.exists());
        let pictures = listed.files.iter().map(|(_, path)| path.clone());
        let texts = texts.chain(words.config.clone());
        Done {
            files: Vec::new(),
            lines: Vec::new(),
            notes: Vec::new(),
            has_left_out: false,
            left: Vec::new(),
            from: listed
                .folders
                .iter()
                .cloned()
                .chain(pictures)
                .chain(texts)
                .collect(),
        }
    }
}

// A sheet in its own folder would be one of its sprites the next time.
fn check_folders(words: &Words) -> Result<(), Fault> {
    let target = words.target();
    if !target.is_dir() {
        return Err(Fault::file(&target, "there is no such folder to write to"));
    }
    let folder = words
        .folder
        .canonicalize()
        .map_err(|error| Fault::file(&words.folder, error))?;
    let target = target
        .canonicalize()
        .map_err(|error| Fault::file(&target, error))?;
    if target.starts_with(&folder) {
        let line = format!(
            "{}: it is inside the folder of pictures, so the sheet would become one of them",
            words.out.display()
        );
        return Err(Fault::new(WORDS, line));
    }
    Ok(())
}

fn lines(built: &Built) -> Vec<String> {
    let line = |page: &sheet::Page| {
        let count = match page.frames.len() {
            1 => "1 sprite".to_string(),
            count => format!("{} sprites", count),
        };
        format!("{}: {}x{}, {}", page.image, page.width, page.height, count)
    };
    built.sheet.pages.iter().map(line).collect()
}

// The bytes of pictures, each by a thread of its own, where there can be one.
fn encoded_together(
    pages: &[(&sheet::Page, &picture::Picture)],
    make: impl Fn(&picture::Picture) -> Result<Vec<u8>, String> + Copy + Send,
    shown: &Progress,
) -> Result<Vec<forms::File>, Fault> {
    thread::scope(|scope| {
        let mut running = Vec::new();
        for (page, picture) in pages {
            let make = move || make(picture);
            let thread = thread::Builder::new().spawn_scoped(scope, make);
            running.push((page.image.clone(), thread.map_err(|_| make)));
        }
        let mut files = Vec::new();
        for (name, one) in running {
            let failed = |_| Err("its picture can't be written".to_string());
            let bytes = match one {
                Ok(thread) => thread.join().unwrap_or_else(failed),
                // No thread could be had for it.
                Err(make) => make(),
            };
            let bytes = bytes.map_err(|why| set::unmade(&name, why))?;
            shown.step();
            files.push((name, bytes));
        }
        Ok(files)
    })
}

// The bytes of all pictures.
fn encoded(
    built: &[Built],
    chunks: &[colour::Chunk],
    words: &Words,
) -> Result<Vec<forms::File>, Fault> {
    let pages = built
        .iter()
        .flat_map(|one| one.sheet.pages.iter().zip(&one.pictures));
    let pages: Vec<_> = pages.collect();
    let shown = Progress::counted("encoding", pages.len());
    let (image, is_small) = (words.image, words.compress);
    let make = |picture: &picture::Picture| match image {
        Image::Png => png_file::bytes(picture, chunks, is_small),
        Image::Webp => webp_file::bytes(picture, is_small),
    };
    // Each WebP takes a program, and that several times the memory of its picture.
    let together = match image {
        Image::Png => pages.len(),
        Image::Webp => thread::available_parallelism().map_or(1, usize::from),
    };
    let mut files = Vec::new();
    for some in pages.chunks(together.max(1)) {
        files.extend(encoded_together(some, make, &shown)?);
    }
    Ok(files)
}

// What is told of a run that has nothing to do.
fn up_to_date(words: &Words, target: &Target, is_alone: bool) -> Option<Done> {
    let old = target.stamped();
    if old.placed.is_empty() || target.is_in_part() {
        return None;
    }
    let listed = listed(words).ok()?;
    let stamp = old.fresh(&fresh::asked(words, &listed))?;
    if stamp != old && is_alone {
        target.renew(&stamp);
    } else if stamp != old && !words.check {
        // Where the folder can't be written to, what was compared is compared again.
        let _ = target.alone_in_silence(|| target.renew(&stamp));
    }
    let mut done = Done::new(words, &listed);
    done.files = stamp
        .outputs
        .iter()
        .map(|one| words.target().join(&one.name))
        .collect();
    done.left = target.left(&stamp);
    done.notes = stamp.made.notes;
    done.has_left_out = stamp.made.has_left_out;
    if !words.check {
        done.lines = stamp.made.lines;
    }
    Some(done)
}

/// Reads the folder, packs, and writes, if anything has changed.
pub fn run(words: &Words) -> Result<Done, Fault> {
    check_folders(words)?;
    let ending = words.image.ending();
    let target = Target::new(words.target(), words.stem(), &words.form_name(), ending);
    let early = match words.check || !target.is_busy() {
        true => up_to_date(words, &target, false),
        false => None,
    };
    // A run that this one waited for may have done it all.
    let alone = || match up_to_date(words, &target, true) {
        Some(done) => Ok(done),
        None => run_alone(words, &target),
    };
    let mut done = match early {
        Some(done) if words.check && !done.left.is_empty() => {
            let lines = target.lines_of(&done.left);
            return Err(Fault {
                status: STALE,
                lines,
            });
        }
        Some(done) => done,
        None if words.check => run_alone(words, &target)?,
        None => target.alone(alone)?,
    };
    if words.clean || words.watch {
        target.clean(&done.left)?;
    } else {
        done.notes.extend(target.lines_of(&done.left));
    }
    if let (Some(path), Some(record)) = (&words.depfile, done.files.last()) {
        fresh::write_rule(path, record.strip_prefix(".").unwrap_or(record), &done.from)?;
        fresh::renew(record, &done.from, &target)?;
    }
    Ok(done)
}

/// All that is read, and what is told of it.
struct Read {
    sprites: Vec<Sprite>,
    animations: Vec<Animation>,
    settled: Settled,
    notes: Vec<String>,
    left_out: Vec<String>,
    inputs: Vec<Input>,
    asked: String,
    seen: i64,
    done: Done,
}

// Without the lines of nine-patches.
fn sprite(
    found: reading::Found,
    path: &Path,
    anchor: Option<anchor::Anchor>,
) -> Result<Sprite, String> {
    let (name, picture, _) = found;
    let told = |why| format!("{}: {}", path.display(), why);
    let (picture, nine) = if nine::is_nine(path) {
        let (inner, nine) = nine::read(&picture).map_err(told)?;
        (Arc::new(inner), Some(nine))
    } else {
        (picture, None)
    };
    Ok(Sprite {
        name,
        picture,
        anchor,
        nine,
    })
}

fn sprites(
    files: Vec<Named>,
    words: &Words,
    notes: &mut Vec<String>,
) -> Result<(Vec<Sprite>, Settled, Vec<Input>), Fault> {
    let anchors = anchor::anchors(&words.folder, &files, words.anchor, notes)?;
    let paths: Vec<PathBuf> = files.iter().map(|(_, path)| path.clone()).collect();
    if let Some(path) = paths.iter().find(|path| words.turn && nine::is_nine(path)) {
        let line = format!(
            "{}: --turn can't be used with a nine-patch: engines don't turn it",
            path.display()
        );
        return Err(Fault::new(WORDS, line));
    }
    let (mut found, inputs, dropped) = reading::pictures(files, words)?;
    notes.extend(dropped);
    let settled = if words.manage_colours {
        colour::settle(&mut found)
    } else {
        Settled::default()
    };
    let (mut sprites, mut lines) = (Vec::new(), Vec::new());
    for ((found, path), anchor) in found.into_iter().zip(&paths).zip(anchors) {
        match sprite(found, path, anchor) {
            Ok(sprite) => sprites.push(sprite),
            Err(line) => lines.push(line),
        }
    }
    if lines.is_empty() {
        Ok((sprites, settled, inputs))
    } else {
        Err(Fault {
            status: FILES,
            lines,
        })
    }
}

fn listed(words: &Words) -> Result<Listed, Fault> {
    let refused = |error| Fault::new(WORDS, format!("--exclude: {}", error));
    let excluded = Patterns::new(&words.exclude).map_err(refused)?;
    let to = words.target();
    let to = to.canonicalize().map_err(|error| Fault::file(&to, error))?;
    let mut listed = folder::files(&words.folder, &to, &excluded, words.drop_extension)?;
    let unused = (0..)
        .zip(&words.exclude)
        .filter(|(number, _)| !listed.used.contains(number));
    let lines = unused.map(|(_, pattern)| format!("--exclude {}: nothing is like it", pattern));
    listed.notes.extend(lines.collect::<Vec<_>>());
    Ok(listed)
}

// `inputs` has the texts as they were when this was seen, before one of them was taken.
fn read(words: &Words, seen: i64, mut inputs: Vec<Input>) -> Result<Read, Fault> {
    room::check_size(words)?;
    let listed = listed(words)?;
    let (asked, done) = (fresh::asked(words, &listed), Done::new(words, &listed));
    let names: Vec<&str> = listed.files.iter().map(|one| one.0.as_str()).collect();
    forms::check_names(words.form, words.stem(), &names)?;
    let played = animations(&listed.files, words)?;
    let animations = played.animations;
    let mut notes = listed.notes;
    notes.extend(played.notes);
    let (files, left_out) = reading::checked(listed.files, words)?;
    let (mut sprites, settled, read) = sprites(files, words, &mut notes)?;
    inputs.extend(read);
    inputs.extend(left_out.iter().map(|(_, path)| Input::look(path)));
    let order = animation::order(&animations);
    sprites.sort_by_cached_key(|one| animation::key(&one.name, &order));
    notes.extend(settled.notes.iter().cloned());
    notes.extend(forms::lost(words.form, &sprites, played.has_own));
    Ok(Read {
        sprites,
        animations,
        settled,
        notes,
        left_out: left_out.into_iter().map(|(name, _)| name).collect(),
        inputs,
        asked,
        seen,
        done,
    })
}

fn run_alone(words: &Words, target: &Target) -> Result<Done, Fault> {
    let (seen, texts) = (inputs::now(), fresh::texts(words));
    let texts = texts.iter().map(|path| Input::read(path)).collect();
    let style = words.style()?;
    let read = read(words, seen, texts)?;
    let mut done = Done {
        notes: read.notes,
        has_left_out: !read.left_out.is_empty(),
        ..read.done
    };
    let mut all = Vec::new();
    for scale in &words.scale {
        let built = sheet::built(&read.sprites, &read.animations, *scale, words)?;
        let suffix = scale.suffix();
        done.has_left_out |= !built.left_out.is_empty();
        done.notes.extend(forms::split(words.form, &built));
        done.notes.extend(
            built
                .left_out
                .iter()
                .chain(&read.left_out)
                .map(|name| format!("left out of {}{}: {}", words.stem(), suffix, name)),
        );
        all.push(built);
    }
    let mut files = encoded(&all, &read.settled.chunks, words)?;
    let pages = all.iter_mut().flat_map(|one| &mut one.sheet.pages);
    for (page, (name, bytes)) in pages.zip(&mut files) {
        page.take(bytes, words.names, words.image);
        *name = page.image.clone();
    }
    done.lines.extend(all.iter().flat_map(lines));
    let sheets: Vec<&sheet::Sheet> = all.iter().map(|one| &one.sheet).collect();
    files.extend(forms::all_files(&style, words.stem(), &sheets)?);
    if words.check {
        target.check(&files)?;
        done.lines.clear();
        return Ok(done);
    }
    let made = Made {
        asked: read.asked,
        inputs: read.inputs,
        seen: read.seen,
        lines: done.lines.clone(),
        notes: done.notes.clone(),
        has_left_out: done.has_left_out,
    };
    let (notes, stamp) = target.write(&files, &made)?;
    done.notes.extend(notes);
    done.left = target.left(&stamp);
    let folder = words.target();
    done.files = files.iter().map(|(name, _)| folder.join(name)).collect();
    Ok(done)
}

fn tell(notes: &[String]) {
    for note in notes {
        output::note(note);
    }
}

fn tell_fault(fault: &Fault) -> u8 {
    tell(&fault.lines);
    fault.status
}

/// Tells what was done, and gives the status.
pub fn told(result: &Result<Done, Fault>) -> u8 {
    match result {
        Ok(done) => {
            tell(&done.notes);
            let lines: String = done
                .lines
                .iter()
                .map(|line| format!("{}\n", line))
                .collect();
            match output::say(&lines) {
                Ok(()) if done.has_left_out => LEFT_OUT,
                Ok(()) => 0,
                Err(fault) => tell_fault(&fault),
            }
        }
        Err(fault) => tell_fault(fault),
    }
}

fn main() -> ExitCode {
    let words = match words::words(std::env::args_os()) {
        Ok(words) => words,
        Err(fault) => return ExitCode::from(tell_fault(&fault)),
    };
    heap::set_aside();
    stop::listen();
    if words.watch {
        let again = || words::words(std::env::args_os());
        return ExitCode::from(told(&watch::watch(words, again)));
    }
    ExitCode::from(told(&run(&words)))
}
