//! Reads pictures, after their sizes: what is too large is known before it takes memory.
use crate::colour::Colour;
use crate::decode::{decoded, is_targa, GREATEST, TOO_LARGE};
use crate::dropped::{self, Dropped};
use crate::fault::{Fault, FILES};
use crate::folder::Named;
use crate::head;
use crate::inputs::Input;
use crate::memory::Bytes;
use crate::picture::Picture;
use crate::progress::Progress;
use crate::room;
use crate::sums;
use crate::words::Words;
use std::collections::HashMap;
use std::panic;
use std::path::Path;
use std::sync::Arc;
use std::thread;

/// A name, the pixels, which names that lead to one file share, and what the file says of colours.
pub type Found = (String, Arc<Picture>, Colour);

// Files, each once, and of each name which of them it leads to.
struct Different {
    files: Vec<Named>,
    of_names: Vec<usize>,
}

fn different(files: &[Named]) -> Different {
    let mut all: Vec<Named> = Vec::new();
    let mut numbers = HashMap::new();
    let mut of_names = Vec::new();
    for (name, path) in files {
        let next = all.len();
        // A TGA is read for one by its ending.
        let number = Input::look(path).number();
        let place = match number {
            Some(number) => *numbers.entry((number, is_targa(path))).or_insert(next),
            None => next,
        };
        if place == next {
            all.push((name.clone(), path.clone()));
        }
        of_names.push(place);
    }
    Different {
        files: all,
        of_names,
    }
}

// What this gives for each file, by as many threads as the machine has processors. A reader of pictures that panics has met a file
// that it can't read, and gives nothing.
fn of_each<T: Send>(
    what: &str,
    files: &[Named],
    of: impl Fn(&Path) -> T + Sync + panic::RefUnwindSafe,
) -> Vec<Option<T>> {
    let threads = thread::available_parallelism().map_or(1, usize::from);
    let each = ((files.len() + threads - 1) / threads).max(1);
    let of = &of;
    let hook = panic::take_hook();
    panic::set_hook(Box::new(|_| {}));
    let shown = Progress::counted(what, files.len());
    let all = |files: &[Named]| {
        let one = |file: &Named| {
            let got = panic::catch_unwind(|| of(&file.1)).ok();
            shown.step();
            got
        };
        files.iter().map(one).collect::<Vec<_>>()
    };
    let results = thread::scope(|scope| {
        let start = |files| {
            let thread = thread::Builder::new().spawn_scoped(scope, move || all(files));
            thread.map_err(|_| files)
        };
        let started: Vec<_> = files.chunks(each).map(start).collect();
        let ended = started.into_iter().map(|one| match one {
            Ok(thread) => thread.join().unwrap_or_default(),
            // No thread could be had for these.
            Err(files) => all(files),
        });
        ended.flatten().collect()
    });
    panic::set_hook(hook);
    results
}

type Decoded = Result<(Arc<Picture>, Colour, Dropped), String>;

fn read(path: &Path, most: u64) -> (Input, Decoded) {
    let look = Input::look(path);
    match std::fs::read(path) {
        Ok(bytes) => {
            let sum = sums::of(&bytes);
            let picture = decoded(path, &bytes, most);
            let shared =
                picture.map(|(picture, colour)| (Arc::new(picture), colour, dropped::of(&bytes)));
            (look.with(sum), shared)
        }
        Err(error) => (look, Err(error.to_string())),
    }
}

fn told(path: &Path, why: &str) -> String {
    format!("{}: {}", path.display(), why)
}

fn bad_files(lines: Vec<String>) -> Result<(), Fault> {
    if lines.is_empty() {
        return Ok(());
    }
    Err(Fault {
        status: FILES,
        lines,
    })
}

/// The files whose pictures may have a place, and those that are left out. A picture that no sheet takes is refused here
/// already, and so are all, where they take more memory than is allowed.
pub fn checked(files: Vec<Named>, words: &Words) -> Result<(Vec<Named>, Vec<Named>), Fault> {
    let once = different(&files);
    let sizes = of_each("looking at", &once.files, head::size);
    let sizes = once.of_names.iter().map(|one| sizes[*one].flatten());
    let sizes: Vec<Option<(u64, u64)>> = sizes.collect();
    let is_great = |size: &Option<(u64, u64)>| {
        size.map_or(false, |(w, h)| Bytes::of(w, h).0 > GREATEST as u64)
    };
    if !words.leave_out {
        let great = files.iter().zip(&sizes).filter(|(_, size)| is_great(size));
        bad_files(great.map(|((_, path), _)| told(path, TOO_LARGE)).collect())?;
    }
    let (mut kept, mut taken, mut left_out, mut too_large) =
        (Vec::new(), Bytes(0), Vec::new(), Vec::new());
    let mut counted = vec![false; once.files.len()];
    for ((file, size), number) in files.into_iter().zip(sizes).zip(once.of_names) {
        let great = is_great(&size).then(|| told(&file.1, TOO_LARGE));
        let no_place = size.and_then(|size| room::no_place(&file, size, words));
        match great.or(no_place) {
            Some(line) => {
                too_large.push(line);
                left_out.push(file);
            }
            None => {
                let (width, height) = size.unwrap_or((0, 0));
                if !std::mem::replace(&mut counted[number], true) {
                    taken = taken.and(Bytes::of(width, height));
                }
                kept.push(file);
            }
        }
    }
    if !too_large.is_empty() && (!words.leave_out || kept.is_empty()) {
        return Err(Fault {
            status: crate::fault::ROOM,
            lines: too_large,
        });
    }
    words.memory().allow(taken, "the pictures")?;
    Ok((kept, left_out))
}

/// Pictures, the files as they were read, and what is told of what isn't taken of them.
pub type Read = (Vec<Found>, Vec<Input>, Vec<String>);

/// All pictures. All that can't be read are named.
pub fn pictures(files: Vec<Named>, words: &Words) -> Result<Read, Fault> {
    // Samples of sixteen bits take twice what is counted.
    let most = words.memory().0.saturating_mul(2);
    let most = most.clamp(1 << 20, GREATEST as u64);
    let once = different(&files);
    let results = of_each("reading", &once.files, |path| read(path, most));
    let (mut found, mut inputs, mut lines) = (Vec::new(), Vec::new(), Vec::new());
    let mut dropped = Vec::new();
    for ((name, path), number) in files.into_iter().zip(once.of_names) {
        match &results[number] {
            Some((input, Ok((picture, colour, of_file)))) => {
                dropped.push(*of_file);
                found.push((name, picture.clone(), colour.clone()));
                inputs.push(input.of(&path));
            }
            Some((_, Err(why))) => lines.push(told(&path, why)),
            None => lines.push(told(&path, "it can't be read")),
        }
    }
    bad_files(lines)?;
    let names = found.iter().map(|one: &Found| one.0.as_str());
    let notes = dropped::lines(&names.zip(dropped).collect::<Vec<_>>());
    Ok((found, inputs, notes))
}
