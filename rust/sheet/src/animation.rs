//! Animations: pictures whose names differ by the number at their end.
use crate::fault::{Fault, FILES, WORDS};
use crate::folder::{self, Named, Patterns, ENDINGS};
use crate::words::Words;
use std::collections::{BTreeMap, BTreeSet, HashMap, HashSet};

/// The file in the folder of pictures that tells how animations are played.
pub const FILE: &str = "animations.txt";

/// Frames in the order of their numbers.
#[derive(Clone, Debug, PartialEq)]
pub struct Animation {
    /// What the names of the frames have before the number, without what stands between.
    pub name: String,
    /// With the ending that the names have.
    pub whole: String,
    pub frames: Vec<(u64, String)>,
    /// So many pictures a second.
    pub frame_rate: f64,
    pub is_looped: bool,
}

/// The animations of a run, and what is told of them.
#[derive(Debug, Default)]
pub struct Played {
    pub animations: Vec<Animation>,
    pub notes: Vec<String>,
    /// Whether a file tells how one is played.
    pub has_own: bool,
}

// A name in parts.
#[derive(Debug, PartialEq)]
struct Parts<'a> {
    base: &'a str,
    separator: &'a str,
    digits: &'a str,
    number: u64,
    ending: &'a str,
    name: &'a str,
    // Whether --animations names it.
    is_named: bool,
}

fn ending(name: &str) -> &str {
    let place = name.rfind('.').unwrap_or(name.len());
    let is_known = ENDINGS.iter().any(|ending| {
        name[place..]
            .trim_start_matches('.')
            .eq_ignore_ascii_case(ending)
    });
    &name[if is_known { place } else { name.len() }..]
}

fn parts(name: &str) -> Option<Parts<'_>> {
    let ending = ending(name);
    let whole = &name[..name.len() - ending.len()];
    let inner = match whole.strip_suffix(')') {
        Some(inner) if inner.contains('(') => inner,
        _ => whole,
    };
    let before = inner.trim_end_matches(|letter: char| letter.is_ascii_digit());
    if inner.len() != whole.len() && !before.ends_with('(') {
        return None;
    }
    let base = before.trim_end_matches(['_', '-', '.', ' ', '(', '/']);
    let digits = &inner[before.len()..];
    Some(Parts {
        base,
        separator: &before[base.len()..],
        digits,
        number: digits.parse().ok()?,
        ending,
        name,
        is_named: false,
    })
}

// Whether all numbers are written with at least as many digits as the shortest of those with a zero in front, or with no such zero.
fn are_alike(frames: &[Parts]) -> bool {
    let longest = frames.iter().map(|one| one.digits.len()).max();
    (1..=longest.unwrap_or(0)).any(|width| {
        let is_so = |one: &Parts| format!("{:0width$}", one.number, width = width) == one.digits;
        frames.iter().all(is_so)
    })
}

fn differ<'a>(frames: &'a [Parts], of: impl Fn(&'a Parts<'a>) -> &'a str) -> Option<[&'a str; 2]> {
    let all: BTreeSet<&str> = frames.iter().map(of).collect();
    let mut all = all.into_iter();
    Some([all.next()?, all.next()?])
}

// The first number that lacks between 1, or 0 where it is there, and the greatest.
fn missing(numbers: &BTreeSet<u64>) -> Option<u64> {
    let first = u64::from(!numbers.contains(&0));
    (first..)
        .zip(numbers)
        .find_map(|(wanted, number)| (wanted != *number).then_some(wanted))
}

// Whether these count, or would if a few more were there: they begin with 0 or 1, or are half of the numbers up to the greatest.
fn count(numbers: &BTreeSet<u64>) -> bool {
    let (first, last) = match (numbers.iter().next(), numbers.iter().next_back()) {
        (Some(first), Some(last)) => (*first, *last),
        _ => return false,
    };
    first <= 1 || 2 * numbers.len() as u64 >= last
}

// Why pictures of one base that count aren't the frames of an animation.
fn why_not(frames: &[Parts], names: &HashSet<&str>) -> Option<String> {
    let base = frames[0].base;
    let still = |one: &Parts| {
        let still = format!("{}{}", base, one.ending);
        names.contains(still.as_str()).then_some(still)
    };
    let numbers: BTreeSet<u64> = frames.iter().map(|one| one.number).collect();
    if let Some(still) = frames.iter().find_map(still) {
        Some(format!("{} has its name", still))
    } else if let Some([one, other]) = differ(frames, |one| one.ending) {
        Some(format!("names end in {:?} and {:?}", one, other))
    } else if let Some([one, other]) = differ(frames, |one| one.separator) {
        Some(format!(
            "{:?} and {:?} stand before the numbers",
            one, other
        ))
    } else if !are_alike(frames) {
        Some("numbers are written in several widths".to_string())
    } else {
        missing(&numbers).map(|number| format!("number {} is missing", number))
    }
}

// Of those that --animations names: each number is there once.
fn why_not_named(frames: &[Parts]) -> Option<String> {
    let mut numbers = HashSet::new();
    let twice = frames.iter().find(|one| !numbers.insert(one.number));
    twice.map(|one| format!("number {} is there twice", one.number))
}

// The frames of one base as an animation, or a line.
fn made(
    mut frames: Vec<Parts>,
    names: &HashSet<&str>,
    unnamed: &str,
    notes: &mut Vec<String>,
) -> Option<Animation> {
    let is_named = frames.iter().any(|one| one.is_named);
    frames.retain(|one| one.is_named || !is_named);
    let numbers: BTreeSet<u64> = frames.iter().map(|one| one.number).collect();
    if frames.len() < 2 || !is_named && !count(&numbers) {
        return None;
    }
    let name = match frames[0].base {
        "" => unnamed,
        base => base,
    };
    let fault = match is_named {
        true => why_not_named(&frames),
        false => why_not(&frames, names),
    };
    if let Some(why) = fault {
        notes.push(format!("{} isn't an animation: {}", name, why));
        return None;
    }
    frames.sort_by_key(|one| one.number);
    Some(Animation {
        name: name.to_string(),
        whole: format!("{}{}", name, frames[0].ending),
        frames: frames
            .iter()
            .map(|one| (one.number, one.name.to_string()))
            .collect(),
        frame_rate: 0.0,
        is_looped: true,
    })
}

// Which of these names --animations names. A pattern that is like none is told.
fn named<'a>(
    files: &'a [Named],
    words: &Words,
    notes: &mut Vec<String>,
) -> Result<HashSet<&'a str>, Fault> {
    let mut found = HashSet::new();
    for pattern in &words.animations {
        let refused = |error| Fault::new(WORDS, format!("--animations: {}", error));
        let like = Patterns::new(&[pattern.clone()]).map_err(refused)?;
        let those = files.iter().filter(|(name, path)| {
            like.has(path.strip_prefix(&words.folder).unwrap_or(path)) && parts(name).is_some()
        });
        let before = found.len();
        found.extend(those.map(|(name, _)| name.as_str()));
        if found.len() == before {
            notes.push(format!(
                "--animations {}: no picture with a number is like it",
                pattern
            ));
        }
    }
    Ok(found)
}

// A line `PATTERN RATE`, or with `loop` or `once` behind it.
fn line(text: &str) -> Option<(Patterns, f64, bool)> {
    let text = text.trim_end();
    let (text, is_looped) = match text.strip_suffix(" once") {
        Some(text) => (text, false),
        None => (text.strip_suffix(" loop").unwrap_or(text), true),
    };
    let (pattern, rate) = text.rsplit_once(' ')?;
    let rate = crate::words::frame_rate(rate).ok()?;
    Some((Patterns::new(&[pattern.to_string()]).ok()?, rate, is_looped))
}

// How each is played: as the last line says that is like its name.
fn timed(played: &mut Played, words: &Words) -> Result<(), Fault> {
    let path = words.folder.join(FILE);
    for (number, text) in folder::lines(&path)? {
        let told = |what: &str| format!("{}: line {}: {}", path.display(), number, what);
        let refused = || {
            Fault::new(
                FILES,
                told("it isn't PATTERN RATE, PATTERN RATE loop or PATTERN RATE once"),
            )
        };
        let (pattern, frame_rate, is_looped) = line(&text).ok_or_else(refused)?;
        let mut is_used = false;
        for one in &mut played.animations {
            if pattern.has(std::path::Path::new(&one.name)) {
                (one.frame_rate, one.is_looped) = (frame_rate, is_looped);
                is_used = true;
            }
        }
        played.has_own |= is_used;
        if !is_used {
            played.notes.push(told("no animation is like it"));
        }
    }
    Ok(())
}

/// The animations that these files make, in the order of their names. One without a name is called as the sheet is.
pub fn animations(files: &[Named], words: &Words) -> Result<Played, Fault> {
    let mut played = Played::default();
    if words.no_animations {
        return Ok(played);
    }
    let is_named = named(files, words, &mut played.notes)?;
    let mut groups: BTreeMap<&str, Vec<Parts>> = BTreeMap::new();
    for (name, _) in files {
        if let Some(parts) = parts(name) {
            let is_named = is_named.contains(name.as_str());
            let group = groups.entry(parts.base).or_default();
            group.push(Parts { is_named, ..parts });
        }
    }
    let names: HashSet<&str> = files.iter().map(|(name, _)| name.as_str()).collect();
    for frames in groups.into_values() {
        let one = made(frames, &names, words.stem(), &mut played.notes);
        played.animations.extend(one.map(|one| Animation {
            frame_rate: words.frame_rate,
            ..one
        }));
    }
    timed(&mut played, words)?;
    Ok(played)
}

/// Where a frame stands among the sprites.
pub type Key = (String, u64);

/// The keys of all frames.
pub fn order(animations: &[Animation]) -> HashMap<&str, Key> {
    let mut keys = HashMap::new();
    for one in animations {
        let frames = one.frames.iter();
        keys.extend(frames.map(|(number, name)| (name.as_str(), (one.whole.clone(), *number))));
    }
    keys
}

/// By which sprites are sorted: the frames of an animation stand together, in the order of their numbers, and others by their names.
pub fn key(name: &str, order: &HashMap<&str, Key>) -> Key {
    let own = || (name.to_string(), 0);
    order.get(name).cloned().unwrap_or_else(own)
}

#[cfg(test)]
mod tests;
