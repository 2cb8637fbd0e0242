//! A file whose keys are options: the words of the command line that it stands for.
use crate::fault::{Fault, WORDS};
use crate::folder;
use clap::error::{ContextKind, ErrorKind};
use clap::{Arg, ArgAction, Command};
use std::ffi::OsString;
use std::path::PathBuf;
use toml::Value;

const OPTION: &str = "--config";
// Options that print something else, or name the file itself.
const NEVER: [&str; 5] = ["config", "man", "completions", "help", "version"];

// Behind `--` there are no options.
fn options(given: &[OsString]) -> impl Iterator<Item = &OsString> {
    given.iter().skip(1).take_while(|word| *word != "--")
}

// The file that the words name.
fn file(given: &[OsString]) -> Option<PathBuf> {
    let mut words = options(given);
    while let Some(word) = words.next() {
        if word == OPTION {
            return words.next().map(PathBuf::from);
        }
        let word = word.to_string_lossy();
        if let Some(path) = word
            .strip_prefix(OPTION)
            .and_then(|path| path.strip_prefix('='))
        {
            return Some(PathBuf::from(path));
        }
    }
    None
}

// Whether the words have this option themselves.
fn is_given(given: &[OsString], key: &str) -> bool {
    options(given).any(|word| {
        let word = word.to_string_lossy();
        word.strip_prefix("--")
            .and_then(|word| word.strip_prefix(key))
            .map_or(false, |rest| rest.is_empty() || rest.starts_with('='))
    })
}

fn text(key: &str, value: &Value) -> Result<String, String> {
    match value {
        Value::String(text) => Ok(text.clone()),
        Value::Integer(number) => Ok(number.to_string()),
        Value::Float(number) => Ok(number.to_string()),
        _ => Err(format!("{} is a text, a number or a list of these", key)),
    }
}

// The words that a key and its value stand for.
fn words_of(option: &Arg, key: &str, value: &Value) -> Result<Vec<String>, String> {
    if !option.get_action().takes_values() {
        return match value {
            Value::Boolean(true) => Ok(vec![format!("--{}", key)]),
            Value::Boolean(false) => Ok(Vec::new()),
            _ => Err(format!("{} is true or false", key)),
        };
    }
    let values = match value {
        Value::Array(values) => values.iter().map(|one| text(key, one)).collect(),
        one => text(key, one).map(|one| vec![one]),
    };
    let values: Vec<String> = values?;
    let count = option
        .get_num_args()
        .map_or(1, |counts| counts.min_values());
    if count > 1 {
        if values.len() != count {
            return Err(format!("{} is a list of {} numbers", key, count));
        }
        return Ok([vec![format!("--{}", key)], values].concat());
    }
    let is_repeated = matches!(option.get_action(), ArgAction::Append);
    if is_repeated && option.get_value_delimiter().is_none() {
        let each = values.iter().map(|value| format!("--{}={}", key, value));
        return Ok(each.collect());
    }
    Ok(vec![format!("--{}={}", key, values.join(","))])
}

// With what may be meant.
fn unknown(key: &str, command: &Command) -> String {
    let words = ["", &format!("--{}", key)];
    let error = command.clone().try_get_matches_from(words).err();
    let meant = error.and_then(|error| {
        let meant = error.get(ContextKind::SuggestedArg)?.to_string();
        Some(format!(
            "; did you mean {}?",
            meant.trim_start_matches("--")
        ))
    });
    format!(
        "no option that it can have is called {:?}{}",
        key,
        meant.unwrap_or_default()
    )
}

// What is wrong with the words of a file alone. What they lack, or can't stand beside, the words of the command line may mend.
fn fault(words: &[String], command: &Command) -> Option<clap::Error> {
    let alone = ["", "FOLDER", "OUT"].map(String::from);
    let alone = alone.iter().chain(words);
    let error = command.clone().try_get_matches_from(alone).err()?;
    let can_be_mended = [
        ErrorKind::MissingRequiredArgument,
        ErrorKind::ArgumentConflict,
    ];
    Some(error).filter(|error| !can_be_mended.contains(&error.kind()))
}

/// The words with those of the file that `--config` names before them, but for options that they have themselves. `line` makes one line of
/// what the parser tells.
pub fn with_file(
    mut given: Vec<OsString>,
    command: &Command,
    line: impl Fn(&clap::Error) -> String,
) -> Result<Vec<OsString>, Fault> {
    let path = match file(&given) {
        Some(path) => path,
        None => return Ok(given),
    };
    let refused = |why: &str| Fault::new(WORDS, format!("{}: {}", path.display(), why));
    // Into a value: a map of keys would take the last of equal ones.
    let read = toml::from_str(&folder::text(&path)?);
    let read: Value = read.map_err(|error| refused(&error.to_string()))?;
    let table = read.as_table().cloned().unwrap_or_default();
    let mut more = Vec::new();
    for (key, value) in &table {
        let option = command
            .get_arguments()
            .find(|one| one.get_long() == Some(key) && !NEVER.contains(&key.as_str()));
        let option = option.ok_or_else(|| refused(&unknown(key, command)))?;
        let words = words_of(option, key, value).map_err(|why| refused(&why))?;
        if let Some(error) = fault(&words, command) {
            return Err(refused(&line(&error)));
        }
        if !is_given(&given, key) {
            more.extend(words.into_iter().map(OsString::from));
        }
    }
    given.splice(1..1, more);
    Ok(given)
}
