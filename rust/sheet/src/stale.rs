//! Records of another form that lie beside a picture which changes: they tell of the picture that was there before.
use crate::forms::{self, File};
use crate::set::is_picture;
use std::fs;
use std::path::Path;

// Of the forms' records, and of the page of CSS. What a template is called isn't known.
const ENDINGS: [&str; 7] = [
    ".atlas", ".css", ".html", ".json", ".plist", ".tres", ".xml",
];

// Whether a file is called as one of an OUT: OUT itself, then the number of a sheet and that of a scale, if it has them, and an ending.
fn is_record(name: &str, stem: &str) -> bool {
    let inside = ENDINGS
        .iter()
        .find_map(|ending| name.strip_prefix(stem)?.strip_suffix(ending));
    inside.map_or(false, |inside| {
        let (number, scale) = inside.split_once('@').unwrap_or((inside, "1x"));
        let is_number = number.is_empty() || number.strip_prefix('-').map_or(false, is_digits);
        is_number && scale.ends_with('x')
    })
}

fn is_digits(text: &str) -> bool {
    !text.is_empty() && text.bytes().all(|byte| byte.is_ascii_digit())
}

fn has(bytes: &[u8], part: &[u8]) -> bool {
    bytes.windows(part.len()).any(|window| window == part)
}

/// A line for each record in a folder that isn't among the files that are written there, and names a picture among those that change.
pub fn notes(folder: &Path, stem: &str, written: &[File], changed: &[&File]) -> Vec<String> {
    let names = changed.iter().map(|(name, _)| name.as_str());
    let images: Vec<&str> = names.filter(|name| is_picture(name)).collect();
    if images.is_empty() {
        return Vec::new();
    }
    let is_written = |name: &String| written.iter().any(|file| file.0 == *name);
    let mut names: Vec<String> = fs::read_dir(folder)
        .into_iter()
        .flatten()
        .filter_map(|entry| entry.ok()?.file_name().into_string().ok())
        .filter(|name| is_record(name, stem) && !is_written(name))
        .collect();
    names.sort();
    let told = |name: &String| {
        let path = folder.join(name);
        let bytes = path.is_file().then(|| fs::read(&path).ok())??;
        let is_named = |image: &&&str| {
            let spelled = forms::spellings(image);
            spelled.iter().any(|one| has(&bytes, one.as_bytes()))
        };
        let image = images.iter().find(is_named)?;
        Some(format!(
            "{}: it tells where sprites lay in an earlier {}: run again with its --form, or remove it",
            path.display(),
            image
        ))
    };
    names.iter().filter_map(told).collect()
}

#[cfg(test)]
mod tests {
    use super::is_record;

    #[test]
    fn knows_records() {
        for name in ["a.json", "a-0.json", "a@0.5x.css", "a-12@0.5x.plist"] {
            assert!(is_record(name, "a"), "{}", name);
        }
        for name in [
            "a.png",
            "b.json",
            "ab.json",
            "a-.json",
            "a-b.json",
            "a.json.meta",
            "a.png.import",
            "a@.json",
        ] {
            assert!(!is_record(name, "a"), "{}", name);
        }
    }
}
