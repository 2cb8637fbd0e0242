//! The examples of docs/PLAIN.md: each rule does what the page shows.
use eraser::layout::laid_out;
use eraser::rules::Place;
use std::path::{Path, PathBuf};

/// An example: under which heading, of which crate, before and after.
struct Example {
    heading: String,
    of: String,
    before: String,
    after: String,
}

fn rust_folder() -> PathBuf {
    Path::new(env!("CARGO_MANIFEST_DIR")).join("..")
}

fn examples() -> Vec<Example> {
    let page =
        std::fs::read_to_string(rust_folder().join("../docs/PLAIN.md")).expect("docs/PLAIN.md");
    let (mut found, mut heading) = (Vec::new(), String::new());
    let mut lines = page.lines();
    while let Some(line) = lines.next() {
        if let Some(text) = line.strip_prefix("### ") {
            heading = text.to_string();
        }
        if let Some(of) = line.strip_prefix("```rattle") {
            let before = block(&mut lines);
            let next = lines.find(|l| l.starts_with("```")).unwrap_or("");
            assert_eq!(next, "```rust", "{}: no text after", heading);
            let (heading, of) = (heading.clone(), of.trim().to_string());
            found.push(Example {
                heading,
                of,
                before,
                after: block(&mut lines),
            });
        }
    }
    found
}

fn block<'a>(lines: &mut impl Iterator<Item = &'a str>) -> String {
    lines
        .take_while(|l| *l != "```")
        .map(|l| format!("{}\n", l))
        .collect()
}

fn place(of: &str) -> Place {
    let library = ["atlas_model", "atlas_store", "guillotiere"]
        .iter()
        .map(|n| n.to_string())
        .collect();
    Place {
        name: of.to_string(),
        is_library: !of.is_empty(),
        library,
        laws: Default::default(),
    }
}

#[test]
fn each_rule_does_what_its_example_shows() {
    let examples = examples();
    for rule in 1..=19 {
        let head = format!("{}. ", rule);
        assert!(
            examples.iter().any(|e| e.heading.starts_with(&head)),
            "no example of rule {}",
            rule
        );
    }
    for example in examples {
        let (text, _) = eraser::erased("example.rt", &example.before, &place(&example.of))
            .expect(&example.heading);
        let text = laid_out("example.rt", &text, &rust_folder()).expect(&example.heading);
        assert_eq!(text, example.after, "{}", example.heading);
    }
}

#[test]
fn each_rule_of_an_example_is_applied_there() {
    for example in examples() {
        let (_, counts) = eraser::erased("example.rt", &example.before, &place(&example.of))
            .expect(&example.heading);
        let rule = example
            .heading
            .split('.')
            .next()
            .and_then(|n| n.parse().ok())
            .expect(&example.heading);
        assert!(counts.contains_key(&rule), "{}", example.heading);
    }
}
