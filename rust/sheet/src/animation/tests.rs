//! Which names make animations.
use super::animations;
use crate::words::words;
use std::path::Path;

// The animations of these names, and a line for each that is near one.
fn found(names: &[&str], more: &[&str]) -> Vec<String> {
    let given = ["program", "no such folder", "sheet"].iter().chain(more);
    let words = words(given.map(std::ffi::OsString::from)).unwrap();
    let file = |name: &&str| (name.to_string(), Path::new("no such folder").join(name));
    let files: Vec<_> = names.iter().map(file).collect();
    let played = animations(&files, &words).unwrap();
    let line = |one: &super::Animation| {
        let numbers: Vec<String> = one.frames.iter().map(|frame| frame.0.to_string()).collect();
        format!("{} {}: {}", one.name, one.whole, numbers.join(" "))
    };
    let mut lines: Vec<String> = played.animations.iter().map(line).collect();
    lines.extend(played.notes);
    lines
}

#[test]
fn finds_animations() {
    let cases: [(&[&str], &[&str]); 32] = [
        (
            &["run_2.png", "run_1.png", "run_3.png"],
            &["run run.png: 1 2 3"],
        ),
        (&["run_0.png", "run_1.png"], &["run run.png: 0 1"]),
        (
            &[
                "f_08", "f_09", "f_10", "f_01", "f_02", "f_03", "f_04", "f_05", "f_06", "f_07",
            ],
            &["f f: 1 2 3 4 5 6 7 8 9 10"],
        ),
        (&["run-0000.png", "run-0001.png"], &["run run.png: 0 1"]),
        (&["a/run.1", "a/run.2", "b/run.1"], &["a/run a/run: 1 2"]),
        (&["run/01.png", "run/02.png"], &["run run.png: 1 2"]),
        (&["1.png", "2.png"], &["sheet sheet.png: 1 2"]),
        (&["run (1).png", "run (2).png"], &["run run.png: 1 2"]),
        (
            &["run1.png", "run2.png", "run3.png"],
            &["run run.png: 1 2 3"],
        ),
        // Sizes and versions.
        (&["icon16.png", "icon32.png"], &[]),
        (&["icon_16.png", "icon_32.png", "icon_64.png"], &[]),
        (&["v1.5.png", "v1.6.png"], &[]),
        (&["run_7.png", "run_8.png"], &[]),
        (&["run_1.png", "stand.png"], &[]),
        // A number lacks.
        (
            &["run_1.png", "run_2.png", "run_10.png"],
            &["run isn't an animation: number 3 is missing"],
        ),
        (
            &["fly1.png", "fly2.png", "fly4.png"],
            &["fly isn't an animation: number 3 is missing"],
        ),
        (
            &["fly2.png", "fly3.png", "fly4.png"],
            &["fly isn't an animation: number 1 is missing"],
        ),
        (
            &["run_0", "run_2"],
            &["run isn't an animation: number 1 is missing"],
        ),
        (
            &["0.png", "2.png"],
            &["sheet isn't an animation: number 1 is missing"],
        ),
        // A still picture.
        (
            &["run_1", "run_2", "run"],
            &["run isn't an animation: run has its name"],
        ),
        (
            &["run_1.png", "run_2.png", "run.png"],
            &["run isn't an animation: run.png has its name"],
        ),
        (
            &["run_1.png", "run_2.png", "run.jpg"],
            &["run run.png: 1 2"],
        ),
        // Two endings.
        (
            &["run_1.png", "run_2.jpg"],
            &["run isn't an animation: names end in \".jpg\" and \".png\""],
        ),
        (
            &["run_1.png", "run_2.PNG", "run_3.png"],
            &["run isn't an animation: names end in \".PNG\" and \".png\""],
        ),
        (
            &["a_1.png", "a_2.png", "a_1.jpg", "a_2.jpg"],
            &["a isn't an animation: names end in \".jpg\" and \".png\""],
        ),
        // Two separators.
        (
            &["run_1.png", "run-1.png"],
            &["run isn't an animation: \"-\" and \"_\" stand before the numbers"],
        ),
        (
            &["run_1.png", "run-2.png"],
            &["run isn't an animation: \"-\" and \"_\" stand before the numbers"],
        ),
        (
            &["run1", "run_1", "run2"],
            &["run isn't an animation: \"\" and \"_\" stand before the numbers"],
        ),
        // Two widths.
        (
            &["jump_1", "jump_02"],
            &["jump isn't an animation: numbers are written in several widths"],
        ),
        (
            &["run-0.png", "run-0001.png"],
            &["run isn't an animation: numbers are written in several widths"],
        ),
        (
            &["run_1.png", "run_01.png", "run_2.png"],
            &["run isn't an animation: numbers are written in several widths"],
        ),
        (
            &["x 99999999999999999999999", "x 1", "stand", "y)", "(y"],
            &[],
        ),
    ];
    for (names, wanted) in cases {
        assert_eq!(found(names, &[]), wanted, "{:?}", names);
    }
}

#[test]
fn takes_those_that_are_named() {
    let icons = [
        "icon_16.png",
        "icon_32.png",
        "icon_8.png",
        "icon.png",
        "run_1.png",
        "run_2.png",
    ];
    let both = ["icon icon.png: 8 16 32", "run run.png: 1 2"];
    for (pattern, wanted) in [
        ("icon_*", &both[..]),
        ("icon_?*.png", &both[..]),
        (
            "other*",
            &[
                "run run.png: 1 2",
                "--animations other*: no picture with a number is like it",
            ][..],
        ),
    ] {
        assert_eq!(
            found(&icons, &["--animations", pattern]),
            wanted,
            "{}",
            pattern
        );
    }
    let twice = ["a_1.png", "a-1.png", "a_5.png"];
    assert_eq!(
        found(&twice, &["--animations", "a*"]),
        ["a isn't an animation: number 1 is there twice"]
    );
    assert_eq!(found(&twice, &["--animations", "a_*"]), ["a a.png: 1 5"]);
    assert_eq!(found(&["a_1", "a_2"], &["--no-animations"]), [""; 0]);
}
