//! One sheet with one turned, trimmed sprite, in each form.
use super::{check_names, files, Filter, Form, Style, Template, Wrap};
use crate::picture::Part;
use crate::sheet::{Frame, Page, Sheet};
use crate::words::Names;

fn sheet() -> Sheet {
    let frame = Frame {
        name: "a \"b\".png".to_string(),
        x: 1,
        y: 2,
        is_turned: true,
        kept: Part {
            left: 3,
            top: 4,
            width: 5,
            height: 6,
        },
        whole: (10, 20),
        anchor: None,
        nine: None,
    };
    Sheet {
        stem: "s".to_string(),
        scale: "0.5".parse().unwrap(),
        is_premultiplied: true,
        pages: vec![Page {
            record: "s".to_string(),
            image: "s.png".to_string(),
            sum: "5a".to_string(),
            width: 8,
            height: 16,
            frames: vec![frame],
        }],
        animations: Vec::new(),
        frame_rate: 10.0,
    }
}

fn text(form: Form) -> String {
    let style = Style {
        form,
        template: None,
        filter: Filter::Nearest,
        wrap: Wrap::Xy,
        names: Names::Fixed,
        with_page: false,
    };
    let mut files = files(&style, &sheet()).unwrap();
    assert_eq!(files.len(), 1);
    String::from_utf8(files.remove(0).1).unwrap()
}

#[test]
fn json() {
    let hash: serde_json::Value = serde_json::from_str(&text(Form::JsonHash)).unwrap();
    let frame = serde_json::json!({
        "frame": {"x": 1, "y": 2, "w": 5, "h": 6}, "rotated": true, "trimmed": true,
        "spriteSourceSize": {"x": 3, "y": 4, "w": 5, "h": 6}, "sourceSize": {"w": 10, "h": 20}
    });
    assert_eq!(hash["frames"]["a \"b\".png"], frame);
    assert_eq!(hash["meta"]["image"], "s.png");
    assert_eq!(hash["meta"]["scale"], "0.5");
    let array: serde_json::Value = serde_json::from_str(&text(Form::JsonArray)).unwrap();
    assert_eq!(array["frames"][0]["filename"], "a \"b\".png");
    let multi: serde_json::Value = serde_json::from_str(&text(Form::Phaser)).unwrap();
    assert_eq!(
        multi["textures"][0]["frames"][0]["sourceSize"],
        frame["sourceSize"]
    );
    assert_eq!(multi["textures"][0]["scale"], 0.5);
}

#[test]
fn libgdx() {
    let lines = "\ns.png\nsize: 8,16\nformat: RGBA8888\nfilter: Nearest,Nearest\nrepeat: xy\na \"b\".png\n  rotate: true\n  \
                 xy: 1, 2\n  size: 5, 6\n  orig: 10, 20\n  offset: 3, 10\n  index: -1\n";
    assert_eq!(text(Form::Libgdx), lines);
    let lines = "s.png\nsize: 8,16\nformat: RGBA8888\nfilter: Nearest,Nearest\nrepeat: xy\npma: true\nsha256: 5a\na \"b\".png\n\
                 bounds: 1, 2, 5, 6\noffsets: 3, 10, 10, 20\nrotate: 90\n";
    assert_eq!(text(Form::LibgdxNew), lines);
}

#[test]
fn starling() {
    let line = "<SubTexture name=\"a &quot;b&quot;.png\" x=\"1\" y=\"2\" width=\"6\" height=\"5\" rotated=\"true\" \
                frameX=\"-3\" frameY=\"-4\" frameWidth=\"10\" frameHeight=\"20\"/>";
    assert!(text(Form::Starling).contains(line));
}

#[test]
fn cocos() {
    let told = text(Form::Cocos);
    assert!(told.contains("<key>frame</key>\n      <string>{{1,2},{5,6}}</string>"));
    let mut one = sheet();
    let anchor = "0.25,0.7".parse().unwrap();
    one.pages[0].frames[0].anchor = Some(anchor);
    let files = super::template::cocos3().unwrap().files(&one).unwrap();
    let told = String::from_utf8(files[0].1.clone()).unwrap();
    // Upwards, the anchor from the lower left corner, and the middle of what is kept, at 3 + 2.5 and 4 + 3, from that of the picture, at 5
    // and 10.
    for (key, value) in [
        ("anchor", "{0.25,0.3}"),
        ("spriteOffset", "{0.5,3}"),
        ("spriteSize", "{5,6}"),
        ("spriteSourceSize", "{10,20}"),
        ("textureRect", "{{1,2},{5,6}}"),
    ] {
        let line = format!("<key>{}</key>\n      <string>{}</string>", key, value);
        assert!(told.contains(&line), "{}", told);
    }
    assert!(told.contains("<key>textureRotated</key>\n      <true/>"));
    assert!(!text(Form::Cocos3).contains("<key>anchor</key>"));
}

#[test]
fn godot() {
    let told = text(Form::Godot);
    assert!(told.contains("region = Rect2(1, 2, 5, 6)\nmargin = Rect2(3, 4, 5, 14)\n"));
    assert!(told.contains("\"name\": &\"a \\\"b\\\".png\""));
    let told = text(Form::Godot3);
    assert!(told.contains(
        "atlas = ExtResource( 1 )\nregion = Rect2( 1, 2, 5, 6 )\nmargin = Rect2( 3, 4, 5, 14 )\n"
    ));
    assert!(told.contains(
        "\"frames\": [SubResource( 1 )],\n\"loop\": true,\n\"name\": \"a \\\"b\\\".png\""
    ));
}

#[test]
fn templates() {
    let named = |name: &str, text: &str| Template::new(name, text);
    for name in [
        "x.tera",
        "x",
        "x.json",
        ".tera",
        "x.each.tera.",
        "x.png.tera",
        "x..tera",
    ] {
        assert!(named(name, "").is_err(), "{}", name);
    }
    let fault = named("x.txt.tera", "{% if %}").unwrap_err();
    assert!(fault.lines[0].starts_with("x.txt.tera: ") && fault.lines.len() == 1);
    let all = "{{ stem }} {{ pages[0].frames[0].offset.x }} <{{ pages[0].image }}>";
    let files = named("x.lua.tera", all).unwrap().files(&sheet()).unwrap();
    // The middle of what is kept is at 3 + 2.5, and that of the picture at 5.
    assert_eq!(files, [("s.lua".to_string(), b"s 0.5 <s.png>".to_vec())]);
    let each = named(
        "x.each.tar.gz.tera",
        "{{ page.image }} {{ page.frames | length }}",
    )
    .unwrap();
    assert_eq!(
        each.files(&sheet()).unwrap(),
        [("s.tar.gz".to_string(), b"s.png 1".to_vec())]
    );
    assert!(named("x.txt.tera", "{{ none }}")
        .unwrap()
        .files(&sheet())
        .is_err());
}

#[test]
fn css() {
    let told = text(Form::Css);
    assert!(told.contains(".s-a--b--png { width: 10px; height: 20px }"));
    assert!(told
        .contains("left: 3px; top: 4px; width: 6px; height: 5px; background-position: -1px -2px;"));
    assert!(told.contains("translateY(6px) rotate(-90deg)"));
}

#[test]
fn names() {
    assert!(check_names(Form::Libgdx, "s", &["a:b"]).is_err());
    assert!(check_names(Form::Libgdx, "s", &["a b", "ä"]).is_ok());
    assert!(check_names(Form::Starling, "s", &["a\u{ffff}"]).is_err());
    assert!(check_names(Form::Css, "s", &["a b", "a-b"]).is_err());
    assert!(check_names(Form::JsonHash, "s", &["a b", "a-b", "a:b"]).is_ok());
}
