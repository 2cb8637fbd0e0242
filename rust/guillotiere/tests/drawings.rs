//! Drawings of an atlas.
#![cfg(feature = "std")]
use guillotiere::*;

// An atlas of 20 by 10, in which 20 by 4 are granted.
fn atlas() -> AtlasAllocator {
    let mut atlas = AtlasAllocator::new(size2(20, 10));
    atlas.allocate(size2(20, 4)).unwrap();
    atlas
}

fn rect(numbers: &str, colour: &str) -> String {
    let style = format!("fill:rgb({colour});stroke:rgb(0,0,0);stroke-width:1");
    format!("    <rect {numbers} style=\"{style}\" />\n")
}

const FREE: &str = "50,50,50";
const LIVE: &str = "70,70,180";

#[test]
fn a_document_has_each_rectangle_once() {
    let mut drawn = Vec::new();
    dump_svg(&atlas(), &mut drawn).unwrap();
    let free = rect(r#"x="0" y="4" width="20" height="6""#, FREE);
    let live = rect(r#"x="0" y="0" width="20" height="4""#, LIVE);
    let head = "<svg xmlns=\"http://www.w3.org/2000/svg\" viewBox=\"0 0 20 10\">\n";
    assert_eq!(
        String::from_utf8(drawn).unwrap(),
        format!("{head}{free}{live}</svg>\n")
    );
}

#[test]
fn a_part_of_a_document_fills_its_rectangle() {
    let mut drawn = Vec::new();
    let place = Rectangle {
        min: point2(100, 200),
        max: point2(140, 205),
    };
    dump_into_svg(&atlas(), Some(&place), &mut drawn).unwrap();
    let free = rect(r#"x="100" y="202" width="40" height="3""#, FREE);
    let live = rect(r#"x="100" y="200" width="40" height="2""#, LIVE);
    assert_eq!(String::from_utf8(drawn).unwrap(), format!("{free}{live}"));
}
