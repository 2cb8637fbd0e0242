//! What is written here is so of the crate `euclid` 0.22 too: rust/package runs this over that crate.
use euclid::default::{Box2D, Point2D, Size2D};
use euclid::{point2, size2};
use std::collections::HashSet;

fn corners(left: i32, top: i32, right: i32, bottom: i32) -> Box2D<i32> {
    Box2D {
        min: point2(left, top),
        max: Point2D::new(right, bottom),
    }
}

#[test]
fn boxes_have_sides_and_areas() {
    for (given, sides, area, is_empty) in [
        (corners(0, 0, 20, 60), (20, 60), 1200, false),
        (corners(-3, 5, 4, 7), (7, 2), 14, false),
        (corners(2, 2, 2, 9), (0, 7), 0, true),
        (corners(2, 9, 3, 9), (1, 0), 0, true),
        (corners(5, 0, 4, 9), (-1, 9), -9, true),
    ] {
        assert_eq!((given.width(), given.height()), sides);
        assert_eq!(given.size(), size2(sides.0, sides.1));
        assert_eq!((given.area(), given.size().area()), (area, area));
        assert_eq!(given.is_empty(), is_empty);
        assert_eq!(given, Box2D::new(given.min, given.max));
    }
}

#[test]
fn texts() {
    assert_eq!(format!("{:?}", Point2D::new(-1, 2)), "(-1, 2)");
    assert_eq!(format!("{:?}", Size2D::new(20, 60)), "20x60");
    let text = format!("{:?}", corners(1, 2, 3, 4));
    assert_eq!(text, "Box2D((1, 2), (3, 4))");
}

#[test]
fn values_are_compared_copied_and_hashed() {
    let given: Size2D<i32> = Size2D::default();
    let copy = given;
    assert_eq!((given, copy.width, copy.height), (copy, 0, 0));
    assert_ne!(size2::<_, ()>(1, 2), size2(2, 1));
    assert_ne!(point2::<_, ()>(1, 2), point2(2, 1));
    let set: HashSet<_> = [corners(0, 0, 1, 1), corners(0, 0, 1, 2), Box2D::default()]
        .into_iter()
        .chain([corners(0, 0, 1, 1)])
        .collect();
    assert_eq!(set.len(), 3);
}
