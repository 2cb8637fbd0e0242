//! Sides of any rectangle.

use guillotiere_tests::tables::{rectangle, Corners};
use wollemigo_core::guillotiere::size2;
use wollemigo_core::guillotiere_total::{rectangles, CallError};

// Rectangles of which a side passes the range of `i32`.
const GREAT: [Corners; 4] = [
    (-1, 0, 2147483647, 1),
    (0, -1, 1, 2147483647),
    (1, 0, -2147483648, 1),
    (0, 2147483647, 1, -2),
];

#[test]
fn great_rectangles_have_no_sides() {
    for corners in GREAT {
        let great = rectangle(corners);
        assert_eq!(rectangles::width(&great), Err(CallError::Unmeasurable));
        assert_eq!(rectangles::height(&great), Err(CallError::Unmeasurable));
        assert_eq!(rectangles::size(&great), Err(CallError::Unmeasurable));
    }
}

#[test]
fn others_have_sides() {
    let widest = rectangle((-1, 3, 2147483646, 1));
    assert_eq!(rectangles::width(&widest), Ok(2147483647));
    assert_eq!(rectangles::height(&widest), Ok(-2));
    assert_eq!(rectangles::size(&widest), Ok(size2(2147483647, -2)));
}
