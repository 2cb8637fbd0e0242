//! A program that keeps options, ids and rectangles with serde, in the crate's form.
use crate::tree::Tree::{List, Map, Number};
use crate::tree::{written, Fault, Tree};
use guillotiere::serde::de::Deserialize;
use guillotiere::serde::ser::Serialize;
use guillotiere::{size2, AllocId, AllocatorOptions, AtlasAllocator, Rectangle, Size};

type Kept = (AllocatorOptions, Vec<AllocId>, Vec<Rectangle>, Size);

fn numbers(numbers: &[i64]) -> Tree {
    List(numbers.iter().map(|it| Number(*it)).collect())
}

#[test]
fn what_is_kept_has_the_form_of_the_crate() {
    let options = AllocatorOptions {
        alignment: size2(2, 3),
        ..AllocatorOptions::default()
    };
    let mut atlas = AtlasAllocator::with_options(size2(64, 63), &options);
    let granted = atlas.allocate(size2(63, 20)).unwrap();
    let id = AllocId::deserialize(granted.id.serialize());
    let kept: Kept = (options, vec![id], vec![atlas[id]], atlas.size());
    let tree = kept.serialize(crate::tree::Writer).unwrap();

    let fields = vec![
        ("alignment", numbers(&[2, 3])),
        ("small_size_threshold", Number(32)),
        ("large_size_threshold", Number(256)),
    ];
    let corners = Map(vec![("min", numbers(&[0, 0])), ("max", numbers(&[64, 21]))]);
    let wanted = [
        Map(fields),
        numbers(&[id.serialize().into()]),
        List(vec![corners]),
        numbers(&[64, 63]),
    ];
    assert_eq!(tree, List(wanted.to_vec()));

    let read: Result<Kept, Fault> = Kept::deserialize(tree);
    assert_eq!(read, Ok(kept.clone()));
    assert_eq!(written(&read.unwrap()), written(&kept));
}
