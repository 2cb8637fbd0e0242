//! Stable sorts.

mod common;

use common::{refuse_in_turn, requests, Random};
use test_memory::Refusing;
use wollemigo_support::alloc::{AllocError, Global};
use wollemigo_support::vec::Vec;

// So many pairs of a key below `keys` and the place where it stands.
fn pairs(random: &mut Random, count: usize, keys: u64) -> std::vec::Vec<(u64, usize)> {
    (0..count)
        .map(|place| (random.below(keys), place))
        .collect()
}

#[test]
fn sorts_as_rust_does_and_equal_keys_keep_their_order() {
    let mut random = Random::new(1);
    for count in (0..70).chain([100, 1000, 5000]) {
        for keys in [1, 2, 7, 1000] {
            let mut model = pairs(&mut random, count, keys);
            let list = Vec::from_slice(Global, &model).unwrap();
            model.sort_by_key(|pair| pair.0);
            let mut by_key = list.clone().unwrap();
            by_key.sort_by_key(|pair| pair.0).unwrap();
            assert_eq!(by_key, model[..]);
            let mut falling = list.clone().unwrap();
            falling.sort_by(|a, b| b.0.cmp(&a.0)).unwrap();
            model.sort_by(|a, b| b.0.cmp(&a.0).then(a.1.cmp(&b.1)));
            assert_eq!(falling, model[..]);
            model.sort();
            let mut whole = list;
            whole.sort().unwrap();
            assert_eq!(whole, model[..]);
        }
    }
}

#[test]
fn up_to_20_items_and_those_in_order_take_no_memory() {
    let heap = Refusing::new(Global);
    let mut short = Vec::from_slice(&heap, &pairs(&mut Random::new(2), 20, 5)).unwrap();
    let mut ordered = Vec::from_slice(&heap, &[(1, 0); 1000]).unwrap();
    heap.refuse_every();
    assert_eq!(requests(&heap, || short.sort()), (0, Ok(())));
    assert_eq!(
        requests(&heap, || ordered.sort_by_key(|pair| pair.0)),
        (0, Ok(()))
    );
    assert!(short.windows(2).all(|two| two[0] <= two[1]));
}

#[test]
fn a_refusal_leaves_each_item_in_its_place() {
    let heap = Refusing::new(Global);
    let before = pairs(&mut Random::new(3), 21, 1000);
    let mut list = Vec::from_slice(&heap, &before).unwrap();
    heap.refuse_every();
    assert_eq!(list.sort_by_key(|pair| pair.0), Err(AllocError));
    assert_eq!(list, before[..]);
    refuse_in_turn(|heap| {
        let sorted = Vec::from_slice(heap, &before).and_then(|mut list| list.sort());
        u64::from(sorted.is_err())
    });
}
