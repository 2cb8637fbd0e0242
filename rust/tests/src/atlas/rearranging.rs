//! Pictures that are placed again: what moves and what is lost, as the Rust crate's atlas answers the same calls.

use guillotiere_tests::tables::{rectangle, size, Corners, Sides};
use wollemigo_core::guillotiere::{
    size2, AllocId, Allocation, AtlasAllocator, AtlasError, ChangeList,
};
use wollemigo_support::alloc::Global;
use wollemigo_support::test::Fail;

// Sizes, where they lie at first in 100 by 100, and where they lie once they were placed again.
const SIZES: [Sides; 4] = [(20, 20), (60, 60), (30, 50), (40, 10)];

const FIRST: [Corners; 4] = [
    (0, 0, 20, 20),
    (0, 20, 60, 80),
    (60, 20, 90, 70),
    (60, 70, 100, 80),
];

const PACKED: [Corners; 4] = [
    (0, 70, 20, 90),
    (0, 0, 60, 60),
    (60, 0, 90, 50),
    (0, 60, 40, 70),
];

// In 64 by 64 only the largest has room, which stays where it is.
const LARGEST: usize = 1;

type Ids = [AllocId; 4];

fn is_at(atlas: &AtlasAllocator, id: AllocId, corners: Corners) -> bool {
    atlas.get(id) == Some(rectangle(corners))
}

// An atlas that holds the pictures, and their ids.
fn filled() -> Result<(AtlasAllocator, Ids), AtlasError> {
    let mut atlas = AtlasAllocator::new(Global, size2(100, 100))?;
    let mut ids = [AllocId::deserialize(0); 4];
    for k in 0..4 {
        let granted = atlas.allocate(size(SIZES[k]))?.expect("room");
        assert_eq!(granted.rectangle, rectangle(FIRST[k]), "picture {k}");
        ids[k] = granted.id;
    }
    Ok((atlas, ids))
}

// The new id of a picture that a list moves from one place to another.
fn moved(list: &ChangeList, id: AllocId, from: Corners, to: Corners) -> AllocId {
    let old = Allocation {
        id,
        rectangle: rectangle(from),
    };
    let change = list.changes.iter().find(|change| change.old == old);
    let new = change.expect("a change").new;
    assert_eq!(new.rectangle, rectangle(to));
    new.id
}

// An atlas whose pictures were placed again, and their new ids.
fn packed() -> Result<(AtlasAllocator, Ids), AtlasError> {
    let (mut atlas, mut ids) = filled()?;
    let list = atlas.rearrange()?;
    assert!(list.failures.is_empty() && list.changes.len() == 4);
    for k in 0..4 {
        ids[k] = moved(&list, ids[k], FIRST[k], PACKED[k]);
    }
    Ok((atlas, ids))
}

#[test]
fn all_are_placed_again() -> Result<(), Fail> {
    let (atlas, ids) = packed()?;
    for k in 0..4 {
        assert!(is_at(&atlas, ids[k], PACKED[k]), "picture {k}");
    }
    Ok(())
}

#[test]
fn what_goes_leaves_room() -> Result<(), Fail> {
    let (mut atlas, ids) = filled()?;
    assert!(atlas.allocate(size2(61, 61))?.is_none());
    atlas.deallocate(ids[LARGEST])?;
    assert_eq!(atlas.deallocate(ids[LARGEST]), Err(AtlasError::NotLive));
    for k in [0, 2, 3] {
        assert!(is_at(&atlas, ids[k], FIRST[k]), "picture {k}");
    }
    let again = atlas.allocate(size(SIZES[LARGEST]))?.expect("room");
    assert_eq!(again.rectangle, rectangle(FIRST[LARGEST]));
    Ok(())
}

// In 64 by 64 three are lost, and in 10 by 10 the last one.
#[test]
fn what_has_no_room_is_lost() -> Result<(), Fail> {
    let (mut atlas, ids) = packed()?;
    let list = atlas.resize_and_rearrange(size2(64, 64))?;
    let stays = PACKED[LARGEST];
    let id = moved(&list, ids[LARGEST], stays, stays);
    assert!(list.changes.len() == 1 && list.failures.len() == 3);
    for k in [0, 2, 3] {
        let lost = Allocation {
            id: ids[k],
            rectangle: rectangle(PACKED[k]),
        };
        assert!(list.failures.contains(&lost), "picture {k}");
    }
    assert!(is_at(&atlas, id, stays));
    let none = atlas.resize_and_rearrange(size2(10, 10))?;
    assert!(none.changes.is_empty() && none.failures.len() == 1);
    assert!(atlas.is_empty());
    Ok(())
}
