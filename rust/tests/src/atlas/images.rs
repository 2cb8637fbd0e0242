//! An atlas as plain data and back: what comes back answers as the first does, with the same ids; data that are spoilt give none, or an
//! atlas that is just what they say and that is tiled. That it is tiled is counted here, square by square.

use crate::random::{below, next, side};
use test_memory::Refusing;
use wollemigo_core::atlas_search::cut::Orientation;
use wollemigo_core::atlas_search::link::Link;
use wollemigo_core::atlas_store::slots::{Node, NodeKind};
use wollemigo_core::guillotiere::{
    size2, AllocId, AllocatorOptions, AtlasAllocator, AtlasError, AtlasImage, Rectangle, Size,
};
use wollemigo_support::alloc::{Allocator, Global};

type Atlas = AtlasAllocator<Global>;

fn options(state: &mut u64) -> AllocatorOptions {
    let small = side(state, 40);
    AllocatorOptions {
        alignment: size2(1 + side(state, 4), 1 + side(state, 4)),
        small_size_threshold: small,
        large_size_threshold: small + side(state, 60),
    }
}

fn copied(image: &AtlasImage<Global>) -> AtlasImage<Global> {
    AtlasImage {
        size: image.size,
        options: image.options,
        limit: image.limit,
        unused: image.unused,
        nodes: {
            let mut nodes = wollemigo_support::vec::Vec::new(Global);
            for node in image.nodes.iter() {
                nodes.push(*node).unwrap();
            }
            nodes
        },
    }
}

fn same(one: &AtlasImage<Global>, other: &AtlasImage<Global>) -> bool {
    one.size == other.size
        && one.options == other.options
        && one.limit == other.limit
        && one.unused == other.unused
        && one.nodes[..] == other.nodes[..]
}

// One random call, and what it answered.
fn call(atlas: &mut Atlas, ids: &mut Vec<AllocId>, state: &mut u64, most: u16) -> String {
    match below(state, 40) {
        0..=18 => {
            let size = size2(side(state, most), side(state, most));
            let answer = atlas.allocate(size);
            if let Ok(Some(allocation)) = &answer {
                ids.push(allocation.id);
            }
            format!("{:?}", answer)
        }
        19..=35 => {
            if ids.is_empty() {
                return String::new();
            }
            let i = usize::from(below(state, ids.len() as u16));
            let id = ids.swap_remove(i);
            format!("{:?}", atlas.deallocate(id))
        }
        36 => {
            let size = atlas.size();
            let larger = size2(size.width + side(state, 9), size.height + side(state, 9));
            format!("{:?}", atlas.grow(larger))
        }
        37 => {
            if below(state, 3) != 0 {
                return String::new();
            }
            let answer = atlas.rearrange();
            ids.clear();
            atlas.for_each_allocated_rectangle(|id, _| ids.push(id));
            format!("{:?}", answer.map(|list| list.changes.len()))
        }
        38 => format!(
            "{:?}",
            atlas.can_fit(size2(side(state, most), side(state, most)))
        ),
        _ => {
            let mut free = Vec::new();
            atlas.for_each_free_rectangle(|area| free.push(*area));
            format!("{:?} {:?}", atlas.slots(), free)
        }
    }
}

fn session(state: &mut u64) -> (Atlas, Vec<AllocId>) {
    let size = size2(1 + side(state, 120), 1 + side(state, 120));
    let options = options(state);
    let limit = 1 + u32::from(below(state, 200));
    let mut atlas = Atlas::with_slot_limit(Global, size, &options, limit).unwrap();
    let mut ids = Vec::new();
    let most = 2 + below(state, 60);
    for _ in 0..below(state, 300) {
        call(&mut atlas, &mut ids, state, most);
    }
    (atlas, ids)
}

#[test]
fn later_answers_are_the_same() {
    let mut state = 1;
    for _ in 0..300 {
        let (mut atlas, mut ids) = session(&mut state);
        let image = atlas.image().unwrap();
        let mut other = Atlas::from_image(Global, &image).unwrap().unwrap();
        assert!(same(&image, &other.image().unwrap()));
        assert_eq!(atlas.slots(), other.slots());
        let mut others = ids.clone();
        for _ in 0..150 {
            let mut twin = state;
            let most = 2 + below(&mut twin, 50);
            state = twin;
            assert_eq!(
                call(&mut atlas, &mut ids, &mut state, most),
                call(&mut other, &mut others, &mut twin, most)
            );
        }
        assert!(same(&atlas.image().unwrap(), &other.image().unwrap()));
    }
}

// Whether live and free rectangles have each unit square of the atlas once.
fn is_tiled(atlas: &Atlas) -> bool {
    let size = atlas.size();
    let (width, height) = (size.width as usize, size.height as usize);
    let mut squares = vec![0u8; width * height];
    let mut boxes = Vec::new();
    atlas.for_each_allocated_rectangle(|_, area| boxes.push(*area));
    atlas.for_each_free_rectangle(|area| boxes.push(*area));
    for Rectangle { min, max } in boxes {
        if min.x >= max.x || min.y >= max.y {
            return false;
        }
        for y in min.y..max.y {
            for x in min.x..max.x {
                squares[y as usize * width + x as usize] += 1;
            }
        }
    }
    squares.iter().all(|count| *count == 1)
}

fn spoilt_link(state: &mut u64, slots: usize) -> Link {
    let number = match below(state, 8) {
        0 => 4294967295,
        1 => slots as u32,
        2 => next(state) as u32,
        _ => u32::from(below(state, slots as u16)),
    };
    Link { number }
}

fn spoil(image: &mut AtlasImage<Global>, state: &mut u64) {
    let slots = image.nodes.len();
    let at = usize::from(below(state, slots as u16));
    let other = usize::from(below(state, slots as u16));
    match below(state, 18) {
        0 => image.nodes[at].parent = spoilt_link(state, slots),
        1 => image.nodes[at].previous = spoilt_link(state, slots),
        2 => image.nodes[at].next = spoilt_link(state, slots),
        3 => image.nodes[at].area.min.x += side(state, 7) - 3,
        4 => image.nodes[at].area.min.y += side(state, 7) - 3,
        5 => image.nodes[at].area.max.x += side(state, 7) - 3,
        6 => image.nodes[at].area.max.y = next(state) as i32,
        7 | 8 => {
            image.nodes[at].kind = [
                NodeKind::Container,
                NodeKind::Alloc,
                NodeKind::Free,
                NodeKind::Unused,
            ][usize::from(below(state, 4))]
        }
        9 => {
            image.nodes[at].axis = match image.nodes[at].axis {
                Orientation::Horizontal => Orientation::Vertical,
                Orientation::Vertical => Orientation::Horizontal,
            }
        }
        10 => image.unused = spoilt_link(state, slots),
        11 => image.limit = next(state) as u32 >> below(state, 32),
        12 => image.size = size2(side(state, 200) - 5, side(state, 200) - 5),
        13 => image.options.alignment = size2(side(state, 5) - 1, side(state, 5) - 1),
        14 => image.options.small_size_threshold = next(state) as i32,
        15 => {
            let node = image.nodes[other];
            image.nodes[at] = node;
        }
        16 => {
            let node = image.nodes[other];
            image.nodes[other] = image.nodes[at];
            image.nodes[at] = node;
        }
        _ => {
            image.nodes.pop();
        }
    }
}

#[test]
fn spoilt_data_give_none_or_a_tiled_atlas() {
    let mut state = 2;
    let mut taken = 0;
    let mut refused = 0;
    for _ in 0..400 {
        let (atlas, _) = session(&mut state);
        let image = atlas.image().unwrap();
        for _ in 0..40 {
            let mut spoilt = copied(&image);
            for _ in 0..1 + below(&mut state, 3) {
                if !spoilt.nodes.is_empty() {
                    spoil(&mut spoilt, &mut state);
                }
            }
            match Atlas::from_image(Global, &spoilt).unwrap() {
                None => refused += 1,
                Some(mut it) => {
                    assert!(same(&spoilt, &it.image().unwrap()));
                    assert!(it.size().width > 250 || is_tiled(&it));
                    let mut ids = Vec::new();
                    it.for_each_allocated_rectangle(|id, _| ids.push(id));
                    for _ in 0..30 {
                        call(&mut it, &mut ids, &mut state, 40);
                    }
                    assert!(is_tiled(&it));
                    for id in ids {
                        it.deallocate(id).unwrap();
                    }
                    assert!(it.is_empty());
                    taken += 1;
                }
            }
        }
    }
    assert!(taken > 100 && refused > 5000, "{} {}", taken, refused);
}

fn node(
    parent: u32,
    previous: u32,
    next: u32,
    area: [i32; 4],
    kind: NodeKind,
    axis: Orientation,
) -> Node {
    let mut it = Atlas::new(Global, size2(1, 1))
        .unwrap()
        .image()
        .unwrap()
        .nodes[0];
    it.parent = Link { number: parent };
    it.previous = Link { number: previous };
    it.next = Link { number: next };
    it.area.min.x = area[0];
    it.area.min.y = area[1];
    it.area.max.x = area[2];
    it.area.max.y = area[3];
    it.kind = kind;
    it.axis = axis;
    it
}

const NONE: u32 = 4294967295;

fn image_of(size: Size, nodes: &[Node]) -> AtlasImage<Global> {
    let mut image = Atlas::new(Global, size).unwrap().image().unwrap();
    image.nodes.clear();
    for node in nodes {
        image.nodes.push(*node).unwrap();
    }
    image
}

// Two containers that hold each other, beside a tree that is whole: each slot agrees with its neighbours.
#[test]
fn links_that_go_in_a_circle_are_refused() {
    use Orientation::{Horizontal, Vertical};
    let whole = [0, 0, 10, 20];
    let size = size2(10, 20);
    let leaf = node(NONE, NONE, NONE, whole, NodeKind::Free, Vertical);
    assert!(Atlas::from_image(Global, &image_of(size, &[leaf]))
        .unwrap()
        .is_some());
    let one = node(2, NONE, NONE, whole, NodeKind::Container, Vertical);
    let other = node(1, NONE, NONE, whole, NodeKind::Container, Horizontal);
    assert!(
        Atlas::from_image(Global, &image_of(size, &[leaf, one, other]))
            .unwrap()
            .is_none()
    );
    // A member that follows itself.
    let follower = node(NONE, 0, 0, whole, NodeKind::Alloc, Vertical);
    assert!(Atlas::from_image(Global, &image_of(size, &[follower]))
        .unwrap()
        .is_none());
    assert!(Atlas::from_image(Global, &image_of(size, &[]))
        .unwrap()
        .is_none());
}

// An atlas of another kind of memory, for the test below.
fn of_memory<'a>(
    memory: &'a Refusing<Global>,
    image: &AtlasImage<Global>,
) -> AtlasImage<&'a Refusing<Global>> {
    let mut nodes = wollemigo_support::vec::Vec::new(memory);
    for node in image.nodes.iter() {
        nodes.push(*node).unwrap();
    }
    AtlasImage {
        size: image.size,
        options: image.options,
        limit: image.limit,
        unused: image.unused,
        nodes,
    }
}

#[test]
fn each_refused_request_for_memory_is_an_error_and_leaks_nothing() {
    let mut state = 3;
    for _ in 0..20 {
        let (atlas, _) = session(&mut state);
        let memory = Refusing::new(Global);
        let image = of_memory(&memory, &atlas.image().unwrap());
        for n in 1.. {
            let before = memory.requests() - memory.returned();
            memory.refuse_nth(n);
            match AtlasAllocator::from_image(&memory, &image) {
                Err(error) => assert_eq!(error, AtlasError::Memory),
                Ok(found) => {
                    assert!(found.is_some());
                    break;
                }
            }
            // The refused request isn't given back.
            assert_eq!(memory.requests() - memory.returned(), before + 1);
        }
    }
}

fn _is_allocator<A: Allocator>() {}
