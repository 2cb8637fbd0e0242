// Erased from crates/atlas_store/src/slots/extending.rt by rust/erase: don't edit.
//! The calls by which the top sequence of the slots' tree is extended: its last leaf is enlarged, a leaf is appended,
//! or the sequence is put into a new one along the other axis. They leave the lists alone.

use crate::atlas_model::{point2, Rectangle, Size};
use crate::atlas_search::cut::{across, beyond};
use crate::atlas_search::link::{Link, NO_SLOT};
use crate::atlas_store::slots::{read_node, write_node, Node, NodeKind, Slot};

/// The free leaf at `at` reaches to the far corner of a size.
#[inline]
pub fn stretch_leaf(slots: &mut [Slot], at: Link, size: Size) {
    let mut leaf = read_node(slots, at);
    leaf.area.max = point2(size.width, size.height);
    write_node(slots, at, leaf);
}

/// The unused slot `fresh` becomes a free leaf after the last member of the top sequence, and reaches to the far corner
/// of a size.
#[inline]
pub fn append_leaf(slots: &mut [Slot], last: Link, fresh: Link, size: Size) {
    let mut leaf = read_node(slots, last);
    let unused = read_node(slots, fresh);
    let strip = Node {
        previous: last,
        next: Link::NONE,
        area: beyond(leaf.area, leaf.axis, size),
        kind: NodeKind::Free,
        generation: unused.generation,
        ..leaf
    };
    leaf.next = fresh;
    write_node(slots, last, leaf);
    write_node(slots, fresh, strip);
}

// Each member of the sequence that begins at `first` is held by the slot `container`.
#[inline]
fn hang(slots: &mut [Slot], first: Link, container: Link) {
    let mut at = first;
    while at.number != NO_SLOT {
        let mut node = read_node(slots, at);
        node.parent = container;
        write_node(slots, at, node);
        at = node.next;
    }
}

/// The top sequence, which begins at `first` and spans the size `inner`, becomes the first of two members of a new one
/// along the other axis: the unused slot `container` holds it. The unused slot `strip` becomes the second, a free leaf
/// that reaches to the far corner of `size`. One pass along the sequence; each node is written once.
#[inline]
pub fn nest_top(
    slots: &mut [Slot],
    first: Link,
    container: Link,
    strip: Link,
    inner: Size,
    size: Size,
) {
    let none = Link::NONE;
    let axis = across(read_node(slots, first).axis);
    let outer = Node {
        parent: none,
        previous: none,
        next: strip,
        area: Rectangle::from(inner),
        kind: NodeKind::Container,
        axis,
        generation: read_node(slots, container).generation,
    };
    let leaf = Node {
        previous: container,
        next: none,
        area: beyond(outer.area, axis, size),
        kind: NodeKind::Free,
        generation: read_node(slots, strip).generation,
        ..outer
    };
    hang(slots, first, container);
    write_node(slots, container, outer);
    write_node(slots, strip, leaf);
}
