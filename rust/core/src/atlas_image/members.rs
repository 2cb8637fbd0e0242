// Erased from crates/atlas_image/src/members.rt by rust/erase: don't edit.
//! Checks of one used slot by its neighbours: its container, the member before it, and the one after it.

use crate::atlas_image::order::Order;
use crate::atlas_model::{point2, Rectangle, Size};
use crate::atlas_search::cut::{across, Orientation};
use crate::atlas_search::link::{Link, NO_SLOT};
use crate::atlas_store::slots::{Node, NodeKind};
use wollemigo_support::alloc::Allocator;

/// Where a rectangle begins along an axis, and where it ends.
#[derive(Clone, Copy, Debug, PartialEq, Eq)]
pub struct Span {
    pub low: i32,
    pub high: i32,
}

// What stands for a slot past the end.
#[inline]
fn blank_node() -> Node {
    let none = Link { number: 0 };
    Node {
        parent: none,
        previous: none,
        next: none,
        area: Rectangle {
            min: point2(0, 0),
            max: point2(0, 0),
        },
        kind: NodeKind::Unused,
        axis: Orientation::Vertical,
        generation: 0,
    }
}

/// The node of a slot. Past the end and at no slot it is a blank one, which is unused.
#[inline]
pub(crate) fn node(nodes: &[Node], at: Link) -> Node {
    match nodes.get(at.number as usize) {
        Some(node) => *node,
        None => blank_node(),
    }
}

/// Whether a slot is used.
#[inline]
pub(crate) fn is_used(node: &Node) -> bool {
    node.kind != NodeKind::Unused
}

/// Whether a slot is a container.
#[inline]
pub(crate) fn is_container(node: &Node) -> bool {
    node.kind == NodeKind::Container
}

/// Where a rectangle lies along an axis.
#[inline]
pub(crate) fn span_of(area: &Rectangle, axis: Orientation) -> Span {
    match axis {
        Orientation::Horizontal => Span {
            low: area.min.x,
            high: area.max.x,
        },
        Orientation::Vertical => Span {
            low: area.min.y,
            high: area.max.y,
        },
    }
}

/// The rectangle that the sequence of a member divides: that of its container, or the whole atlas.
#[inline]
pub(crate) fn frame(nodes: &[Node], size: Size, member: &Node) -> Rectangle {
    if member.parent.number == NO_SLOT {
        Rectangle::from(size)
    } else {
        node(nodes, member.parent).area
    }
}

/// Whether a rectangle has sides above 0, and no corner below 0.
#[inline]
pub(crate) fn is_solid(area: &Rectangle) -> bool {
    area.min.x >= 0 && area.min.y >= 0 && area.min.x < area.max.x && area.min.y < area.max.y
}

// Whether a member is as wide across its sequence as what that divides.
#[inline]
fn is_across(member: &Node, frame: &Rectangle) -> bool {
    let axis = across(member.axis);
    span_of(&member.area, axis) == span_of(frame, axis)
}

// Whether a member is in a container that runs along the other axis, or in the top sequence.
#[inline]
fn is_held<A: Allocator>(nodes: &[Node], order: &Order<A>, member: &Node) -> bool {
    if member.parent.number == NO_SLOT {
        member.axis == node(nodes, order.top).axis
    } else {
        let container = node(nodes, member.parent);
        container.kind == NodeKind::Container && member.axis == across(container.axis)
    }
}

// Whether a member is the first of its sequence, and begins where that does.
#[inline]
fn is_first<A: Allocator>(order: &Order<A>, at: Link, member: &Node, frame: &Rectangle) -> bool {
    span_of(&member.area, member.axis).low == span_of(frame, member.axis).low
        && order.first(member.parent) == at
        && (member.parent.number == NO_SLOT || order.rank(member.parent) < order.rank(at))
}

// Whether a member comes after another one, and begins where that ends.
#[inline]
fn is_after<A: Allocator>(order: &Order<A>, before: &Node, at: Link, member: &Node) -> bool {
    is_used(before)
        && before.next == at
        && before.parent == member.parent
        && before.axis == member.axis
        && span_of(&member.area, member.axis).low == span_of(&before.area, member.axis).high
        && order.rank(member.previous) < order.rank(at)
}

// Whether a member comes first in its sequence, or after another one.
#[inline]
fn is_begun<A: Allocator>(
    nodes: &[Node],
    order: &Order<A>,
    at: Link,
    member: &Node,
    frame: &Rectangle,
) -> bool {
    if member.previous.number == NO_SLOT {
        is_first(order, at, member, frame)
    } else {
        is_after(order, &node(nodes, member.previous), at, member)
    }
}

// Whether a member comes last in its sequence, and ends where that does, or a used slot follows it.
#[inline]
fn is_ended(nodes: &[Node], at: Link, member: &Node, frame: &Rectangle) -> bool {
    if member.next.number == NO_SLOT {
        span_of(&member.area, member.axis).high == span_of(frame, member.axis).high
    } else {
        let after = node(nodes, member.next);
        is_used(&after) && after.previous == at
    }
}

// Whether a member is no container, or has a first member.
#[inline]
fn is_filled<A: Allocator>(nodes: &[Node], order: &Order<A>, at: Link, member: &Node) -> bool {
    if member.kind != NodeKind::Container {
        return true;
    }
    let first = node(nodes, order.first(at));
    is_used(&first) && first.parent == at && first.previous.number == NO_SLOT
}

/// Whether all that a used slot says of its place agrees with its neighbours.
#[inline]
pub(crate) fn is_member<A: Allocator>(
    nodes: &[Node],
    order: &Order<A>,
    size: Size,
    at: Link,
    member: &Node,
) -> bool {
    let frame = frame(nodes, size, member);
    is_solid(&member.area)
        && is_across(member, &frame)
        && is_held(nodes, order, member)
        && is_begun(nodes, order, at, member, &frame)
        && is_ended(nodes, at, member, &frame)
        && is_filled(nodes, order, at, member)
}
