// Erased from crates/atlas_image/src/image.rt by rust/erase: don't edit.
//! Whether nodes are those of an atlas.

use crate::atlas_image::members::{is_member, is_used, node};
use crate::atlas_image::order::Order;
use crate::atlas_image::settled::is_settled;
use crate::atlas_image::unused::are_lined;
use crate::atlas_model::{AllocatorOptions, Size};
use crate::atlas_search::link::{Link, NO_SLOT};
use crate::atlas_store::slots::Node;
use wollemigo_support::alloc::{AllocError, Allocator};

// Whether a slot is used, and comes first in the top sequence.
#[inline]
fn is_first_of_all(member: &Node) -> bool {
    is_used(member) && member.parent.number == NO_SLOT && member.previous.number == NO_SLOT
}

// Whether each used slot is a member of one tree, in its place.
#[inline]
fn are_members<A: Allocator>(
    nodes: &[Node],
    order: &Order<A>,
    size: Size,
    options: &AllocatorOptions,
) -> bool {
    for number in 0..nodes.len() {
        let at = Link {
            number: number as u32,
        };
        let member = node(nodes, at);
        if is_used(&member) {
            if !is_member(nodes, order, size, at, &member) {
                return false;
            }
            if !is_settled(nodes, options, &member) {
                return false;
            }
        }
    }
    true
}

/// How many slots are used.
#[inline]
#[must_use]
pub fn count_used(nodes: &[Node]) -> u32 {
    let mut count = 0;
    for number in 0..nodes.len() {
        let member = node(
            nodes,
            Link {
                number: number as u32,
            },
        );
        if is_used(&member) {
            count += 1;
        }
    }
    count
}

/// The slot of the first member, if these are nodes of an atlas of this size with these options, of whose unused slots this one comes
/// first. Otherwise None.
#[inline]
pub fn first_of<A: Allocator + Copy>(
    alloc: A,
    nodes: &[Node],
    unused: Link,
    size: Size,
    options: &AllocatorOptions,
) -> Result<Option<Link>, AllocError> {
    let order = Order::of(alloc, nodes)?;
    let first = node(nodes, order.top);
    if !is_first_of_all(&first) {
        return Ok(None);
    }
    if !are_members(nodes, &order, size, options) {
        return Ok(None);
    }
    let lined = are_lined(alloc, nodes, unused)?;
    if !lined {
        return Ok(None);
    }
    Ok(Some(order.top))
}

#[cfg(test)]
mod tests {
    use super::*;
    use crate::atlas_model::{size2, Rectangle, DEFAULT_OPTIONS};
    use crate::atlas_search::cut::Orientation;
    use crate::atlas_store::slots::NodeKind;
    use wollemigo_support::prelude::{assert, HostRuntime};

    #[test]
    fn one_free_slot() {
        let rt = HostRuntime;
        let size = size2(10, 20);
        let nodes = [Node {
            parent: Link::NONE,
            previous: Link::NONE,
            next: Link::NONE,
            area: Rectangle::from(size),
            kind: NodeKind::Free,
            axis: Orientation::Vertical,
            generation: 0,
        }];
        let found = first_of(rt.alloc(), &nodes, Link::NONE, size, &DEFAULT_OPTIONS);
        assert!(rt; found == Ok(Some(Link { number: 0 })));
    }
}
