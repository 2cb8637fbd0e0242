// Erased from crates/atlas_image/src/settled.rt by rust/erase: don't edit.
//! Checks that a tree is normal, and that what is granted is aligned, slot by slot.

use crate::atlas_image::members::node;
use crate::atlas_model::{AllocatorOptions, Rectangle};
use crate::atlas_search::cut::exact_size;
use crate::atlas_search::link::NO_SLOT;
use crate::atlas_store::slots::{Node, NodeKind};

// Whether both sides of a rectangle are multiples of the alignment.
#[inline]
fn is_aligned(area: &Rectangle, options: &AllocatorOptions) -> bool {
    let size = exact_size(*area);
    let least = options.alignment;
    size.width as u32 % least.width as u32 == 0 && size.height as u32 % least.height as u32 == 0
}

// Whether no free member follows a free one, and that isn't alone in a container.
#[inline]
fn is_calm(nodes: &[Node], member: &Node) -> bool {
    node(nodes, member.next).kind != NodeKind::Free
        && (member.previous.number != NO_SLOT
            || member.next.number != NO_SLOT
            || member.parent.number == NO_SLOT)
}

/// Whether a used slot is one of a normal tree, and aligned where it is granted.
#[inline]
pub(crate) fn is_settled(nodes: &[Node], options: &AllocatorOptions, member: &Node) -> bool {
    match member.kind {
        NodeKind::Free => is_calm(nodes, member),
        NodeKind::Alloc => is_aligned(&member.area, options),
        _ => true,
    }
}
