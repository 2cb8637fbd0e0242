// Erased from crates/atlas_image/src/unused.rt by rust/erase: don't edit.
//! The list of unused slots.

use crate::atlas_image::members::node;
use crate::atlas_search::link::{Link, NO_SLOT};
use crate::atlas_store::slots::{Node, NodeKind};
use wollemigo_support::alloc::{AllocError, Allocator};
use wollemigo_support::prelude::Vec;

// Whether a slot is unused.
#[inline]
fn is_unused(node: &Node) -> bool {
    node.kind == NodeKind::Unused
}

// A mark for each slot, of those that are unused.
#[inline]
fn marks_of<A: Allocator>(alloc: A, nodes: &[Node]) -> Result<Vec<bool, A>, AllocError> {
    let mut marks = Vec::with_capacity(alloc, nodes.len())?;
    for member in nodes {
        marks.push(is_unused(member))?;
    }
    Ok(marks)
}

// Whether the list that begins at `first` goes through marked slots alone, and none twice; their marks go.
#[inline]
fn take_marks(nodes: &[Node], marks: &mut [bool], first: Link) -> bool {
    let mut at = first;
    for _step in 0..nodes.len() {
        if at.number == NO_SLOT {
            return true;
        }
        let i = at.number as usize;
        if i >= marks.len() {
            return false;
        }
        if !marks[i] {
            return false;
        }
        marks[i] = false;
        at = node(nodes, at).next;
    }
    at.number == NO_SLOT
}

// Whether there is no mark.
#[inline]
fn are_unmarked(marks: &[bool]) -> bool {
    for mark in marks {
        if *mark {
            return false;
        }
    }
    true
}

// Whether the list that begins at `first` goes through all marked slots, each once, and no other slot.
#[inline]
fn take_all(nodes: &[Node], marks: &mut [bool], first: Link) -> bool {
    if !take_marks(nodes, marks, first) {
        return false;
    }
    are_unmarked(marks)
}

/// Whether the list of unused slots that begins at `first` has each of them once, and no other slot.
#[inline]
pub(crate) fn are_lined<A: Allocator>(
    alloc: A,
    nodes: &[Node],
    first: Link,
) -> Result<bool, AllocError> {
    let mut marks = marks_of(alloc, nodes)?;
    let lined = take_all(nodes, &mut marks, first);
    Ok(lined)
}
