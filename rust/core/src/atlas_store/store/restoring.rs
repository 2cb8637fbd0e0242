// Erased from crates/atlas_store/src/store/restoring.rt by rust/erase: don't edit.
//! What a store holds as plain nodes, and a store made of such nodes again.

use crate::atlas_model::AllocatorOptions;
use crate::atlas_search::bands::Scale;
use crate::atlas_search::link::Link;
use crate::atlas_search::table::{Table, FEW};
use crate::atlas_store::slots::lists::Recent;
use crate::atlas_store::slots::{Node, NodeKind, Slot};
use crate::atlas_store::store::turns::Turns;
use crate::atlas_store::store::Store;
use wollemigo_support::alloc::{AllocError, Allocator};
use wollemigo_support::prelude::Vec;

// The node of a slot. That of an unused one says which unused slot comes next.
#[inline]
fn image_of(slot: &Slot) -> Node {
    let next = match slot.kind {
        NodeKind::Unused => slot.right,
        _ => slot.next,
    };
    Node {
        parent: slot.parent,
        previous: slot.previous,
        next,
        area: slot.area,
        kind: slot.kind,
        axis: slot.axis,
        generation: slot.generation,
    }
}

// The slot of such a node, in no list of free slots.
#[inline]
fn slot_of(node: &Node) -> Slot {
    Slot {
        parent: node.parent,
        previous: node.previous,
        next: node.next,
        area: node.area,
        up: Link::NONE,
        left: Link::NONE,
        right: node.next,
        kind: node.kind,
        axis: node.axis,
        generation: node.generation,
        is_fork: false,
    }
}

// The nodes of slots.
#[inline]
fn images_of<A: Allocator>(alloc: A, slots: &[Slot]) -> Result<Vec<Node, A>, AllocError> {
    let mut nodes = Vec::with_capacity(alloc, slots.len())?;
    for slot in slots {
        nodes.push(image_of(slot))?;
    }
    Ok(nodes)
}

// The slots of nodes.
#[inline]
fn slots_of<A: Allocator>(alloc: A, nodes: &[Node]) -> Result<Vec<Slot, A>, AllocError> {
    let mut slots = Vec::with_capacity(alloc, nodes.len())?;
    for node in nodes {
        slots.push(slot_of(node))?;
    }
    Ok(slots)
}

impl<A: Allocator> Store<A> {
    /// The unused slot that is taken next, or none.
    #[inline]
    #[must_use]
    pub fn unused(&self) -> Link {
        self.unused
    }

    /// The nodes of the slots, by their numbers. That of an unused slot says which unused one comes next.
    #[inline]
    pub fn nodes(&self) -> Result<Vec<Node, A>, AllocError>
    where
        A: Copy,
    {
        images_of(*self.slots.allocator(), &self.slots)
    }

    // Puts each free slot into its list, where none is.
    #[inline]
    fn list_all(&mut self) {
        for number in 0..self.slots.len() {
            let at = Link {
                number: number as u32,
            };
            if self.is_free(at) {
                self.list(at);
            }
        }
    }

    /// A store of slots with these nodes, each free one in its list, and of unused slots from this one on. Requires that the nodes stand
    /// for a tree, and that the list of the unused ones has each once.
    #[inline]
    pub fn restore(
        alloc: A,
        nodes: &[Node],
        unused: Link,
        options: &AllocatorOptions,
    ) -> Result<Store<A>, AllocError>
    where
        A: Copy,
    {
        let slots = slots_of(alloc, nodes)?;
        let mut lists = Table::new(alloc);
        if slots.capacity() > FEW {
            lists.grow()?;
        }
        let mut store = Store {
            slots,
            lists,
            unused,
            options: Scale::new(options),
            turns: Turns::new(),
            recent: Recent::NONE,
        };
        store.list_all();
        Ok(store)
    }
}
