// Erased from crates/atlas_store/src/store.rt by rust/erase: don't edit.
//! The slots of an atlas with their lists: each call keeps the tree that the slots represent, and the lists, in order.

pub mod choosing;
pub mod extend;
pub mod restoring;
pub mod start;
pub mod turns;
pub mod views;

use crate::atlas_search::bands::Scale;
use crate::atlas_search::link::{Link, NO_SLOT};
use crate::atlas_search::table::{Table, FEW};
use crate::atlas_store::slots::lists::{enlist, give_back, take_slot, unlist, Recent};
use crate::atlas_store::slots::placing::{place_leaf, Parts, Plan};
use crate::atlas_store::slots::{join_next, lift, mark_free, read_node, Node, NodeKind, Slot};
use crate::atlas_store::store::turns::Turns;
use wollemigo_support::alloc::{AllocError, Allocator};
use wollemigo_support::prelude::Vec;

/// The slots, the lists that run through them, and the options by which free slots are listed. `turns` counts the
/// markings, joins and lifts, and is nothing at run time. The lists have room for the slots that there is memory for (`room`).
pub struct Store<A: Allocator> {
    slots: Vec<Slot, A>,
    lists: Table<A>,
    unused: Link,
    options: Scale,
    turns: Turns,
    recent: Recent,
}

impl<A: Allocator> Store<A> {
    /// A copy: the same slots and lists, in new memory of the same allocator. No turn was taken in it yet.
    #[inline]
    pub fn copy(&self) -> Result<Store<A>, AllocError>
    where
        A: Copy,
    {
        let slots = Vec::from_slice(*self.slots.allocator(), &self.slots)?;
        let mut lists = self.lists.copy()?;
        if slots.capacity() > FEW {
            // Only where a copy has more memory than it holds.
            lists.grow()?;
        }
        Ok(Store {
            slots,
            lists,
            unused: self.unused,
            options: self.options.copy(),
            turns: Turns::new(),
            recent: self.recent,
        })
    }

    /// The tree's part of a slot.
    #[inline]
    #[must_use]
    pub fn node(&self, at: Link) -> Node {
        read_node(&self.slots, at)
    }

    /// Whether this is a slot of a free leaf.
    #[inline]
    #[must_use]
    pub fn is_free(&self, at: Link) -> bool {
        at.number != NO_SLOT && read_node(&self.slots, at).kind == NodeKind::Free
    }

    /// Takes a free leaf out of its list.
    #[inline(always)]
    pub fn unlist(&mut self, at: Link) {
        unlist(&mut self.slots, &mut self.lists, &mut self.recent, at);
    }

    /// Puts a detached leaf into its list.
    #[inline(always)]
    pub fn list(&mut self, at: Link) {
        enlist(
            &mut self.slots,
            &mut self.lists,
            &self.options,
            &mut self.recent,
            at,
        );
    }

    // Takes an unused slot, the one given back last, or else a new one at the end. It is claimed.
    #[inline]
    fn take(&mut self) -> Link {
        take_slot(&mut self.slots, &mut self.unused)
    }

    // Takes the slots of a plan: of what the first cut leaves, of the inner container, of what is granted and of what
    // the second cut leaves, each where there is one. They are claimed.
    #[inline(always)]
    fn take_for(&mut self, plan: Plan) -> Parts {
        let none = Link::NONE;
        let mut parts = Parts {
            split: none,
            container: none,
            granted: none,
            leftover: none,
        };
        match plan {
            Plan::Whole => {}
            Plan::StripAlong(_) => {
                parts.split = self.take();
            }
            Plan::CornerAlong(_, _) => {
                parts.split = self.take();
                parts.granted = self.take();
                parts.leftover = self.take();
            }
            Plan::StripAcross(_) => {
                parts.split = self.take();
                parts.granted = self.take();
            }
            Plan::CornerAcross(_, _) => {
                parts.split = self.take();
                parts.container = self.take();
                parts.granted = self.take();
                parts.leftover = self.take();
            }
        }
        parts
    }

    /// A detached leaf gives way to what a plan says, for which there are slots. What is left free is detached.
    #[inline(always)]
    pub fn place(&mut self, at: Link, plan: Plan) -> Parts {
        let parts = self.take_for(plan);
        place_leaf(&mut self.slots, at, plan, parts);
        parts
    }

    /// A granted leaf becomes free, and is detached. One turn of a freeing.
    #[inline]
    pub fn mark(&mut self, at: Link) {
        mark_free(&mut self.slots, at);
        self.turns.tick();
    }

    /// A detached leaf takes in the next one, which is detached too and whose slot is given back. One turn of a
    /// freeing.
    #[inline]
    pub fn join(&mut self, at: Link) {
        let next = join_next(&mut self.slots, at);
        give_back(&mut self.slots, &mut self.unused, next);
        self.turns.tick();
    }

    /// A detached leaf that is alone in its container takes its place; its own slot is given back. One turn of a
    /// freeing. The answer is the container's slot, which is detached now.
    #[inline]
    pub fn lift(&mut self, child: Link) -> Link {
        let container = lift(&mut self.slots, child);
        give_back(&mut self.slots, &mut self.unused, child);
        self.turns.tick();
        container
    }
}
