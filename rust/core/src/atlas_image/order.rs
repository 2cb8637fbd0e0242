// Erased from crates/atlas_image/src/order.rt by rust/erase: don't edit.
//! The first member of each sequence, and ranks of the used slots.

use crate::atlas_image::members::{is_container, is_used, node};
use crate::atlas_search::link::{Link, NO_SLOT};
use crate::atlas_store::slots::Node;
use wollemigo_support::alloc::{AllocError, Allocator};
use wollemigo_support::prelude::Vec;

// What stands for no rank.
const NO_RANK: u32 = 4294967295;

/// The first member of the top sequence and of each container, and for each used slot a rank, below which are the ranks of its container
/// and of the member before it. They are found by the links alone, so that a check of each slot has to show that they are right.
pub struct Order<A: Allocator> {
    pub top: Link,
    pub firsts: Vec<Link, A>,
    pub ranks: Vec<u32, A>,
}

impl<A: Allocator> Order<A> {
    /// The first member of the sequence that a slot holds, or of the top sequence.
    #[inline]
    pub(crate) fn first(&self, parent: Link) -> Link {
        if parent.number == NO_SLOT {
            return self.top;
        }
        match self.firsts.get(parent.number as usize) {
            Some(first) => *first,
            None => Link::NONE,
        }
    }

    /// The rank of a slot; past the end it is 0.
    #[inline]
    pub(crate) fn rank(&self, at: Link) -> u32 {
        match self.ranks.get(at.number as usize) {
            Some(rank) => *rank,
            None => 0,
        }
    }

    // Whether there is such a slot, and it has no rank.
    #[inline]
    fn lacks_rank(&self, at: Link) -> bool {
        let i = at.number as usize;
        i < self.ranks.len() && self.ranks[i] == NO_RANK
    }

    // Gives a slot a rank and puts it in the queue, unless it has one.
    #[inline]
    fn enqueue(&mut self, queue: &mut Vec<Link, A>, at: Link, rank: u32) -> Result<(), AllocError> {
        if !self.lacks_rank(at) {
            return Ok(());
        }
        queue.push(at)?;
        self.ranks[at.number as usize] = rank;
        Ok(())
    }

    // Notes a slot, if that comes first somewhere.
    #[inline]
    fn note_first(&mut self, member: &Node, at: Link) {
        if !is_used(member) {
            return;
        }
        if member.previous.number != NO_SLOT {
            return;
        }
        if member.parent.number == NO_SLOT {
            self.top = at;
            return;
        }
        let parent = member.parent.number as usize;
        if parent >= self.firsts.len() {
            return;
        }
        self.firsts[parent] = at;
    }

    // Notes which members come first.
    #[inline]
    fn note_firsts(&mut self, nodes: &[Node]) {
        for number in 0..nodes.len() {
            let at = Link {
                number: number as u32,
            };
            let member = node(nodes, at);
            self.note_first(&member, at);
        }
    }

    // Gives ranks to what the slot at this place of the queue leads to.
    #[inline]
    fn look_at(
        &mut self,
        queue: &mut Vec<Link, A>,
        nodes: &[Node],
        place: usize,
    ) -> Result<(), AllocError> {
        let at = queue[place];
        let member = node(nodes, at);
        let rank = place as u32 + 1;
        self.enqueue(queue, member.next, rank)?;
        if !is_container(&member) {
            return Ok(());
        }
        let first = self.first(at);
        self.enqueue(queue, first, rank)?;
        Ok(())
    }

    // Gives each slot that is come to from the first one a rank: 0 the first one, and each other one 1 more than the place in the queue of
    // the slot that leads to it.
    #[inline]
    fn note_ranks(&mut self, queue: &mut Vec<Link, A>, nodes: &[Node]) -> Result<(), AllocError> {
        let top = self.top;
        self.enqueue(queue, top, 0)?;
        for place in 0..nodes.len() {
            if place >= queue.len() {
                return Ok(());
            }
            self.look_at(queue, nodes, place)?;
        }
        Ok(())
    }

    /// The order of these nodes.
    #[inline]
    pub(crate) fn of(alloc: A, nodes: &[Node]) -> Result<Order<A>, AllocError>
    where
        A: Copy,
    {
        let mut order = Order {
            top: Link::NONE,
            firsts: Vec::with_capacity(alloc, nodes.len())?,
            ranks: Vec::with_capacity(alloc, nodes.len())?,
        };
        order.firsts.resize(nodes.len(), Link::NONE)?;
        order.ranks.resize(nodes.len(), NO_RANK)?;
        let mut queue = Vec::with_capacity(alloc, nodes.len())?;
        order.note_firsts(nodes);
        order.note_ranks(&mut queue, nodes)?;
        Ok(order)
    }
}
