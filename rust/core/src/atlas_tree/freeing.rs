// Erased from crates/atlas_tree/src/freeing.rt by rust/erase: don't edit.
//! Freeing a leaf of the tree of slots, by the calls of `store`.

use crate::atlas_search::link::{Link, NO_SLOT};
use crate::atlas_store::store::Store;
use wollemigo_support::alloc::Allocator;

/// The detached leaf of a slot takes in the next leaf, if that is free, and says whether.
#[inline]
fn join_next<A: Allocator>(store: &mut Store<A>, at: Link) -> bool {
    let next = store.node(at).next;
    if store.is_free(next) {
        store.unlist(next);
        store.join(at);
        return true;
    }
    false
}

/// The previous leaf, if that is free, takes in the detached leaf of a slot. The answer is its slot, or none.
#[inline]
fn join_previous<A: Allocator>(store: &mut Store<A>, at: Link) -> Option<Link> {
    let previous = store.node(at).previous;
    if store.is_free(previous) {
        store.unlist(previous);
        store.join(previous);
        return Some(previous);
    }
    None
}

/// The detached leaf of a slot joins its free neighbours. The answer is the slot that is detached then, and so many
/// slots more as were given back.
#[inline]
fn join_neighbours<A: Allocator>(store: &mut Store<A>, at: Link, given: u32) -> (Link, u32) {
    let mut all = given;
    if join_next(store, at) {
        all += 1;
    }
    if let Some(previous) = join_previous(store, at) {
        return (previous, all + 1);
    }
    (at, all)
}

/// The detached leaf of a slot takes the place of the container that it is alone in. The answer is the container's
/// slot, or none where all is settled.
#[inline]
fn lift_lone<A: Allocator>(store: &mut Store<A>, at: Link) -> Option<Link> {
    let node = store.node(at);
    if node.previous.number == NO_SLOT
        && node.next.number == NO_SLOT
        && node.parent.number != NO_SLOT
    {
        return Some(store.lift(at));
    }
    None
}

/// Frees the granted leaf of a slot: it joins its free neighbours and rises while it is alone. The answer is how many
/// slots were given back. Takes no memory; each marking, join and lift is one turn.
#[inline]
pub fn free_leaf<A: Allocator>(store: &mut Store<A>, slot: Link) -> u32 {
    store.mark(slot);
    let mut at = slot;
    let mut given = 0;
    loop {
        (at, given) = join_neighbours(store, at, given);
        let container = match lift_lone(store, at) {
            Some(container) => container,
            _ => {
                break;
            }
        };
        at = container;
        given += 1;
    }
    store.list(at);
    given
}
