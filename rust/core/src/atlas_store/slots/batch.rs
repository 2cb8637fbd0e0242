// Erased from crates/atlas_store/src/slots/batch.rt by rust/erase: don't edit.
//! A test of a list of ids, in time proportional to its length and without memory: the slots that the ids name are
//! hidden one after another, so that an id that is there twice names none the second time, and shown again.

use crate::atlas_model::AllocId;
use crate::atlas_search::link::Link;
use crate::atlas_store::slots::walks::{named_slot, slot_number};
use crate::atlas_store::slots::{set_kind, NodeKind, Slot};

// Hides the slots of ids, up to the first id that names none. The answer is how many were hidden.
#[inline]
fn hide(slots: &mut [Slot], ids: &[AllocId]) -> usize {
    for (count, id) in ids.iter().enumerate() {
        match named_slot(slots, *id) {
            Some(at) => set_kind(slots, Link { number: at as u32 }, NodeKind::Unused),
            None => return count,
        }
    }
    ids.len()
}

// Shows the slots of ids that were hidden, the last first.
#[inline]
fn show(slots: &mut [Slot], ids: &[AllocId]) {
    let mut left = ids.len();
    while left > 0 {
        left -= 1;
        let number = slot_number(ids[left]);
        set_kind(slots, Link { number }, NodeKind::Alloc);
    }
}

/// Whether each of these ids names an allocated slot, and none is there twice.
#[inline]
pub fn are_named_once(slots: &mut [Slot], ids: &[AllocId]) -> bool {
    let count = hide(slots, ids);
    show(slots, &ids[..count]);
    count == ids.len()
}
