// Erased from crates/atlas_store/src/slots/entry.rt by rust/erase: don't edit.
//! A slot as an entry of a list.
use crate::atlas_model::Rectangle;
use crate::atlas_search::heap::Linked;
use crate::atlas_search::link::Link;
use crate::atlas_search::search::Entry;
use crate::atlas_store::slots::Slot;

impl Entry for Slot {
    #[inline]
    fn rectangle(&self) -> Rectangle {
        self.area
    }

    #[inline]
    fn up(&self) -> Link {
        self.up
    }

    #[inline]
    fn left(&self) -> Link {
        self.left
    }

    #[inline]
    fn right(&self) -> Link {
        self.right
    }

    #[inline]
    fn is_fork(&self) -> bool {
        self.is_fork
    }
}

impl Linked for Slot {
    #[inline]
    fn set_links(&mut self, up: Link, left: Link, right: Link) {
        self.up = up;
        self.left = left;
        self.right = right;
    }

    #[inline]
    fn set_fork(&mut self, is_fork: bool) {
        self.is_fork = is_fork;
    }
}
