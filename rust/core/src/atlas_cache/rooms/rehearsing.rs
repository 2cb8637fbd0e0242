// Erased from crates/atlas_cache/src/rooms/rehearsing.rt by rust/erase: don't edit.
//! A rehearsal: which box of a page would be free, were some of its rectangles freed.

use crate::atlas_cache::rooms::Rooms;
use crate::guillotiere::{AllocId, Rectangle, Size};
use wollemigo_support::alloc::{AllocError, Allocator};
use wollemigo_support::prelude::Vec;

impl<A: Allocator + Copy> Rooms<A> {
    /// Begins a rehearsal on a page: no rectangle is shown as freed. An error: memory for the marks is refused, one for each slot of it.
    #[inline]
    pub(crate) fn show_none(&self, page: u32, marks: &mut Vec<bool, A>) -> Result<(), AllocError> {
        let atlas = &self.pages[page as usize];
        let slots = atlas.slots().kept as usize;
        marks.clear();
        marks.resize(slots, false)?;
        Ok(())
    }

    // There are marks for each page, be they none.
    #[inline]
    fn add_marks(&self, marks: &mut Vec<Vec<bool, A>, A>) -> Result<(), AllocError> {
        for _page in marks.len()..self.pages.len() {
            marks.push(Vec::new(*marks.allocator()))?;
        }
        Ok(())
    }

    /// Nothing is shown on any page, each of which has marks of its own.
    #[inline]
    pub(crate) fn show_none_on_all(
        &self,
        marks: &mut Vec<Vec<bool, A>, A>,
    ) -> Result<(), AllocError> {
        self.add_marks(marks)?;
        for page in 0..self.len() {
            self.show_none(page, &mut marks[page as usize])?;
        }
        Ok(())
    }

    /// Takes memory for the marks of each page, where it uses so many more slots. An error is a refusal of it.
    #[inline]
    pub(crate) fn reserve_marks(
        &self,
        additional: u32,
        marks: &mut Vec<Vec<bool, A>, A>,
    ) -> Result<(), AllocError> {
        self.add_marks(marks)?;
        for page in 0..self.pages.len() {
            let own = &mut marks[page];
            own.clear();
            own.reserve(self.pages[page].slots().kept as usize + additional as usize)?;
        }
        Ok(())
    }

    /// Shows the rectangle of an id of a page as freed, with those that are shown already. The free box that there would be around it, if
    /// a request fits that. Nothing changes on the page.
    #[inline]
    pub(crate) fn rehearse(
        &self,
        page: u32,
        marks: &mut [bool],
        id: AllocId,
        asked: Size,
    ) -> Option<Rectangle> {
        let atlas = &self.pages[page as usize];
        let area = atlas.rehearse(marks, id);
        if atlas.fits(asked, &area) {
            return Some(area);
        }
        None
    }
}
