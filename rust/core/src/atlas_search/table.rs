// Erased from crates/atlas_search/src/table.rt by rust/erase: don't edit.
//! The table of the lists of free slots: the first slot of each, and marks of those that have a slot and of the one that
//! was emptied last.

use crate::atlas_search::bands::{Place, BANDS};
use crate::atlas_search::link::{Link, NO_SLOT};
use crate::atlas_search::marks::Marks;
use crate::atlas_search::masks::Mask;
use wollemigo_support::alloc::{AllocError, Allocator};
use wollemigo_support::prelude::Vec;

/// How many lists of free slots there are.
pub const LISTS: usize = 2704;

/// How many slots a table has room for before it has grown.
pub const FEW: usize = 8;

// In the place of a list: none.
const NO_LIST: u16 = 2704;

// The first slot of a list, or none, where these are the lists that the first few slots come first in.
#[cold]
#[inline(never)]
fn head_in(only: &[u16; FEW], number: usize) -> Link {
    for i in 0..FEW {
        if only[i] as usize == number {
            return Link { number: i as u32 };
        }
    }
    Link::NONE
}

// A list begins with this slot, one of the first few, or with none, from now on.
#[cold]
#[inline(never)]
fn set_head_in(only: &mut [u16; FEW], number: usize, first: Link) {
    for i in 0..FEW {
        if i == first.number as usize {
            only[i] = number as u16;
        } else if only[i] as usize == number {
            only[i] = NO_LIST;
        }
    }
}

// Writes the heads of the first few slots over those of empty lists, and marks them.
#[inline]
fn write_heads<A: Allocator>(heads: &mut Vec<Link, A>, marks: &mut Marks, only: &[u16; FEW]) {
    let mut i = FEW;
    while i > 0 {
        i -= 1;
        let list = only[i] as usize;
        if list < LISTS {
            heads[list] = Link { number: i as u32 };
            marks.mark(Place {
                row: list / BANDS,
                column: list % BANDS,
            });
        }
    }
}

// Stores the heads and marks of the first few slots, where none are stored.
#[cold]
#[inline(never)]
fn store<A: Allocator>(
    heads: &mut Vec<Link, A>,
    marks: &mut Vec<Marks, A>,
    only: &[u16; FEW],
) -> Result<(), AllocError> {
    marks.reserve_exact(1)?;
    heads.resize(LISTS, Link::NONE)?;
    let mut own = Marks::none();
    write_heads(heads, &mut own, only);
    marks.push_reserved(own);
    Ok(())
}

// A copy of the marks that are stored, which are one table's at most.
#[inline]
fn copy_marks<A: Allocator + Copy>(marks: &Vec<Marks, A>) -> Result<Vec<Marks, A>, AllocError> {
    let mut copy = Vec::with_capacity(*marks.allocator(), marks.len())?;
    if !marks.is_empty() {
        copy.push_reserved(marks[0].copy());
    }
    Ok(copy)
}

// The lists of a row are empty in these columns from now on.
#[inline]
fn blank_row(heads: &mut [Link], row: usize, columns: Mask) {
    let mut left = columns;
    while let Some(column) = left.take_first() {
        heads[BANDS * row + column] = Link::NONE;
    }
}

// All lists are empty from now on, of which only marked ones may have a slot.
#[inline]
fn blank_marked(heads: &mut [Link], marks: &Marks) {
    let mut left = marks.used();
    while let Some(row) = left.take_first() {
        blank_row(heads, row, marks.row(row));
    }
}

// A slot comes first in a list, where heads are stored.
#[inline(always)]
fn raise_in<A: Allocator>(
    heads: &mut Vec<Link, A>,
    marks: &mut Vec<Marks, A>,
    emptied: usize,
    at: Place,
    first: Link,
) {
    let list = BANDS * at.row + at.column;
    let before = heads[list];
    heads[list] = first;
    if before.number == NO_SLOT && emptied != list {
        marks[0].mark(at);
    }
}

// Another slot, or none, comes first in a list that has a slot, where heads are stored.
#[inline(always)]
fn set_first_in<A: Allocator>(
    heads: &mut Vec<Link, A>,
    marks: &mut Vec<Marks, A>,
    emptied: &mut usize,
    number: usize,
    first: Link,
) {
    heads[number] = first;
    if first.number != NO_SLOT {
        return;
    }
    if *emptied != number {
        let before = *emptied;
        *emptied = number;
        if before < LISTS && heads[before].number == NO_SLOT {
            marks[0].unmark(Place {
                row: before / BANDS,
                column: before % BANDS,
            });
        }
    }
}

/// The heads of all lists, and their marks. A new table takes no memory and has room for the first eight slots; `grow` takes 10,816
/// bytes and 840, and then there is room for all. Contracts see the heads, and whether the table has grown.
///
/// The list that was emptied last is often the next that gets a slot: so it stays marked until another list is emptied,
/// and a mark says only that a list may have a slot.
pub struct Table<A: Allocator> {
    // The first slot of each list, or nothing before the table has grown.
    heads: Vec<Link, A>,
    // The marks, or nothing before the table has grown.
    marks: Vec<Marks, A>,
    // Until then the list that each of the first few slots comes first in; NO_LIST if it does in none.
    only: [u16; FEW],
    // The list that was emptied last, whose mark is kept; LISTS if none was.
    emptied: usize,
}

impl<A: Allocator> Table<A> {
    /// A table of empty lists, with room for the first eight slots. Takes no memory.
    #[inline]
    #[must_use]
    pub fn new(alloc: A) -> Table<A>
    where
        A: Copy,
    {
        Table {
            heads: Vec::new(alloc),
            marks: Vec::new(alloc),
            only: [NO_LIST; FEW],
            emptied: LISTS,
        }
    }

    /// A copy, in new memory of the same allocator, which takes as much as the table has.
    #[inline]
    pub fn copy(&self) -> Result<Table<A>, AllocError>
    where
        A: Copy,
    {
        Ok(Table {
            heads: Vec::from_slice(*self.heads.allocator(), &self.heads)?,
            marks: copy_marks(&self.marks)?,
            only: self.only,
            emptied: self.emptied,
        })
    }

    /// Whether there is room for all slots. Before that only the first eight come first in lists.
    #[inline]
    #[must_use]
    pub fn is_grown(&self) -> bool {
        !self.heads.is_empty()
    }

    /// Makes room for all slots. The heads stay.
    #[inline]
    pub fn grow(&mut self) -> Result<(), AllocError> {
        if self.heads.is_empty() {
            store(&mut self.heads, &mut self.marks, &self.only)?;
            self.emptied = LISTS;
        }
        Ok(())
    }

    /// Each list is empty from now on. Writes the heads of marked lists alone.
    #[inline]
    pub fn clear(&mut self) {
        if self.marks.is_empty() {
            self.only = [NO_LIST; FEW];
            return;
        }
        blank_marked(&mut self.heads, &self.marks[0]);
        self.marks[0] = Marks::none();
        self.emptied = LISTS;
    }

    /// The first slot of a list, or none.
    #[inline(always)]
    #[must_use]
    pub fn head(&self, at: Place) -> Link {
        self.first(BANDS * at.row + at.column)
    }

    /// The first slot of the list of this number, or none.
    #[inline(always)]
    #[must_use]
    pub fn first(&self, number: usize) -> Link {
        if number < self.heads.len() {
            self.heads[number]
        } else {
            head_in(&self.only, number)
        }
    }

    /// The first slot of a list, or none, in a table that has grown.
    #[inline]
    #[must_use]
    pub fn stored_head(&self, at: Place) -> Link {
        self.heads[BANDS * at.row + at.column]
    }

    /// The list that one of the first few slots comes first in, in a table that hasn't grown; LISTS or more if it does in none.
    #[inline]
    #[must_use]
    pub fn list_of_few(&self, i: usize) -> usize {
        self.only[i] as usize
    }

    /// A slot comes first in a list. In a table that hasn't grown it is one of the first eight, and comes first in no other list.
    #[inline(always)]
    pub fn raise(&mut self, at: Place, first: Link) {
        let list = BANDS * at.row + at.column;
        if list < self.heads.len() {
            raise_in(&mut self.heads, &mut self.marks, self.emptied, at, first);
        } else {
            set_head_in(&mut self.only, list, first);
        }
    }

    /// Another slot, or none, comes first in the list of this number, which has a slot. In a table that hasn't grown it is
    /// one of the first eight, and comes first in no other list, or it is none.
    #[inline(always)]
    pub fn set_first(&mut self, number: usize, first: Link) {
        if number < self.heads.len() {
            set_first_in(
                &mut self.heads,
                &mut self.marks,
                &mut self.emptied,
                number,
                first,
            );
        } else {
            set_head_in(&mut self.only, number, first);
        }
    }

    /// The columns of a row with lists that may have a slot: each that has one. In a table that hasn't grown, none.
    #[inline]
    #[must_use]
    pub fn row(&self, i: usize) -> Mask {
        if self.marks.is_empty() {
            return Mask::none();
        }
        self.marks[0].row(i)
    }

    /// The rows of a column with lists that may have a slot: each that has one. In a table that hasn't grown, none.
    #[inline]
    #[must_use]
    pub fn column(&self, j: usize) -> Mask {
        if self.marks.is_empty() {
            return Mask::none();
        }
        self.marks[0].column(j)
    }

    /// The rows with a list that may have a slot: each with one that has. In a table that hasn't grown, none.
    #[inline]
    #[must_use]
    pub fn used(&self) -> Mask {
        if self.marks.is_empty() {
            return Mask::none();
        }
        self.marks[0].used()
    }
}
