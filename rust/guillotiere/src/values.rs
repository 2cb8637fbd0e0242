//! The crate's values. Lengths are in pixels.
use alloc::vec::Vec;
use core::marker::PhantomData;

/// A point, in pixels; y grows downwards.
pub type Point = euclid::default::Point2D<i32>;
/// The size of a request, of a rectangle or of an atlas, in pixels.
pub type Size = euclid::default::Size2D<i32>;
/// The unit squares from `min` up to, but not including, `max`.
pub type Rectangle = euclid::default::Box2D<i32>;

/// The greatest limit on the slots of an atlas, and that of an atlas without a limit of its own.
pub const MOST_SLOTS: u32 = wollemigo_core::guillotiere::MOST_SLOTS;

/// The id of an allocated rectangle. One that was freed may be issued again, for another rectangle. Ids are ordered by their numbers,
/// which tells nothing of the rectangles.
///
/// ```
/// use guillotiere::{size2, AllocId, AtlasAllocator};
///
/// let mut atlas = AtlasAllocator::new(size2(64, 64));
/// let id = atlas.allocate(size2(20, 60)).unwrap().id;
/// let number = id.serialize(); // for a table of one's own
/// assert_eq!(AllocId::deserialize(number), id);
/// ```
#[repr(C)]
#[derive(Copy, Clone, Debug, PartialEq, Eq, PartialOrd, Ord, Hash)]
pub struct AllocId(pub(crate) u32);

impl AllocId {
    /// The number of the id.
    #[inline]
    #[must_use]
    pub fn serialize(&self) -> u32 {
        self.0
    }

    /// The id of a number. Every number is accepted; whether the id is live is for the atlas to say.
    #[inline]
    #[must_use]
    pub fn deserialize(bytes: u32) -> Self {
        AllocId(bytes)
    }
}

/// What a slot of an atlas is used for. No call here takes or gives one: it is for programs that name the type of the crate `guillotiere`.
///
/// ```
/// use guillotiere::NodeKind;
///
/// assert_eq!(format!("{:?}", NodeKind::Free), "Free");
/// ```
#[derive(Copy, Clone, Debug, PartialEq, Eq, Hash)]
pub enum NodeKind {
    /// A sequence of other slots.
    Container,
    /// An allocated rectangle.
    Alloc,
    /// A free rectangle.
    Free,
    /// Nothing: the slot may be taken.
    Unused,
}

/// How an allocator rounds requests and distinguishes small, medium and large ones. These are all fields: a program may write them out.
///
/// ```
/// use guillotiere::{size2, AllocatorOptions, AtlasAllocator, DEFAULT_OPTIONS};
///
/// let options = AllocatorOptions { alignment: size2(16, 8), ..DEFAULT_OPTIONS };
/// let mut atlas = AtlasAllocator::with_options(size2(128, 128), &options);
/// let glyph = atlas.allocate(size2(17, 7)).unwrap();
/// assert_eq!(glyph.rectangle.size(), size2(32, 8));
/// ```
#[repr(C)]
#[derive(Copy, Clone, Debug, PartialEq, Eq, Hash)]
pub struct AllocatorOptions {
    /// Sides of requests are rounded up to multiples of these; both are above 0. By default (1, 1).
    pub alignment: Size,
    /// A size is small if both its sides are below this; at most `large_size_threshold`. By default 32.
    pub small_size_threshold: i32,
    /// A size is large if one of its sides is at least this. By default 256.
    pub large_size_threshold: i32,
}

/// Alignment (1, 1), thresholds 32 and 256.
pub const DEFAULT_OPTIONS: AllocatorOptions = AllocatorOptions {
    // By its fields: in euclid 0.20, which stands in for 0.22 where that is missing, `size2` is no `const fn`.
    alignment: Size {
        width: 1,
        height: 1,
        _unit: PhantomData,
    },
    small_size_threshold: 32,
    large_size_threshold: 256,
};

impl Default for AllocatorOptions {
    fn default() -> Self {
        DEFAULT_OPTIONS
    }
}

/// An allocated rectangle and its id.
///
/// ```
/// use guillotiere::{point2, size2, Allocation, AtlasAllocator};
///
/// let mut atlas = AtlasAllocator::new(size2(64, 64));
/// let Allocation { id, rectangle } = atlas.allocate(size2(20, 60)).unwrap();
/// assert_eq!((rectangle.min, rectangle.max), (point2(0, 0), point2(20, 60)));
/// atlas.deallocate(id);
/// ```
#[repr(C)]
#[derive(Copy, Clone, Debug, PartialEq, Eq, Hash)]
pub struct Allocation {
    /// The id by which it is freed.
    pub id: AllocId,
    /// Its place in the atlas, in pixels.
    pub rectangle: Rectangle,
}

/// A rectangle that was placed anew: under its former id, and under the id that it has now. [`ChangeList`] shows how it is followed.
///
/// ```
/// use guillotiere::{size2, AtlasAllocator};
///
/// let mut atlas = AtlasAllocator::new(size2(64, 64));
/// let small = atlas.allocate(size2(10, 10)).unwrap();
/// let change = atlas.rearrange().changes[0];
/// assert_eq!(change.old, small);
/// assert_eq!(atlas[change.new.id], change.new.rectangle);
/// ```
#[repr(C)]
#[derive(Copy, Clone, Debug, PartialEq, Eq, Hash)]
pub struct Change {
    /// What it was; this id is void.
    pub old: Allocation,
    /// What it is now.
    pub new: Allocation,
}

/// What a rearrangement placed anew, and what found no room and is no longer live.
///
/// ```
/// use guillotiere::{size2, AtlasAllocator};
/// use std::collections::HashMap;
///
/// let mut atlas = AtlasAllocator::new(size2(64, 64));
/// let mut names = HashMap::new(); // what a program keeps by ids
/// names.insert(atlas.allocate(size2(60, 30)).unwrap().id, "wide");
/// names.insert(atlas.allocate(size2(10, 10)).unwrap().id, "small");
///
/// let list = atlas.resize_and_rearrange(size2(60, 32));
/// let mut after = HashMap::new();
/// for change in &list.changes {
///     println!("copy {:?} to {:?}", change.old.rectangle, change.new.rectangle);
///     after.insert(change.new.id, names[&change.old.id]);
/// }
/// let gone: Vec<&str> = list.failures.iter().map(|failure| names[&failure.id]).collect();
/// assert_eq!((after.len(), gone), (1, vec!["small"]));
/// ```
#[must_use = "what isn't followed is lost: former ids are void, and failures have no place"]
#[derive(Clone, Debug, Default, PartialEq, Eq, Hash)]
pub struct ChangeList {
    /// What was placed anew, in the order in which it was.
    pub changes: Vec<Change>,
    /// What found no room, as it was before.
    pub failures: Vec<Allocation>,
}

impl ChangeList {
    /// Two empty lists.
    pub fn empty() -> Self {
        ChangeList::default()
    }
}

/// How many slots an atlas uses, the most that it used at once since its last start, and how many it may use. Of a
/// simple allocator: its entries, one for each free rectangle, how many there are, used and unused, and how many there
/// may be.
///
/// ```
/// use guillotiere::{size2, AtlasAllocator, MOST_SLOTS};
///
/// let atlas = AtlasAllocator::new(size2(64, 64));
/// let slots = atlas.slots();
/// assert_eq!((slots.used, slots.kept, slots.limit), (1, 1, MOST_SLOTS)); // one free rectangle
/// ```
#[derive(Copy, Clone, Debug, PartialEq, Eq, Hash)]
pub struct SlotCount {
    /// How many are used.
    pub used: u32,
    /// How many there are.
    pub kept: u32,
    /// How many may be used.
    pub limit: u32,
}

/// The areas of all live and of all free rectangles of an atlas, in unit squares: together its own.
///
/// ```
/// use guillotiere::{size2, AtlasAllocator};
///
/// let mut atlas = AtlasAllocator::new(size2(64, 64));
/// let _ = atlas.allocate(size2(20, 60));
/// let areas = atlas.areas();
/// assert_eq!((areas.allocated, areas.free), (20 * 60, 64 * 64 - 20 * 60));
/// ```
#[derive(Copy, Clone, Debug, PartialEq, Eq, Hash)]
pub struct Areas {
    /// That of all live rectangles.
    pub allocated: u64,
    /// That of all free rectangles.
    pub free: u64,
}
