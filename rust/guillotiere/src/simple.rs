//! The simple allocator.
use crate::error::expected;
use crate::{
    convert, AllocatorOptions, AtlasAllocator, AtlasError, Rectangle, Size, SlotCount,
    DEFAULT_OPTIONS,
};
use core::fmt;
use wollemigo_core::guillotiere as library;
use wollemigo_core::guillotiere_total::simple as total;
use wollemigo_support::alloc::Global;

/// A simpler allocator, which hands out rectangles and takes none back.
///
/// ```
/// use guillotiere::{size2, AtlasAllocator, SimpleAtlasAllocator};
///
/// let mut atlas = AtlasAllocator::new(size2(100, 100));
/// atlas.allocate(size2(100, 60)).unwrap();
/// let mut simple = SimpleAtlasAllocator::new(size2(1, 1));
/// simple.init_from_allocator(&atlas);
/// assert!(simple.allocate(size2(100, 41)).is_none());
/// assert!(simple.allocate(size2(100, 40)).is_some());
/// ```
///
/// With the feature `serialization` an allocator is written as a struct of `size`, `options` and `free`, a list of its free rectangles as
/// `(min.x, min.y, max.x, max.y)`, whose order has no meaning. What is read is tested, and is an error unless they lie within, apart from
/// one another.
pub struct SimpleAtlasAllocator {
    simple: library::SimpleAtlasAllocator<Global>,
}

impl SimpleAtlasAllocator {
    /// An allocator of this size with `DEFAULT_OPTIONS`.
    ///
    /// # Panics
    ///
    /// If a side is below 1, or memory runs out.
    #[track_caller]
    #[must_use]
    pub fn new(size: Size) -> Self {
        expected(SimpleAtlasAllocator::try_new(size))
    }

    /// `new` with the error as a value.
    ///
    /// # Errors
    ///
    /// `EmptySize` if a side is below 1, `Memory` if memory is refused.
    pub fn try_new(size: Size) -> Result<Self, AtlasError> {
        SimpleAtlasAllocator::try_with_options(size, &DEFAULT_OPTIONS)
    }

    /// A simple allocator of this size with these options: one free rectangle.
    ///
    /// # Panics
    ///
    /// Where `new` does, and if a side of the alignment is below 1 or the small threshold is above the large one.
    #[track_caller]
    #[must_use]
    pub fn with_options(size: Size, options: &AllocatorOptions) -> Self {
        expected(SimpleAtlasAllocator::try_with_options(size, options))
    }

    /// `with_options` with the error as a value.
    ///
    /// # Errors
    ///
    /// Those of `try_new`; `Alignment` if a side of the alignment is below 1, `Thresholds` if the small threshold is above the
    /// large one.
    pub fn try_with_options(size: Size, options: &AllocatorOptions) -> Result<Self, AtlasError> {
        let options = convert::library_options(options);
        let simple = total::with_options(Global, convert::library_size(size), &options)?;
        Ok(SimpleAtlasAllocator { simple })
    }

    /// The allocator as plain data, for serde.
    #[cfg(feature = "serialization")]
    pub(crate) fn image(&self) -> Result<library::SimpleImage<Global>, AtlasError> {
        Ok(self.simple.image()?)
    }

    /// The allocator that data describe; None if they are those of none.
    #[cfg(feature = "serialization")]
    pub(crate) fn of_image(
        image: &library::SimpleImage<Global>,
    ) -> Result<Option<SimpleAtlasAllocator>, AtlasError> {
        let simple = library::SimpleAtlasAllocator::from_image(Global, image)?;
        Ok(simple.map(|simple| SimpleAtlasAllocator { simple }))
    }

    /// A copy that shares nothing with this one, and goes on by itself.
    ///
    /// ```
    /// use guillotiere::{size2, SimpleAtlasAllocator};
    ///
    /// let mut frame = SimpleAtlasAllocator::new(size2(256, 256));
    /// let _ = frame.allocate(size2(256, 40)); // what each frame has
    /// let mut this_frame = frame.try_clone()?;
    /// assert_eq!(this_frame.allocate(size2(60, 20)), frame.allocate(size2(60, 20)));
    /// # Ok::<(), guillotiere::AtlasError>(())
    /// ```
    ///
    /// # Errors
    ///
    /// `Memory` if memory is refused.
    pub fn try_clone(&self) -> Result<Self, AtlasError> {
        let simple = self.simple.clone()?;
        Ok(SimpleAtlasAllocator { simple })
    }

    /// The size of the allocator, in pixels.
    #[must_use]
    pub fn size(&self) -> Size {
        convert::size(self.simple.size())
    }

    /// The options of the allocator.
    #[must_use]
    pub fn options(&self) -> AllocatorOptions {
        convert::options(&self.simple.options())
    }

    /// How many entries are used, one for each free rectangle, how many there are, and how many there may be.
    #[must_use]
    pub fn slots(&self) -> SlotCount {
        convert::slots(self.simple.slots())
    }

    /// Whether one free rectangle has the allocator's size.
    #[must_use]
    pub fn is_empty(&self) -> bool {
        self.simple.is_empty()
    }

    /// Asks for a rectangle of this size. None if a side is below 1, or the size, rounded up to the alignment, fits no
    /// free rectangle.
    ///
    /// ```
    /// use guillotiere::{size2, SimpleAtlasAllocator};
    ///
    /// let mut frame = SimpleAtlasAllocator::new(size2(256, 256));
    /// while let Some(rectangle) = frame.allocate(size2(60, 20)) {
    ///     println!("draw into {:?}", rectangle);
    /// }
    /// frame.clear(); // the next frame begins
    /// ```
    ///
    /// # Panics
    ///
    /// If memory runs out.
    #[must_use = "the rectangle is taken until the allocator starts again"]
    #[track_caller]
    #[inline]
    pub fn allocate(&mut self, requested_size: Size) -> Option<Rectangle> {
        expected(self.try_allocate(requested_size))
    }

    /// `allocate` with the error as a value.
    ///
    /// # Errors
    ///
    /// `Memory` if memory is refused.
    #[inline]
    pub fn try_allocate(&mut self, requested_size: Size) -> Result<Option<Rectangle>, AtlasError> {
        let granted = self
            .simple
            .allocate(convert::library_size(requested_size))?;
        Ok(granted.as_ref().map(convert::rectangle))
    }

    /// Starts again at the present size and options. Takes no memory.
    pub fn clear(&mut self) {
        expected(self.simple.clear().map_err(AtlasError::from));
    }

    /// Starts again at this size and with these options. Takes no memory.
    ///
    /// # Panics
    ///
    /// If a side of the size or of the alignment is below 1, or the small threshold is above the large one.
    #[track_caller]
    pub fn reset(&mut self, size: Size, options: &AllocatorOptions) {
        expected(self.try_reset(size, options));
    }

    /// `reset` with the error as a value.
    ///
    /// # Errors
    ///
    /// `EmptySize` if a side is below 1, `Alignment` if one of the alignment is, `Thresholds` if the small threshold is above the large
    /// one.
    pub fn try_reset(&mut self, size: Size, options: &AllocatorOptions) -> Result<(), AtlasError> {
        let options = convert::library_options(options);
        Ok(total::reset(
            &mut self.simple,
            convert::library_size(size),
            &options,
        )?)
    }

    /// Makes the allocator larger.
    ///
    /// # Panics
    ///
    /// If a side shrinks, or memory runs out.
    #[track_caller]
    pub fn grow(&mut self, new_size: Size) {
        expected(self.try_grow(new_size));
    }

    /// `grow` with the error as a value.
    ///
    /// # Errors
    ///
    /// `Shrinks` if a side would be less than it is, `Memory` if memory is refused.
    pub fn try_grow(&mut self, new_size: Size) -> Result<(), AtlasError> {
        Ok(total::grow(
            &mut self.simple,
            convert::library_size(new_size),
        )?)
    }

    /// Whether `grow` may be called with this size: no side shrinks.
    #[must_use]
    pub fn can_grow_to(&self, new_size: Size) -> bool {
        self.simple.can_grow_to(convert::library_size(new_size))
    }

    /// Takes over an atlas's size, options and free rectangles, so that it never grants what is live there.
    ///
    /// # Panics
    ///
    /// If memory runs out.
    #[track_caller]
    pub fn init_from_allocator(&mut self, src: &AtlasAllocator) {
        expected(self.try_init_from_allocator(src));
    }

    /// `init_from_allocator` with the error as a value.
    ///
    /// # Errors
    ///
    /// `Memory` if memory is refused.
    pub fn try_init_from_allocator(&mut self, src: &AtlasAllocator) -> Result<(), AtlasError> {
        Ok(self.simple.init_from_allocator(src.library())?)
    }
}

impl Clone for SimpleAtlasAllocator {
    #[track_caller]
    fn clone(&self) -> Self {
        expected(self.try_clone())
    }
}

impl fmt::Debug for SimpleAtlasAllocator {
    fn fmt(&self, f: &mut fmt::Formatter<'_>) -> fmt::Result {
        f.debug_struct("SimpleAtlasAllocator")
            .field("size", &self.size())
            .field("options", &self.options())
            .field("slots", &self.slots())
            .finish_non_exhaustive()
    }
}
