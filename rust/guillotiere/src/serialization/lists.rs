//! Lists whose items have a form of numbers, and sizes.
use crate::{size2, AtlasError, Size};
use alloc::vec::Vec;
use core::fmt;
use core::marker::PhantomData;
use serde::de::{Deserialize, Deserializer, Error as _, SeqAccess, Visitor};
use serde::ser::{Serialize, Serializer};

pub(super) type SizeForm = (i32, i32);

pub(super) fn size_form(size: &Size) -> SizeForm {
    (size.width, size.height)
}

pub(super) fn size_of((width, height): SizeForm) -> Size {
    size2(width, height)
}

// A list whose items are written in their form.
pub(super) struct Written<'a, T, F>(pub(super) &'a [T], pub(super) fn(&T) -> F);

impl<T, F: Serialize> Serialize for Written<'_, T, F> {
    fn serialize<S: Serializer>(&self, serializer: S) -> Result<S::Ok, S::Error> {
        serializer.collect_seq(self.0.iter().map(self.1))
    }
}

// What is read in a form.
pub(super) trait Formed {
    type Form;

    fn of(form: Self::Form) -> Self;
}

// A list that is read: what it says of its length isn't believed, and where memory is refused that is an error.
pub(super) struct List<T>(pub(super) Vec<T>);

struct ListVisitor<T>(PhantomData<T>);

impl<'de, T: Formed> Visitor<'de> for ListVisitor<T>
where
    T::Form: Deserialize<'de>,
{
    type Value = List<T>;

    fn expecting(&self, f: &mut fmt::Formatter<'_>) -> fmt::Result {
        f.write_str("a list")
    }

    fn visit_seq<A: SeqAccess<'de>>(self, mut input: A) -> Result<List<T>, A::Error> {
        let mut list = Vec::new();
        while let Some(form) = input.next_element()? {
            list.try_reserve(1)
                .map_err(|_| A::Error::custom(AtlasError::Memory))?;
            list.push(T::of(form));
        }
        Ok(List(list))
    }
}

impl<'de, T: Formed> Deserialize<'de> for List<T>
where
    T::Form: Deserialize<'de>,
{
    fn deserialize<D: Deserializer<'de>>(deserializer: D) -> Result<Self, D::Error> {
        deserializer.deserialize_seq(ListVisitor(PhantomData))
    }
}
