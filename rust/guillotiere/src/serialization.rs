//! serde of ids, options and kinds of slots, in the form that the crate `guillotiere` gives them: an id is a number, options are a
//! struct of three fields, and their alignment a pair; a kind is a variant. What is read is data alone: whether an id is live and whether
//! options are valid is tested by the call that takes them. Recordings have a form that `recording` describes, and allocators that of
//! `atlases`: what is read of them is tested before there is an allocator.
use crate::{size2, AllocId, AllocatorOptions, NodeKind};
use core::fmt;
use core::marker::PhantomData;
use serde::de::{
    Deserialize, DeserializeSeed, Deserializer, EnumAccess, Error, IgnoredAny, MapAccess,
    SeqAccess, VariantAccess, Visitor,
};
use serde::ser::{Serialize, SerializeStruct, Serializer};

mod atlases;
mod lists;
#[cfg(feature = "recording")]
mod recordings;

impl Serialize for AllocId {
    fn serialize<S: Serializer>(&self, serializer: S) -> Result<S::Ok, S::Error> {
        serializer.serialize_newtype_struct("AllocId", &self.0)
    }
}

struct IdVisitor;

impl<'de> Visitor<'de> for IdVisitor {
    type Value = AllocId;

    fn expecting(&self, f: &mut fmt::Formatter<'_>) -> fmt::Result {
        f.write_str("the number of an id")
    }

    fn visit_newtype_struct<D: Deserializer<'de>>(self, input: D) -> Result<AllocId, D::Error> {
        u32::deserialize(input).map(AllocId)
    }

    fn visit_seq<A: SeqAccess<'de>>(self, mut input: A) -> Result<AllocId, A::Error> {
        let id = input.next_element()?;
        id.map(AllocId)
            .ok_or_else(|| A::Error::invalid_length(0, &self))
    }
}

impl<'de> Deserialize<'de> for AllocId {
    fn deserialize<D: Deserializer<'de>>(deserializer: D) -> Result<Self, D::Error> {
        deserializer.deserialize_newtype_struct("AllocId", IdVisitor)
    }
}

// Which of these names: its number among them, or how many there are for any other.
struct Among(&'static [&'static str]);

impl<'de> Visitor<'de> for Among {
    type Value = usize;

    fn expecting(&self, f: &mut fmt::Formatter<'_>) -> fmt::Result {
        f.write_str("the name of a field or of a variant")
    }

    fn visit_u64<E: Error>(self, number: u64) -> Result<usize, E> {
        let found = (0..self.0.len()).find(|at| *at as u64 == number);
        Ok(found.unwrap_or(self.0.len()))
    }

    fn visit_str<E: Error>(self, name: &str) -> Result<usize, E> {
        self.visit_bytes(name.as_bytes())
    }

    fn visit_bytes<E: Error>(self, name: &[u8]) -> Result<usize, E> {
        let found = self.0.iter().position(|known| known.as_bytes() == name);
        Ok(found.unwrap_or(self.0.len()))
    }
}

impl<'de> DeserializeSeed<'de> for Among {
    type Value = usize;

    fn deserialize<D: Deserializer<'de>>(self, deserializer: D) -> Result<usize, D::Error> {
        deserializer.deserialize_identifier(self)
    }
}

const KINDS: &[&str] = &["Container", "Alloc", "Free", "Unused"];

impl Serialize for NodeKind {
    fn serialize<S: Serializer>(&self, serializer: S) -> Result<S::Ok, S::Error> {
        let number = match self {
            NodeKind::Container => 0,
            NodeKind::Alloc => 1,
            NodeKind::Free => 2,
            NodeKind::Unused => 3,
        };
        serializer.serialize_unit_variant("NodeKind", number, KINDS[number as usize])
    }
}

struct KindVisitor;

impl<'de> Visitor<'de> for KindVisitor {
    type Value = NodeKind;

    fn expecting(&self, f: &mut fmt::Formatter<'_>) -> fmt::Result {
        f.write_str("what a slot is used for")
    }

    fn visit_enum<A: EnumAccess<'de>>(self, input: A) -> Result<NodeKind, A::Error> {
        let (number, variant) = input.variant_seed(Among(KINDS))?;
        variant.unit_variant()?;
        Ok(match number {
            0 => NodeKind::Container,
            1 => NodeKind::Alloc,
            2 => NodeKind::Free,
            3 => NodeKind::Unused,
            _ => return Err(A::Error::custom("there is no such use of a slot")),
        })
    }
}

impl<'de> Deserialize<'de> for NodeKind {
    fn deserialize<D: Deserializer<'de>>(deserializer: D) -> Result<Self, D::Error> {
        deserializer.deserialize_enum("NodeKind", KINDS, KindVisitor)
    }
}

// A struct of three fields: in any order by their names, where others are passed over, or in this order without names.
struct Fields<T, U, V> {
    what: &'static str,
    names: &'static [&'static str],
    values: PhantomData<(T, U, V)>,
}

fn fields<T, U, V>(what: &'static str, names: &'static [&'static str]) -> Fields<T, U, V> {
    Fields {
        what,
        names,
        values: PhantomData,
    }
}

// A field that comes for the first time.
fn first<'de, T: Deserialize<'de>, A: MapAccess<'de>>(
    field: &mut Option<T>,
    name: &'static str,
    input: &mut A,
) -> Result<(), A::Error> {
    if field.is_some() {
        return Err(A::Error::duplicate_field(name));
    }
    *field = Some(input.next_value()?);
    Ok(())
}

impl<'de, T, U, V> Visitor<'de> for Fields<T, U, V>
where
    T: Deserialize<'de>,
    U: Deserialize<'de>,
    V: Deserialize<'de>,
{
    type Value = (T, U, V);

    fn expecting(&self, f: &mut fmt::Formatter<'_>) -> fmt::Result {
        f.write_str(self.what)
    }

    fn visit_seq<A: SeqAccess<'de>>(self, mut input: A) -> Result<(T, U, V), A::Error> {
        let short = |count| A::Error::invalid_length(count, &self.what);
        let one = input.next_element()?.ok_or_else(|| short(0))?;
        let other = input.next_element()?.ok_or_else(|| short(1))?;
        let last = input.next_element()?.ok_or_else(|| short(2))?;
        Ok((one, other, last))
    }

    fn visit_map<A: MapAccess<'de>>(self, mut input: A) -> Result<(T, U, V), A::Error> {
        let (mut one, mut other, mut last) = (None, None, None);
        while let Some(number) = input.next_key_seed(Among(self.names))? {
            match number {
                0 => first(&mut one, self.names[0], &mut input)?,
                1 => first(&mut other, self.names[1], &mut input)?,
                2 => first(&mut last, self.names[2], &mut input)?,
                _ => {
                    input.next_value::<IgnoredAny>()?;
                }
            }
        }
        let missing = |number: usize| A::Error::missing_field(self.names[number]);
        let one = one.ok_or_else(|| missing(0))?;
        let other = other.ok_or_else(|| missing(1))?;
        let last = last.ok_or_else(|| missing(2))?;
        Ok((one, other, last))
    }
}

const FIELDS: &[&str] = &["alignment", "small_size_threshold", "large_size_threshold"];

impl Serialize for AllocatorOptions {
    fn serialize<S: Serializer>(&self, serializer: S) -> Result<S::Ok, S::Error> {
        let alignment = (self.alignment.width, self.alignment.height);
        let mut fields = serializer.serialize_struct("AllocatorOptions", FIELDS.len())?;
        fields.serialize_field(FIELDS[0], &alignment)?;
        fields.serialize_field(FIELDS[1], &self.small_size_threshold)?;
        fields.serialize_field(FIELDS[2], &self.large_size_threshold)?;
        fields.end()
    }
}

impl<'de> Deserialize<'de> for AllocatorOptions {
    fn deserialize<D: Deserializer<'de>>(deserializer: D) -> Result<Self, D::Error> {
        let visitor = fields("the options of an allocator", FIELDS);
        let (alignment, small, large): ((i32, i32), i32, i32) =
            deserializer.deserialize_struct("AllocatorOptions", FIELDS, visitor)?;
        Ok(AllocatorOptions {
            alignment: size2(alignment.0, alignment.1),
            small_size_threshold: small,
            large_size_threshold: large,
        })
    }
}
