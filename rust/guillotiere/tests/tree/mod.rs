//! A format for tests: values as trees. A struct is a map of its fields, a variant a map of one, a list or a tuple a list; a bool
//! is 0 or 1.
//! A reader takes a list in place of a map too, and a variant as its number and its value.
use guillotiere::serde;
use serde::de::{self, value::MapDeserializer, value::SeqDeserializer};
use serde::de::{DeserializeSeed, Deserializer, EnumAccess, IntoDeserializer, Visitor};
use serde::ser::{self, Impossible, Serialize, Serializer};
use std::fmt;

#[derive(Clone, Debug, PartialEq)]
pub enum Tree {
    Nothing,
    Number(i64),
    List(Vec<Tree>),
    Map(Vec<(&'static str, Tree)>),
}

#[derive(Debug, PartialEq)]
pub struct Fault(pub String);

impl fmt::Display for Fault {
    fn fmt(&self, f: &mut fmt::Formatter<'_>) -> fmt::Result {
        f.write_str(&self.0)
    }
}

impl std::error::Error for Fault {}

impl ser::Error for Fault {
    fn custom<T: fmt::Display>(text: T) -> Self {
        Fault(text.to_string())
    }
}

impl de::Error for Fault {
    fn custom<T: fmt::Display>(text: T) -> Self {
        Fault(text.to_string())
    }
}

pub fn written(value: &impl Serialize) -> Tree {
    value.serialize(Writer).unwrap()
}

pub struct Writer;

macro_rules! refused {
    ($($name:ident($($given:ty),*) -> $answer:ty;)*) => {
        $(fn $name(self $(, _: $given)*) -> Result<$answer, Fault> {
            Err(Fault(stringify!($name).into()))
        })*
    };
}

impl Serializer for Writer {
    type Ok = Tree;
    type Error = Fault;
    type SerializeSeq = Items;
    type SerializeTuple = Items;
    type SerializeTupleStruct = Impossible<Tree, Fault>;
    type SerializeTupleVariant = Impossible<Tree, Fault>;
    type SerializeMap = Impossible<Tree, Fault>;
    type SerializeStruct = Fields;
    type SerializeStructVariant = Impossible<Tree, Fault>;

    refused! {
        serialize_i8(i8) -> Tree;
        serialize_i16(i16) -> Tree;
        serialize_i64(i64) -> Tree;
        serialize_u16(u16) -> Tree;
        serialize_u64(u64) -> Tree;
        serialize_f32(f32) -> Tree;
        serialize_f64(f64) -> Tree;
        serialize_char(char) -> Tree;
        serialize_str(&str) -> Tree;
        serialize_bytes(&[u8]) -> Tree;
        serialize_unit() -> Tree;
        serialize_unit_struct(&'static str) -> Tree;
        serialize_tuple_struct(&'static str, usize) -> Self::SerializeTupleStruct;
        serialize_tuple_variant(&'static str, u32, &'static str, usize) -> Self::SerializeTupleVariant;
        serialize_map(Option<usize>) -> Self::SerializeMap;
        serialize_struct_variant(&'static str, u32, &'static str, usize) -> Self::SerializeStructVariant;
    }

    fn serialize_bool(self, is: bool) -> Result<Tree, Fault> {
        Ok(Tree::Number(is.into()))
    }

    fn serialize_unit_variant(
        self,
        _: &'static str,
        _: u32,
        name: &'static str,
    ) -> Result<Tree, Fault> {
        Ok(Tree::Map(vec![(name, Tree::Nothing)]))
    }

    fn serialize_u8(self, number: u8) -> Result<Tree, Fault> {
        Ok(Tree::Number(number.into()))
    }

    fn serialize_i32(self, number: i32) -> Result<Tree, Fault> {
        Ok(Tree::Number(number.into()))
    }

    fn serialize_u32(self, number: u32) -> Result<Tree, Fault> {
        Ok(Tree::Number(number.into()))
    }

    fn serialize_none(self) -> Result<Tree, Fault> {
        Ok(Tree::Nothing)
    }

    fn serialize_some<T: Serialize + ?Sized>(self, value: &T) -> Result<Tree, Fault> {
        value.serialize(self)
    }

    fn collect_str<T: fmt::Display + ?Sized>(self, _: &T) -> Result<Tree, Fault> {
        Err(Fault("collect_str".into()))
    }

    fn serialize_newtype_struct<T: Serialize + ?Sized>(
        self,
        _: &'static str,
        value: &T,
    ) -> Result<Tree, Fault> {
        value.serialize(self)
    }

    fn serialize_newtype_variant<T: Serialize + ?Sized>(
        self,
        _: &'static str,
        _: u32,
        name: &'static str,
        value: &T,
    ) -> Result<Tree, Fault> {
        Ok(Tree::Map(vec![(name, value.serialize(self)?)]))
    }

    fn serialize_seq(self, _: Option<usize>) -> Result<Items, Fault> {
        Ok(Items(Vec::new()))
    }

    fn serialize_tuple(self, _: usize) -> Result<Items, Fault> {
        Ok(Items(Vec::new()))
    }

    fn serialize_struct(self, _: &'static str, _: usize) -> Result<Fields, Fault> {
        Ok(Fields(Vec::new()))
    }
}

pub struct Items(Vec<Tree>);

impl ser::SerializeSeq for Items {
    type Ok = Tree;
    type Error = Fault;

    fn serialize_element<T: Serialize + ?Sized>(&mut self, value: &T) -> Result<(), Fault> {
        self.0.push(value.serialize(Writer)?);
        Ok(())
    }

    fn end(self) -> Result<Tree, Fault> {
        Ok(Tree::List(self.0))
    }
}

impl ser::SerializeTuple for Items {
    type Ok = Tree;
    type Error = Fault;

    fn serialize_element<T: Serialize + ?Sized>(&mut self, value: &T) -> Result<(), Fault> {
        ser::SerializeSeq::serialize_element(self, value)
    }

    fn end(self) -> Result<Tree, Fault> {
        ser::SerializeSeq::end(self)
    }
}

pub struct Fields(Vec<(&'static str, Tree)>);

impl ser::SerializeStruct for Fields {
    type Ok = Tree;
    type Error = Fault;

    fn serialize_field<T: Serialize + ?Sized>(
        &mut self,
        name: &'static str,
        value: &T,
    ) -> Result<(), Fault> {
        self.0.push((name, value.serialize(Writer)?));
        Ok(())
    }

    fn end(self) -> Result<Tree, Fault> {
        Ok(Tree::Map(self.0))
    }
}

impl<'de> IntoDeserializer<'de, Fault> for Tree {
    type Deserializer = Tree;

    fn into_deserializer(self) -> Tree {
        self
    }
}

impl<'de> Deserializer<'de> for Tree {
    type Error = Fault;

    fn deserialize_any<V: Visitor<'de>>(self, visitor: V) -> Result<V::Value, Fault> {
        match self {
            Tree::Nothing => visitor.visit_none(),
            Tree::Number(number) => visitor.visit_i64(number),
            Tree::List(items) => {
                let mut items = SeqDeserializer::new(items.into_iter());
                let value = visitor.visit_seq(&mut items)?;
                items.end()?;
                Ok(value)
            }
            Tree::Map(fields) => visitor.visit_map(MapDeserializer::new(fields.into_iter())),
        }
    }

    fn deserialize_bool<V: Visitor<'de>>(self, visitor: V) -> Result<V::Value, Fault> {
        match self {
            Tree::Number(0) => visitor.visit_bool(false),
            Tree::Number(1) => visitor.visit_bool(true),
            _ => Err(Fault("no bool".into())),
        }
    }

    fn deserialize_option<V: Visitor<'de>>(self, visitor: V) -> Result<V::Value, Fault> {
        match self {
            Tree::Nothing => visitor.visit_none(),
            some => visitor.visit_some(some),
        }
    }

    fn deserialize_newtype_struct<V: Visitor<'de>>(
        self,
        _: &'static str,
        visitor: V,
    ) -> Result<V::Value, Fault> {
        visitor.visit_newtype_struct(self)
    }

    fn deserialize_enum<V: Visitor<'de>>(
        self,
        _: &'static str,
        _: &'static [&'static str],
        visitor: V,
    ) -> Result<V::Value, Fault> {
        match self {
            Tree::Map(mut of_one) if of_one.len() == 1 => {
                let (name, value) = of_one.remove(0);
                visitor.visit_enum(Variant(Name::Text(name), value))
            }
            Tree::List(mut pair) if pair.len() == 2 => {
                let value = pair.remove(1);
                match pair[0] {
                    Tree::Number(number) => {
                        visitor.visit_enum(Variant(Name::Number(number as u64), value))
                    }
                    _ => Err(Fault("no variant".into())),
                }
            }
            _ => Err(Fault("no variant".into())),
        }
    }

    serde::forward_to_deserialize_any! {
        i8 i16 i32 i64 u8 u16 u32 u64 f32 f64 char str string bytes byte_buf unit
        unit_struct seq tuple tuple_struct map struct identifier ignored_any
    }
}

enum Name {
    Text(&'static str),
    Number(u64),
}

struct Variant(Name, Tree);

impl<'de> EnumAccess<'de> for Variant {
    type Error = Fault;
    type Variant = Content;

    fn variant_seed<V: DeserializeSeed<'de>>(self, seed: V) -> Result<(V::Value, Content), Fault> {
        let name = match self.0 {
            Name::Text(name) => seed.deserialize(name.into_deserializer()),
            Name::Number(number) => seed.deserialize(number.into_deserializer()),
        };
        name.map(|name: V::Value| (name, Content(self.1)))
    }
}

struct Content(Tree);

impl<'de> de::VariantAccess<'de> for Content {
    type Error = Fault;

    fn unit_variant(self) -> Result<(), Fault> {
        match self.0 {
            Tree::Nothing => Ok(()),
            _ => Err(Fault("unit_variant".into())),
        }
    }

    fn newtype_variant_seed<T: DeserializeSeed<'de>>(self, seed: T) -> Result<T::Value, Fault> {
        seed.deserialize(self.0)
    }

    fn tuple_variant<V: Visitor<'de>>(self, _: usize, _: V) -> Result<V::Value, Fault> {
        Err(Fault("tuple_variant".into()))
    }

    fn struct_variant<V: Visitor<'de>>(
        self,
        _: &'static [&'static str],
        _: V,
    ) -> Result<V::Value, Fault> {
        Err(Fault("struct_variant".into()))
    }
}
