//! serde of ids, options and kinds of slots, as a format sees them: an id is a newtype of a number, options are a struct, and a kind is a
//! variant without a value.
#![cfg(feature = "serialization")]

use guillotiere::serde::de::value::{Error, MapDeserializer, SeqDeserializer};
use guillotiere::serde::de::{Deserialize, Deserializer, IntoDeserializer, Visitor};
use guillotiere::serde::ser::{
    Error as _, Impossible, Serialize, SerializeStruct, SerializeTuple, Serializer,
};
use guillotiere::{serde, size2, AllocId, AllocatorOptions, NodeKind, Point, Rectangle, Size};
use std::fmt::Display;

#[derive(Clone, Copy, Debug, PartialEq)]
enum Token {
    Newtype(&'static str),
    Struct(&'static str),
    Field(&'static str),
    Tuple(usize),
    Number(i64),
    Variant(&'static str, u32, &'static str),
}

// Gathers what a value tells of itself.
struct Tokens<'a>(&'a mut Vec<Token>);

macro_rules! refused {
    ($($name:ident($($given:ty),*) -> $answer:ty;)*) => {
        $(fn $name(self $(, _: $given)*) -> Result<$answer, Error> {
            Err(Error::custom(stringify!($name)))
        })*
    };
}

impl<'a> Serializer for Tokens<'a> {
    type Ok = ();
    type Error = Error;
    type SerializeSeq = Impossible<(), Error>;
    type SerializeTuple = Self;
    type SerializeTupleStruct = Impossible<(), Error>;
    type SerializeTupleVariant = Impossible<(), Error>;
    type SerializeMap = Impossible<(), Error>;
    type SerializeStruct = Self;
    type SerializeStructVariant = Impossible<(), Error>;

    refused! {
        serialize_bool(bool) -> ();
        serialize_i8(i8) -> ();
        serialize_i16(i16) -> ();
        serialize_i64(i64) -> ();
        serialize_u8(u8) -> ();
        serialize_u16(u16) -> ();
        serialize_u64(u64) -> ();
        serialize_f32(f32) -> ();
        serialize_f64(f64) -> ();
        serialize_char(char) -> ();
        serialize_str(&str) -> ();
        serialize_bytes(&[u8]) -> ();
        serialize_none() -> ();
        serialize_unit() -> ();
        serialize_unit_struct(&'static str) -> ();
        serialize_seq(Option<usize>) -> Self::SerializeSeq;
        serialize_tuple_struct(&'static str, usize) -> Self::SerializeTupleStruct;
        serialize_tuple_variant(&'static str, u32, &'static str, usize) -> Self::SerializeTupleVariant;
        serialize_map(Option<usize>) -> Self::SerializeMap;
        serialize_struct_variant(&'static str, u32, &'static str, usize) -> Self::SerializeStructVariant;
    }

    fn serialize_unit_variant(
        self,
        name: &'static str,
        number: u32,
        variant: &'static str,
    ) -> Result<(), Error> {
        self.0.push(Token::Variant(name, number, variant));
        Ok(())
    }

    fn serialize_i32(self, number: i32) -> Result<(), Error> {
        self.0.push(Token::Number(number.into()));
        Ok(())
    }

    fn serialize_u32(self, number: u32) -> Result<(), Error> {
        self.0.push(Token::Number(number.into()));
        Ok(())
    }

    fn serialize_some<T: Serialize + ?Sized>(self, _: &T) -> Result<(), Error> {
        Err(Error::custom("serialize_some"))
    }

    fn collect_str<T: Display + ?Sized>(self, _: &T) -> Result<(), Error> {
        Err(Error::custom("collect_str"))
    }

    fn serialize_newtype_struct<T: Serialize + ?Sized>(
        self,
        name: &'static str,
        value: &T,
    ) -> Result<(), Error> {
        self.0.push(Token::Newtype(name));
        value.serialize(self)
    }

    fn serialize_newtype_variant<T: Serialize + ?Sized>(
        self,
        _: &'static str,
        _: u32,
        _: &'static str,
        _: &T,
    ) -> Result<(), Error> {
        Err(Error::custom("serialize_newtype_variant"))
    }

    fn serialize_tuple(self, len: usize) -> Result<Self, Error> {
        self.0.push(Token::Tuple(len));
        Ok(self)
    }

    fn serialize_struct(self, name: &'static str, _: usize) -> Result<Self, Error> {
        self.0.push(Token::Struct(name));
        Ok(self)
    }
}

impl SerializeTuple for Tokens<'_> {
    type Ok = ();
    type Error = Error;

    fn serialize_element<T: Serialize + ?Sized>(&mut self, value: &T) -> Result<(), Error> {
        value.serialize(Tokens(self.0))
    }

    fn end(self) -> Result<(), Error> {
        Ok(())
    }
}

impl SerializeStruct for Tokens<'_> {
    type Ok = ();
    type Error = Error;

    fn serialize_field<T: Serialize + ?Sized>(
        &mut self,
        name: &'static str,
        value: &T,
    ) -> Result<(), Error> {
        self.0.push(Token::Field(name));
        value.serialize(Tokens(self.0))
    }

    fn end(self) -> Result<(), Error> {
        Ok(())
    }
}

// A number, or a list of numbers.
#[derive(Clone)]
enum Value {
    Number(i32),
    List(Vec<i32>),
}

impl<'de> IntoDeserializer<'de, Error> for Value {
    type Deserializer = Value;

    fn into_deserializer(self) -> Value {
        self
    }
}

impl<'de> Deserializer<'de> for Value {
    type Error = Error;

    fn deserialize_any<V: Visitor<'de>>(self, visitor: V) -> Result<V::Value, Error> {
        match self {
            Value::Number(number) => visitor.visit_i32(number),
            Value::List(numbers) => visitor.visit_seq(SeqDeserializer::new(numbers.into_iter())),
        }
    }

    fn deserialize_newtype_struct<V: Visitor<'de>>(
        self,
        _: &'static str,
        visitor: V,
    ) -> Result<V::Value, Error> {
        visitor.visit_newtype_struct(self)
    }

    serde::forward_to_deserialize_any! {
        bool i8 i16 i32 i64 u8 u16 u32 u64 f32 f64 char str string bytes byte_buf option unit
        unit_struct seq tuple tuple_struct map struct enum identifier ignored_any
    }
}

fn options() -> AllocatorOptions {
    AllocatorOptions {
        alignment: size2(16, 8),
        small_size_threshold: -3,
        large_size_threshold: 77,
    }
}

// Options from fields in this order.
fn read(fields: &[(&'static str, Value)]) -> Result<AllocatorOptions, Error> {
    AllocatorOptions::deserialize(MapDeserializer::new(fields.iter().cloned()))
}

#[test]
fn an_id_is_a_number() {
    let mut tokens = Vec::new();
    let id = AllocId::deserialize(0x0700_0005);
    id.serialize_into(&mut tokens);
    assert_eq!(
        tokens,
        [Token::Newtype("AllocId"), Token::Number(0x0700_0005)]
    );
    let read: Result<AllocId, Error> = Deserialize::deserialize(Value::Number(0x0700_0005));
    assert_eq!(read, Ok(id));
    let read: Result<AllocId, Error> = Deserialize::deserialize(Value::Number(-1));
    assert!(read.is_err());
}

// `AllocId` has a `serialize` of its own.
trait SerializeInto {
    fn serialize_into(&self, tokens: &mut Vec<Token>);
}

impl<T: Serialize> SerializeInto for T {
    fn serialize_into(&self, tokens: &mut Vec<Token>) {
        Serialize::serialize(self, Tokens(tokens)).unwrap();
    }
}

#[test]
fn options_are_a_struct() {
    use Token::*;
    let mut tokens = Vec::new();
    options().serialize_into(&mut tokens);
    let alignment = [
        Struct("AllocatorOptions"),
        Field("alignment"),
        Tuple(2),
        Number(16),
        Number(8),
    ];
    let small = [Field("small_size_threshold"), Number(-3)];
    let large = [Field("large_size_threshold"), Number(77)];
    assert_eq!(tokens, [&alignment[..], &small, &large].concat());
}

#[test]
fn options_are_read_in_any_order() {
    let alignment = ("alignment", Value::List(vec![16, 8]));
    let small = ("small_size_threshold", Value::Number(-3));
    let large = ("large_size_threshold", Value::Number(77));
    let other = ("other", Value::Number(1));
    let fields = [&alignment, &small, &large, &other].map(Clone::clone);
    assert_eq!(read(&fields), Ok(options()));
    let fields = [&large, &other, &small, &alignment].map(Clone::clone);
    assert_eq!(read(&fields), Ok(options()));
    for missing in [[&alignment, &small], [&small, &large], [&alignment, &large]] {
        assert!(read(&missing.map(Clone::clone)).is_err());
    }
    assert!(read(&[&alignment, &small, &large, &small].map(Clone::clone)).is_err());
}

#[test]
fn kinds_are_variants() {
    for (number, kind, name) in [
        (0, NodeKind::Container, "Container"),
        (1, NodeKind::Alloc, "Alloc"),
        (2, NodeKind::Free, "Free"),
        (3, NodeKind::Unused, "Unused"),
    ] {
        let mut tokens = Vec::new();
        kind.serialize_into(&mut tokens);
        assert_eq!(tokens, [Token::Variant("NodeKind", number, name)]);
        let read: Result<NodeKind, Error> = NodeKind::deserialize(name.into_deserializer());
        assert_eq!(read, Ok(kind));
        let read: Result<NodeKind, Error> = NodeKind::deserialize(number.into_deserializer());
        assert_eq!(read, Ok(kind));
    }
    for name in ["free", "", "Containers"] {
        let read: Result<NodeKind, Error> = NodeKind::deserialize(name.into_deserializer());
        assert!(read.is_err());
    }
    let read: Result<NodeKind, Error> = NodeKind::deserialize(4_u32.into_deserializer());
    assert!(read.is_err());
}

// What a program keeps in a struct of its own: the feature switches on that of euclid.
#[test]
fn what_euclid_has_is_written_and_read() {
    fn goes_both_ways<T: Serialize + for<'de> Deserialize<'de>>() {}
    goes_both_ways::<Point>();
    goes_both_ways::<Size>();
    goes_both_ways::<Vec<Rectangle>>();
    let mut tokens = Vec::new();
    Size::new(16, 8).serialize_into(&mut tokens);
    assert_eq!(
        tokens,
        [Token::Tuple(2), Token::Number(16), Token::Number(8)]
    );
}
