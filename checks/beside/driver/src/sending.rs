//! The calls by which a value is sent.

use crate::trees::{printed, printed_in_list};
use serde::ser::{
    Serialize, SerializeMap, SerializeSeq, SerializeStruct, SerializeStructVariant, SerializeTuple,
    SerializeTupleStruct, SerializeTupleVariant, Serializer,
};
use serde_content::Error;
use std::cell::RefCell;
use std::fmt::Display;

/// A serializer that writes down its calls.
#[derive(Default)]
struct Recorder(RefCell<Vec<String>>);

/// The calls by which it is sent, and where that stops, its text.
pub fn sent<T: Serialize>(tree: &T) -> String {
    let recorder = Recorder::default();
    let end = tree.serialize(&recorder);
    let calls = recorder.0.take().join("; ");
    match end {
        Ok(()) => calls,
        Err(error) => format!("{calls}; stop {}", printed(&error.to_string())),
    }
}

impl Recorder {
    /// Writes a call down.
    fn call(&self, call: impl Display) -> Result<(), Error> {
        self.0.borrow_mut().push(call.to_string());
        Ok(())
    }

    /// Writes a call and the tree behind it down.
    fn with<T: Serialize + ?Sized>(&self, call: impl Display, tree: &T) -> Result<(), Error> {
        self.call(call)?;
        tree.serialize(self)
    }

    /// Writes the call that opens a compound down.
    fn open(&self, call: impl Display) -> Result<&Self, Error> {
        self.call(call).map(|()| self)
    }

    /// The same with a hint, if any.
    fn open_hinted(&self, word: &str, hint: Option<usize>) -> Result<&Self, Error> {
        match hint {
            Some(length) => self.open(format_args!("{word} {length}")),
            None => self.open(word),
        }
    }
}

/// The methods that take a datum, and the calls that they write down.
macro_rules! record {
    ($($method:ident($typ:ty) => $call:expr;)*) => {
        $(fn $method(self, datum: $typ) -> Result<(), Error> {
            self.call($call(datum))
        })*
    };
}

/// A call of this word and a datum.
fn worded<T: Display>(word: &'static str) -> impl Fn(T) -> String {
    move |datum| format!("{word} {datum}")
}

/// The same of a text.
fn quoted(word: &str, text: &str) -> String {
    format!("{word} {}", printed_in_list(text))
}

/// The call of bytes.
fn of_bytes(bytes: &[u8]) -> String {
    let digits: String = bytes.iter().map(|byte| format!("{byte:02x}")).collect();
    format!("bytes {digits}")
}

impl<'a> Serializer for &'a Recorder {
    type Ok = ();
    type Error = Error;
    type SerializeSeq = &'a Recorder;
    type SerializeTuple = &'a Recorder;
    type SerializeTupleStruct = &'a Recorder;
    type SerializeTupleVariant = &'a Recorder;
    type SerializeMap = &'a Recorder;
    type SerializeStruct = &'a Recorder;
    type SerializeStructVariant = &'a Recorder;

    record! {
        serialize_bool(bool) => worded("bool");
        serialize_i8(i8) => worded("i8");
        serialize_u8(u8) => worded("u8");
        serialize_i16(i16) => worded("i16");
        serialize_u16(u16) => worded("u16");
        serialize_i32(i32) => worded("i32");
        serialize_u32(u32) => worded("u32");
        serialize_f32(f32) => worded("f32");
        serialize_i64(i64) => worded("i64");
        serialize_u64(u64) => worded("u64");
        serialize_f64(f64) => worded("f64");
        serialize_i128(i128) => worded("i128");
        serialize_u128(u128) => worded("u128");
        serialize_char(char) => |letter: char| quoted("char", &letter.to_string());
        serialize_str(&str) => |text| quoted("str", text);
        serialize_bytes(&[u8]) => of_bytes;
        serialize_unit_struct(&'static str) => worded("unit_struct");
    }

    fn serialize_unit(self) -> Result<(), Error> {
        self.call("unit")
    }

    fn serialize_none(self) -> Result<(), Error> {
        self.call("none")
    }

    fn serialize_some<T: Serialize + ?Sized>(self, tree: &T) -> Result<(), Error> {
        self.with("some", tree)
    }

    fn serialize_unit_variant(
        self,
        name: &'static str,
        index: u32,
        variant: &'static str,
    ) -> Result<(), Error> {
        self.call(format_args!("unit_variant {name} {index} {variant}"))
    }

    fn serialize_newtype_struct<T: Serialize + ?Sized>(
        self,
        name: &'static str,
        tree: &T,
    ) -> Result<(), Error> {
        self.with(format_args!("newtype_struct {name}"), tree)
    }

    fn serialize_newtype_variant<T: Serialize + ?Sized>(
        self,
        name: &'static str,
        index: u32,
        variant: &'static str,
        tree: &T,
    ) -> Result<(), Error> {
        self.with(format_args!("newtype_variant {name} {index} {variant}"), tree)
    }

    fn serialize_seq(self, hint: Option<usize>) -> Result<Self, Error> {
        self.open_hinted("seq", hint)
    }

    fn serialize_tuple(self, length: usize) -> Result<Self, Error> {
        self.open(format_args!("tuple {length}"))
    }

    fn serialize_tuple_struct(self, name: &'static str, length: usize) -> Result<Self, Error> {
        self.open(format_args!("tuple_struct {name} {length}"))
    }

    fn serialize_tuple_variant(
        self,
        name: &'static str,
        index: u32,
        variant: &'static str,
        length: usize,
    ) -> Result<Self, Error> {
        self.open(format_args!("tuple_variant {name} {index} {variant} {length}"))
    }

    fn serialize_map(self, hint: Option<usize>) -> Result<Self, Error> {
        self.open_hinted("map", hint)
    }

    fn serialize_struct(self, name: &'static str, length: usize) -> Result<Self, Error> {
        self.open(format_args!("struct {name} {length}"))
    }

    fn serialize_struct_variant(
        self,
        name: &'static str,
        index: u32,
        variant: &'static str,
        length: usize,
    ) -> Result<Self, Error> {
        self.open(format_args!("struct_variant {name} {index} {variant} {length}"))
    }
}

/// Writes down the items of a compound that come by position.
macro_rules! record_items {
    ($($compound:ident, $method:ident => $word:literal;)*) => {
        $(impl $compound for &Recorder {
            type Ok = ();
            type Error = Error;

            fn $method<T: Serialize + ?Sized>(&mut self, tree: &T) -> Result<(), Error> {
                self.with($word, tree)
            }

            fn end(self) -> Result<(), Error> {
                self.call("end")
            }
        })*
    };
}

record_items! {
    SerializeSeq, serialize_element => "element";
    SerializeTuple, serialize_element => "element";
    SerializeTupleStruct, serialize_field => "tuple_field";
    SerializeTupleVariant, serialize_field => "tuple_field";
}

/// Writes down the fields of a compound.
macro_rules! record_fields {
    ($($compound:ident)*) => {
        $(impl $compound for &Recorder {
            type Ok = ();
            type Error = Error;

            fn serialize_field<T: Serialize + ?Sized>(&mut self, key: &'static str, tree: &T) -> Result<(), Error> {
                self.with(format_args!("field {key}"), tree)
            }

            fn end(self) -> Result<(), Error> {
                self.call("end")
            }
        })*
    };
}

record_fields! { SerializeStruct SerializeStructVariant }

impl SerializeMap for &Recorder {
    type Ok = ();
    type Error = Error;

    fn serialize_key<T: Serialize + ?Sized>(&mut self, key: &T) -> Result<(), Error> {
        self.with("key", key)
    }

    fn serialize_value<T: Serialize + ?Sized>(&mut self, value: &T) -> Result<(), Error> {
        self.with("value", value)
    }

    fn serialize_entry<K: Serialize + ?Sized, V: Serialize + ?Sized>(
        &mut self,
        key: &K,
        value: &V,
    ) -> Result<(), Error> {
        self.with("entry", key)?;
        value.serialize(&**self)
    }

    fn end(self) -> Result<(), Error> {
        self.call("end")
    }
}
