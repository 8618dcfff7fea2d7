//! Typed reads.

use crate::asking::{answered, with_source};
use crate::trees::{self, printed, show};
use serde::de::DeserializeSeed;
use serde::{Deserialize, Deserializer};
use serde_content::{Data, Enum, Number, Value, ValueVisitor};
use std::collections::BTreeMap;
use std::fmt::Debug;

/// The value of a type. A tree with variants that can't be read as a `Value` is read a second time
/// with their names and maps in their places.
pub fn read(flags: &'static str, typ: &'static str, source: &'static str) -> String {
    let answer = answered(with_source(flags, source, Read(typ)));
    if answer != "refused invalid type: enum, expected any value" {
        return answer;
    }
    let plainer = show(&without_variants(trees::read(source)));
    format!("{answer}\t{}", answered(with_source(flags, plainer.leak(), Read(typ))))
}

/// Reads a type.
struct Read(&'static str);

/// What is read as the type among these that has this name.
macro_rules! as_type {
    ($name:expr, $from:expr, [$($known:ty),* $(,)?]) => {
        match $name {
            $(stringify!($known) => as_printed::<$known, D>($from),)*
            name => unreachable!("{name} isn't read here"),
        }
    };
}

impl DeserializeSeed<'static> for Read {
    type Value = String;

    fn deserialize<D: Deserializer<'static>>(self, from: D) -> Result<String, D::Error> {
        match self.0 {
            "Value" => Value::deserialize(from).map(|value| show(&value)),
            "ValueVisitor" => from.deserialize_any(ValueVisitor).map(|value| show(&value)),
            "Option<Value>" => Option::deserialize(from)
                .map(|held: Option<Value>| show(&Value::Option(held.map(Box::new)))),
            name => as_type!(name, from, [
                (), bool, i8, u8, i16, u16, i32, u32, i64, u64, i128, u128, isize, usize, char, String, &str, Number,
                &[u8], Box<u8>, Option<()>, Option<i16>, Option<String>, Option<&str>, Option<Option<()>>,
                Vec<()>, Vec<bool>, Vec<u8>, Vec<i16>, (bool,), (u8,), (bool, bool), (bool, usize),
                (u8, u8), (u8, bool), (bool, (), u8), (u8, u8, u8, u8), BTreeMap<String, u8>,
                BTreeMap<String, Vec<u8>>, BTreeMap<u8, bool>, BTreeMap<u8, u8>, BTreeMap<i8, i8>,
            ]),
        }
    }
}

/// A value of a type as it prints.
fn as_printed<T: Deserialize<'static> + Debug, D: Deserializer<'static>>(
    from: D,
) -> Result<String, D::Error> {
    T::deserialize(from).map(|value| debug(&value))
}

/// What is printed for a programmer.
pub fn debug<T: Debug>(value: &T) -> String {
    printed(&format!("{value:?}"))
}

/// The tree with the name of each variant without data in its place, and a map of that name to its
/// data in the place of each other.
fn without_variants(tree: Value<'static>) -> Value<'static> {
    match tree {
        Value::Seq(items) => Value::Seq(items.into_iter().map(without_variants).collect()),
        Value::Tuple(items) => Value::Tuple(items.into_iter().map(without_variants).collect()),
        Value::Map(pairs) => {
            let pairs = pairs
                .into_iter()
                .map(|(key, value)| (without_variants(key), without_variants(value)));
            Value::Map(pairs.collect())
        }
        Value::Option(held) => Value::Option(held.map(|held| Box::new(without_variants(*held)))),
        Value::Struct(mut node) => {
            node.data = data_without_variants(node.data);
            Value::Struct(node)
        }
        Value::Enum(node) => of_variant(*node),
        leaf => leaf,
    }
}

/// The same of what a struct or a variant holds.
fn data_without_variants(data: Data<'static>) -> Data<'static> {
    match data {
        Data::Unit => Data::Unit,
        Data::NewType { value } => Data::NewType { value: without_variants(value) },
        Data::Tuple { values } => {
            Data::Tuple { values: values.into_iter().map(without_variants).collect() }
        }
        Data::Struct { fields } => Data::Struct {
            fields: fields.into_iter().map(|(key, value)| (key, without_variants(value))).collect(),
        },
    }
}

/// What stands in the place of a variant, its name owned.
fn of_variant(node: Enum<'static>) -> Value<'static> {
    let name = Value::from(node.variant.into_owned());
    let held = match data_without_variants(node.data) {
        Data::Unit => return name,
        Data::NewType { value } => value,
        Data::Tuple { values } => Value::Seq(values),
        Data::Struct { fields } => {
            Value::Map(fields.into_iter().map(|(key, value)| (Value::String(key), value)).collect())
        }
    };
    Value::Map(vec![(name, held)])
}
