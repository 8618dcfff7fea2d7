//! The calls by which Rust's own types are sent.

use crate::sending::sent;
use serde::{Serialize, Serializer};
use serde_content::{Number, Value};
use std::cmp::Ordering;
use std::collections::BTreeMap;

/// The calls by which what a tree holds is sent, as the type that is named.
pub fn sent_as(typ: &str, tree: Value<'static>) -> String {
    match (typ, tree) {
        ("()", Value::Unit) => sent(&()),
        ("bool", Value::Bool(flag)) => sent(&flag),
        ("char", Value::Char(letter)) => sent(&letter),
        ("String", Value::String(text)) => sent(&text.into_owned()),
        ("&str", Value::String(text)) => sent(&text.as_ref()),
        ("Option", Value::Option(held)) => sent(&held),
        ("Box", Value::Struct(node)) => sent(&node),
        ("Box", Value::Enum(node)) => sent(&node),
        ("Vec", Value::Seq(items)) => sent(&items),
        ("BTreeMap", Value::Map(pairs)) => {
            let pairs = pairs.into_iter().map(|(key, value)| (Key(key), value));
            sent(&pairs.collect::<BTreeMap<_, _>>())
        }
        ("tuple", Value::Tuple(items)) => sent_tuple(&items),
        (_, Value::Number(number)) => sent_number(typ, number),
        (_, tree) => unreachable!("{tree:?} is no {typ}"),
    }
}

/// The same of one to four trees, as a tuple.
fn sent_tuple(items: &[Value<'static>]) -> String {
    match items {
        [a] => sent(&(a,)),
        [a, b] => sent(&(a, b)),
        [a, b, c] => sent(&(a, b, c)),
        [a, b, c, d] => sent(&(a, b, c, d)),
        _ => unreachable!("{} items", items.len()),
    }
}

/// The same of a number.
fn sent_number(typ: &str, number: Number) -> String {
    match (typ, number) {
        ("Number", number) => sent(&number),
        ("usize", Number::U64(n)) => sent(&(n as usize)),
        ("isize", Number::I64(n)) => sent(&(n as isize)),
        (_, Number::I8(n)) => sent(&n),
        (_, Number::U8(n)) => sent(&n),
        (_, Number::I16(n)) => sent(&n),
        (_, Number::U16(n)) => sent(&n),
        (_, Number::I32(n)) => sent(&n),
        (_, Number::U32(n)) => sent(&n),
        (_, Number::I64(n)) => sent(&n),
        (_, Number::U64(n)) => sent(&n),
        (_, Number::I128(n)) => sent(&n),
        (_, Number::U128(n)) => sent(&n),
        (_, number) => unreachable!("{number:?} is no {typ}"),
    }
}

/// A key of a `BTreeMap`: without floats the order of values is total.
#[derive(PartialEq, PartialOrd)]
struct Key(Value<'static>);

impl Eq for Key {}

impl Ord for Key {
    fn cmp(&self, other: &Key) -> Ordering {
        self.partial_cmp(other).expect("an order")
    }
}

impl Serialize for Key {
    fn serialize<S: Serializer>(&self, to: S) -> Result<S::Ok, S::Error> {
        self.0.serialize(to)
    }
}
