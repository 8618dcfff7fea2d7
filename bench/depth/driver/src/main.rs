//! Does one operation of the Rust crate on a value that nests to a depth: `depth OPERATION KIND
//! LEVELS` writes a line where it comes to its end.

use serde_content::{Data, Enum, Expected, Number, Serializer, Struct, Unexpected, Value};
use std::borrow::Cow;

fn data(sort: &str, value: Value<'static>) -> Data<'static> {
    match sort {
        "newtype" => Data::NewType { value },
        "tuple" => Data::Tuple { values: vec![value] },
        _ => Data::Struct { fields: vec![(Cow::Borrowed("x"), value)] },
    }
}

fn structure(sort: &str, value: Value<'static>) -> Value<'static> {
    let name = Cow::Borrowed("S");
    Value::Struct(Box::new(Struct { name, data: data(sort, value) }))
}

fn variant(sort: &str, value: Value<'static>) -> Value<'static> {
    Value::Enum(Box::new(Enum {
        name: Cow::Borrowed("E"),
        variant_index: 1,
        variant: Cow::Borrowed("V"),
        data: data(sort, value),
    }))
}

fn wrap(kind: &str, value: Value<'static>) -> Value<'static> {
    match kind {
        "some" => Value::Option(Some(Box::new(value))),
        "seq" => Value::Seq(vec![value]),
        "tuple" => Value::Tuple(vec![value]),
        "map_value" => Value::Map(vec![(Value::Unit, value)]),
        "map_key" => Value::Map(vec![(value, Value::Unit)]),
        "newtype_struct" => structure("newtype", value),
        "tuple_struct" => structure("tuple", value),
        "struct" => structure("struct", value),
        "newtype_variant" => variant("newtype", value),
        "tuple_variant" => variant("tuple", value),
        "struct_variant" => variant("struct", value),
        _ => panic!("no such kind"),
    }
}

fn nested(kind: &str, levels: u64) -> Value<'static> {
    (0..levels).fold(Value::Number(Number::U64(7)), |value, _| wrap(kind, value))
}

fn main() {
    let words: Vec<String> = std::env::args().skip(1).collect();
    let [operation, kind, levels] = words.as_slice() else {
        panic!("usage: depth OPERATION KIND LEVELS");
    };
    let levels = levels.parse().expect("a number");
    let value = nested(kind, levels);
    match operation.as_str() {
        "drop" => {}
        "try_clone" => drop(value.clone()),
        "==" => assert!(value == nested(kind, levels)),
        "cmp" => assert!(value.partial_cmp(&nested(kind, levels)).is_some()),
        "into_owned" => drop(value.into_owned()),
        "into_found" => drop(value.unexpected(Expected::Unit)),
        "print" => drop(value.unexpected(Expected::Unit).to_string()),
        "{:?}" => drop(format!("{value:?}")),
        "serialize" => drop(Serializer::new().serialize(&value).unwrap()),
        _ => return,
    }
    println!("done");
}
