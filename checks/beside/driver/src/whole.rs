//! Operations on whole trees.

use crate::asking::answered;
use crate::cursor::Cursor;
use crate::handed::Flags;
use crate::opening::image;
use crate::sending::sent;
use crate::trees::{printed, read, show};
use crate::typed::sent_as;
use serde_content::{DataType, Expected, Serializer, Unexpected, Value};

/// What the crate makes of trees.
pub fn answer(operation: &str, columns: &[&'static str]) -> String {
    match (operation, columns) {
        ("canonical", ["new", tree]) => {
            answered(Serializer::new().serialize(read(tree)).map(|tree: Value| show(&tree)))
        }
        ("send", [tree]) => sent(&read(tree)),
        ("send_as", [typ, tree]) => sent_as(typ, read(tree)),
        ("image", [tree]) => printed(&image(read(tree)).to_string()),
        ("copy", [tree]) => format!("{}; {}", show(&read(tree).clone()), show(&read(tree).into_owned())),
        ("unexpected", [tree, expected]) => refusal(read(tree), read_expected(expected)),
        ("unexpected_part", [tree, expected]) => match read(tree) {
            Value::Number(number) => refusal(number, read_expected(expected)),
            Value::Struct(node) => refusal(node, read_expected(expected)),
            Value::Enum(node) => refusal(node, read_expected(expected)),
            _ => unreachable!("{tree} has no such part"),
        },
        ("compare", [left, right]) => order(&read(left), &read(right)),
        ("compare_images", [left, right]) => order(&image(read(left)), &image(read(right))),
        ("compare_expected", [left, right]) => order(&read_expected(left), &read_expected(right)),
        ("order", [left_flags, left, right_flags, right]) => order(
            &Flags::read(left_flags).deserializer(read(left)),
            &Flags::read(right_flags).deserializer(read(right)),
        ),
        _ => unreachable!("{operation} is no operation"),
    }
}

/// The text of the error that this isn't what was expected.
fn refusal<T: Unexpected>(found: T, expected: Expected) -> String {
    printed(&found.unexpected(expected).to_string())
}

/// The word of the order of two things.
fn order<T: PartialOrd>(left: &T, right: &T) -> String {
    let order = left.partial_cmp(right).expect("an order");
    format!("{order:?}").to_lowercase()
}

/// An expectation.
fn read_expected(text: &'static str) -> Expected {
    let mut from = Cursor(text);
    match from.word() {
        "Unit" => Expected::Unit,
        "Bool" => Expected::Bool,
        "Char" => Expected::Char,
        "String" => Expected::String,
        "StaticStr" => Expected::StaticStr,
        "Bytes" => Expected::Bytes,
        "Seq" => Expected::Seq,
        "Map" => Expected::Map,
        "Identifier" => Expected::Identifier,
        "I8" => Expected::I8,
        "U8" => Expected::U8,
        "I16" => Expected::I16,
        "U16" => Expected::U16,
        "I32" => Expected::I32,
        "U32" => Expected::U32,
        "I64" => Expected::I64,
        "U64" => Expected::U64,
        "I128" => Expected::I128,
        "U128" => Expected::U128,
        word => read_parts(word, from),
    }
}

/// An expectation with a length, or with a name and a type.
fn read_parts(word: &str, mut from: Cursor) -> Expected {
    from.take("(");
    if word == "Tuple" {
        return Expected::Tuple(from.word().parse().expect("a length"));
    }
    let name = if from.take_if("o\"") { Some(from.quoted()) } else { None };
    if name.is_none() {
        from.take("-");
    }
    from.comma();
    let typ = match from.word() {
        "Unit" => Some(DataType::Unit),
        "NewType" => Some(DataType::NewType),
        "Tuple" => Some(DataType::Tuple),
        "Struct" => Some(DataType::Struct),
        _ => None,
    };
    if word == "Struct" {
        Expected::Struct { name, typ }
    } else {
        Expected::Enum { name, typ }
    }
}
