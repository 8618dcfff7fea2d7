//! Trees as rows have them: read, and written.

use crate::cursor::Cursor;
use serde_content::{Data, Enum, Number, Struct, Value};
use std::borrow::Cow;

/// A tree.
pub fn read(text: &'static str) -> Value<'static> {
    let mut from = Cursor(text);
    let tree = take(&mut from);
    assert!(from.0.is_empty(), "{} is left of a tree", from.0);
    tree
}

/// Takes a tree.
pub fn take(from: &mut Cursor) -> Value<'static> {
    if from.take_if("()") {
        return Value::Unit;
    }
    if from.take_if("'") {
        let letter = from.letter();
        from.take("'");
        return Value::Char(letter);
    }
    match from.0.as_bytes() {
        [b'b' | b'o', b'"', ..] => Value::String(take_text(from)),
        [b'b' | b'o', b'[', ..] => Value::Bytes(take_bytes(from)),
        _ => take_worded(from),
    }
}

/// Takes a text or a name: an owned one, or one that lives as long as the program.
pub fn take_text(from: &mut Cursor) -> Cow<'static, str> {
    let is_owned = from.take_if("o\"");
    if !is_owned && !from.take_if("b\"") {
        from.take("s\"");
    }
    let text = from.quoted();
    match is_owned {
        true => Cow::Owned(text),
        false => Cow::Borrowed(text.leak()),
    }
}

/// Takes bytes.
fn take_bytes(from: &mut Cursor) -> Cow<'static, [u8]> {
    let is_owned = from.take_if("o[");
    if !is_owned {
        from.take("b[");
    }
    let bytes = from.list("]", |from| from.word().parse().expect("a byte"));
    match is_owned {
        true => Cow::Owned(bytes),
        false => Cow::Borrowed(bytes.leak()),
    }
}

/// Takes a tree that starts with a word.
fn take_worded(from: &mut Cursor) -> Value<'static> {
    match from.word() {
        "true" => Value::Bool(true),
        "false" => Value::Bool(false),
        "None" => Value::Option(None),
        "Some" => Value::Option(Some(Box::new(take_held(from)))),
        "Seq" => Value::Seq(take_items(from)),
        "Tuple" => Value::Tuple(take_items(from)),
        "Map" => {
            from.take("{");
            Value::Map(from.list("}", take_pair))
        }
        "Struct" => Value::Struct(Box::new(take_struct(from))),
        "Enum" => Value::Enum(Box::new(take_enum(from))),
        word => Value::Number(number(word)),
    }
}

/// The number that a word such as `-5i16` is.
fn number(word: &str) -> Number {
    let (digits, kind) = word.split_at(word.find(['i', 'u']).expect("a kind"));
    number_of(kind, digits)
}

/// The number of this kind that the digits spell.
pub fn number_of(kind: &str, digits: &str) -> Number {
    match kind {
        "i8" => Number::I8(digits.parse().expect("an i8")),
        "u8" => Number::U8(digits.parse().expect("a u8")),
        "i16" => Number::I16(digits.parse().expect("an i16")),
        "u16" => Number::U16(digits.parse().expect("a u16")),
        "i32" => Number::I32(digits.parse().expect("an i32")),
        "u32" => Number::U32(digits.parse().expect("a u32")),
        "i64" => Number::I64(digits.parse().expect("an i64")),
        "u64" => Number::U64(digits.parse().expect("a u64")),
        "i128" => Number::I128(digits.parse().expect("an i128")),
        "u128" => Number::U128(digits.parse().expect("a u128")),
        _ => unreachable!("{kind} is no kind of number"),
    }
}

/// Takes a tree in brackets.
fn take_held(from: &mut Cursor) -> Value<'static> {
    from.take("(");
    let held = take(from);
    from.take(")");
    held
}

/// Takes trees in brackets.
fn take_items(from: &mut Cursor) -> Vec<Value<'static>> {
    from.take("[");
    from.list("]", take)
}

/// Takes a key and its value.
fn take_pair(from: &mut Cursor) -> (Value<'static>, Value<'static>) {
    let key = take(from);
    from.take(" => ");
    (key, take(from))
}

/// Takes a field's key and its value.
fn take_field(from: &mut Cursor) -> (Cow<'static, str>, Value<'static>) {
    let key = take_text(from);
    from.take(": ");
    (key, take(from))
}

/// Takes a struct in brackets.
fn take_struct(from: &mut Cursor) -> Struct<'static> {
    from.take("(");
    let name = take_text(from);
    from.comma();
    let data = take_data(from);
    from.take(")");
    Struct { name, data }
}

/// Takes a variant in brackets.
fn take_enum(from: &mut Cursor) -> Enum<'static> {
    from.take("(");
    let name = take_text(from);
    from.comma();
    let variant_index = from.word().parse().expect("an index");
    from.comma();
    let variant = take_text(from);
    from.comma();
    let data = take_data(from);
    from.take(")");
    Enum { name, variant_index, variant, data }
}

/// Takes what a struct or a variant holds.
fn take_data(from: &mut Cursor) -> Data<'static> {
    match from.word() {
        "Unit" => Data::Unit,
        "NewType" => Data::NewType { value: take_held(from) },
        "Tuple" => Data::Tuple { values: take_items(from) },
        "Fields" => {
            from.take("{");
            Data::Struct { fields: from.list("}", take_field) }
        }
        word => unreachable!("{word} is no data"),
    }
}

/// A tree.
pub fn show(value: &Value) -> String {
    match value {
        Value::Unit => "()".to_string(),
        Value::Bool(flag) => flag.to_string(),
        Value::Number(number) => show_number(number),
        Value::Char(letter) => format!("'{}'", escaped(*letter, '\'')),
        Value::String(text) => show_text('b', text),
        Value::Bytes(Cow::Borrowed(bytes)) => format!("b{bytes:?}"),
        Value::Bytes(Cow::Owned(bytes)) => format!("o{bytes:?}"),
        Value::Seq(items) => format!("Seq[{}]", listed(items, show)),
        Value::Tuple(items) => format!("Tuple[{}]", listed(items, show)),
        Value::Map(pairs) => {
            format!(
                "Map{{{}}}",
                listed(pairs, |(key, value)| format!("{} => {}", show(key), show(value)))
            )
        }
        Value::Option(None) => "None".to_string(),
        Value::Option(Some(held)) => format!("Some({})", show(held)),
        Value::Struct(node) => {
            format!("Struct({}, {})", show_text('s', &node.name), show_data(&node.data))
        }
        Value::Enum(node) => format!(
            "Enum({}, {}, {}, {})",
            show_text('s', &node.name),
            node.variant_index,
            show_text('s', &node.variant),
            show_data(&node.data)
        ),
    }
}

/// Items, parted by commas.
pub fn listed<T>(items: &[T], show: impl Fn(&T) -> String) -> String {
    items.iter().map(show).collect::<Vec<_>>().join(", ")
}

/// What a struct or a variant holds.
fn show_data(data: &Data) -> String {
    match data {
        Data::Unit => "Unit".to_string(),
        Data::NewType { value } => format!("NewType({})", show(value)),
        Data::Tuple { values } => format!("Tuple[{}]", listed(values, show)),
        Data::Struct { fields } => {
            let field = |(key, value): &_| format!("{}: {}", show_text('s', key), show(value));
            format!("Fields{{{}}}", listed(fields, field))
        }
    }
}

/// A number and its kind.
pub fn show_number(number: &Number) -> String {
    match number {
        Number::I8(n) => format!("{n}i8"),
        Number::U8(n) => format!("{n}u8"),
        Number::I16(n) => format!("{n}i16"),
        Number::U16(n) => format!("{n}u16"),
        Number::I32(n) => format!("{n}i32"),
        Number::U32(n) => format!("{n}u32"),
        Number::I64(n) => format!("{n}i64"),
        Number::U64(n) => format!("{n}u64"),
        Number::I128(n) => format!("{n}i128"),
        Number::U128(n) => format!("{n}u128"),
        _ => "a float".to_string(),
    }
}

/// A text and its case, of which the borrowed one has this letter.
pub fn show_text(borrowed: char, text: &Cow<str>) -> String {
    let case = if matches!(text, Cow::Borrowed(_)) { borrowed } else { 'o' };
    let letters: String = text.chars().map(|letter| escaped(letter, '"')).collect();
    format!("{case}\"{letters}\"")
}

/// A character in these quotes.
fn escaped(letter: char, quote: char) -> String {
    match letter {
        '\\' => "\\\\".to_string(),
        '\t' => "\\t".to_string(),
        '\n' => "\\n".to_string(),
        '\r' => "\\r".to_string(),
        '\0' => "\\0".to_string(),
        '"' if quote == '"' => "\\\"".to_string(),
        ' '..='~' => letter.to_string(),
        _ => format!("\\u{{{:x}}}", u32::from(letter)),
    }
}

/// The text: `%`, what the list has for a mark and each byte that a row may not hold as `%` and two
/// digits.
fn coded(text: &str, mark: u8) -> String {
    let code = |byte: u8| match byte {
        b'%' => "%25".to_string(),
        b' '..=b'~' if byte != mark => char::from(byte).to_string(),
        _ => format!("%{byte:02X}"),
    };
    text.bytes().map(code).collect()
}

/// A printed text.
pub fn printed(text: &str) -> String {
    coded(text, b'%')
}

/// A printed text in a list that semicolons part.
pub fn printed_in_list(text: &str) -> String {
    coded(text, b';')
}
