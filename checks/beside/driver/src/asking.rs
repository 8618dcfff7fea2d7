//! Requests.

use crate::cursor::Cursor;
use crate::handed::{with_name, Flags};
use crate::showing::Show;
use crate::trees::{self, printed};
use serde::de::{DeserializeSeed, Visitor};
use serde_content::Error;

/// Adds `ok`, or `refused` and why.
pub fn answered(answer: Result<String, Error>) -> String {
    match answer {
        Ok(text) => format!("ok {text}"),
        Err(error) => format!("refused {}", printed(&error.to_string())),
    }
}

/// Hands a source to a seed.
pub fn with_source<S: DeserializeSeed<'static>>(
    flags: &str,
    source: &'static str,
    seed: S,
) -> Result<S::Value, Error> {
    let flags = Flags::read(flags);
    let mut from = Cursor(source);
    if !from.take_if("id(") {
        return seed.deserialize(flags.deserializer(trees::read(source)));
    }
    let name = trees::take_text(&mut from);
    from.comma();
    with_name(flags, name, from.word().parse().expect("an index"), seed)
}

/// A request, with the name and the length that it tells.
pub struct Request {
    pub word: &'static str,
    pub name: &'static str,
    pub length: usize,
}

impl Request {
    /// The request that a text such as `tuple_struct(N, 2)` tells.
    pub fn read(text: &'static str) -> Request {
        let (word, inside) = text.trim_end_matches(')').split_once('(').unwrap_or((text, ""));
        let (name, length) = inside.split_once(", ").unwrap_or((inside, inside));
        Request { word, name, length: length.parse().unwrap_or(0) }
    }
}

/// What is answered to a request.
pub fn ask(flags: &'static str, request: &'static str, source: &'static str) -> String {
    let request = Request::read(request);
    answered(with_source(flags, source, Ask { request, flags: Flags::read(flags) }))
}

/// Makes a request of what is handed to it.
struct Ask {
    request: Request,
    flags: Flags,
}

impl DeserializeSeed<'static> for Ask {
    type Value = String;

    fn deserialize<D: serde::Deserializer<'static>>(self, from: D) -> Result<String, D::Error> {
        let word = self.request.word;
        let text = send(from, &self.request, Show(self.flags))?;
        Ok(match word {
            "any" => format!("node {text}"),
            "newtype_struct" => text.replacen("newtype ", "", 1),
            // The number of the kind that was asked for stands without it.
            _ => text.strip_suffix(word).unwrap_or(&text).to_string(),
        })
    }
}

/// Makes a request.
pub fn send<D: serde::Deserializer<'static>, V: Visitor<'static>>(
    from: D,
    request: &Request,
    visitor: V,
) -> Result<V::Value, D::Error> {
    let Request { word, name, length } = *request;
    match word {
        "bool" => from.deserialize_bool(visitor),
        "i8" => from.deserialize_i8(visitor),
        "u8" => from.deserialize_u8(visitor),
        "i16" => from.deserialize_i16(visitor),
        "u16" => from.deserialize_u16(visitor),
        "i32" => from.deserialize_i32(visitor),
        "u32" => from.deserialize_u32(visitor),
        "i64" => from.deserialize_i64(visitor),
        "u64" => from.deserialize_u64(visitor),
        "i128" => from.deserialize_i128(visitor),
        "u128" => from.deserialize_u128(visitor),
        "char" => from.deserialize_char(visitor),
        "str" => from.deserialize_str(visitor),
        "string" => from.deserialize_string(visitor),
        "bytes" => from.deserialize_bytes(visitor),
        "byte_buf" => from.deserialize_byte_buf(visitor),
        "option" => from.deserialize_option(visitor),
        "unit" => from.deserialize_unit(visitor),
        "unit_struct" => from.deserialize_unit_struct(name, visitor),
        "newtype_struct" => from.deserialize_newtype_struct(name, visitor),
        "seq" => from.deserialize_seq(visitor),
        "tuple" => from.deserialize_tuple(length, visitor),
        "tuple_struct" => from.deserialize_tuple_struct(name, length, visitor),
        "map" => from.deserialize_map(visitor),
        "struct" => from.deserialize_struct(name, &[], visitor),
        "enum" => from.deserialize_enum(name, &[], visitor),
        "identifier" => from.deserialize_identifier(visitor),
        "any" => from.deserialize_any(visitor),
        "ignored_any" => from.deserialize_ignored_any(visitor),
        _ => unreachable!("{word} is no request"),
    }
}

/// Makes a request of what is handed to it, with this visitor.
pub struct Send<V>(pub &'static str, pub V);

impl<V: Visitor<'static>> DeserializeSeed<'static> for Send<V> {
    type Value = V::Value;

    fn deserialize<D: serde::Deserializer<'static>>(self, from: D) -> Result<V::Value, D::Error> {
        send(from, &Request::read(self.0), self.1)
    }
}
