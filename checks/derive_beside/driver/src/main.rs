//! Answers each case of the standard input by what Serde derives, over the Rust crate: it reads a
//! tree as a type, and sends the value again.
#![allow(dead_code)]

mod arrays;
mod attributes;
mod boards;
mod borrowed;
mod by_functions;
mod choices;
mod conversions;
mod converted;
mod cursor;
mod inlined;
mod more;
mod nested;
mod others;
mod rules;
mod sorts;
mod trees;
mod typed;
mod types;

use serde::{de::DeserializeOwned, Serialize};
use serde_content::{Deserializer, Result, Serializer};
use std::io::{stdin, stdout, BufWriter, Write};

/// What a type makes of a case.
fn answer(case: &str) -> String {
    let columns: Vec<&'static str> = case.to_string().leak().split('\t').collect();
    let [typ, flags, source] = columns[..] else {
        unreachable!("{case} has no three columns");
    };
    let mut from = Deserializer::new(trees::read(source));
    if flags.contains('h') {
        from = from.human_readable();
    }
    if flags.contains('c') {
        from = from.coerce_numbers();
    }
    match typed::sent_as(typ, from) {
        Ok(sent) => format!("ok {sent}"),
        Err(error) => format!("refused {}", trees::printed(&error.to_string())),
    }
}

/// A value of this type as it is sent again.
fn sent<T: DeserializeOwned + Serialize>(from: Deserializer<'static>) -> Result<String> {
    let value = from.deserialize::<T>()?;
    Ok(trees::show(&value.serialize(Serializer::new())?))
}

fn main() {
    let mut out = BufWriter::new(stdout().lock());
    for case in stdin().lines() {
        writeln!(out, "{}", answer(&case.expect("a line"))).expect("a write");
    }
}
