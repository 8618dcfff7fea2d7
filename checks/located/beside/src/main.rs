//! Reads each line of the standard input, a type and JSON with a tab between, by what Serde
//! derives, and prints the path that `serde_path_to_error` gives, as a JSON Pointer. It prints
//! `none` for what isn't refused, for what is no JSON and for another type.
#![allow(dead_code)]

mod attributes;
mod choices;
mod inlined;
mod places;
mod sorts;
mod types;

use serde::Deserialize;
use serde_path_to_error::Segment;
use std::collections::BTreeMap;
use std::io::BufRead;

/// A part of a path, as a JSON Pointer has it.
fn part(segment: &Segment) -> String {
    match segment {
        Segment::Seq { index } => format!("/{index}"),
        Segment::Map { key: name } | Segment::Enum { variant: name } => {
            format!("/{}", name.replace('~', "~0").replace('/', "~1"))
        }
        Segment::Unknown => "/?".to_string(),
    }
}

/// The path at which JSON is refused as a `T`.
fn path<'de, T: Deserialize<'de>>(json: &'de str) -> Option<String> {
    let from = &mut serde_json::Deserializer::from_str(json);
    match serde_path_to_error::deserialize::<_, T>(from) {
        Err(error) if error.inner().is_data() => Some(error.path().iter().map(part).collect()),
        _ => None,
    }
}

/// The same of the type of this name.
fn path_as(name: &str, json: &str) -> Option<String> {
    match name {
        "Depot" => path::<places::Depot>(json),
        "Change" => path::<inlined::Change>(json),
        "Grade" => path::<attributes::Grade>(json),
        "Setting" => path::<choices::Setting>(json),
        "Task" => path::<attributes::Task>(json),
        "u8" => path::<u8>(json),
        "(u8, bool)" => path::<(u8, bool)>(json),
        "Vec<Option<Box<u8>>>" => path::<Vec<Option<Box<u8>>>>(json),
        "BTreeMap<String, bool>" => path::<BTreeMap<String, bool>>(json),
        _ => None,
    }
}

fn main() -> std::io::Result<()> {
    for line in std::io::stdin().lock().lines() {
        let line = line?;
        let (name, json) = line.split_once('\t').unwrap_or((&line, ""));
        println!("{}", path_as(name, json).unwrap_or("none".to_string()));
    }
    Ok(())
}
