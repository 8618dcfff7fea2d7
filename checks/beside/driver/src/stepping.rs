//! Accesses, step by step.

use crate::asking::{with_source, Send};
use crate::handed::Hand;
use crate::reading::debug;
use crate::trees::printed;
use serde::de::{Error, MapAccess, SeqAccess, Visitor};
use std::fmt::{Debug, Formatter, Result as Printed};

/// What an access answers to each step.
pub fn access(
    flags: &'static str,
    request: &'static str,
    steps: &'static str,
    source: &'static str,
) -> String {
    match with_source(flags, source, Send(request, Steps(steps))) {
        Ok(answers) => answers,
        Err(error) => format!("refused {}", printed(&error.to_string())),
    }
}

/// Takes these steps on what is handed out.
struct Steps(&'static str);

/// The answer of a step.
fn told<T: Debug, E: Error>(answer: Result<T, E>) -> String {
    shown(answer.map(|datum| debug(&datum)))
}

/// The same of a text.
fn shown<E: Error>(answer: Result<String, E>) -> String {
    match answer {
        Ok(text) => format!("ok {text}"),
        Err(error) => format!("refused {}", printed(&error.to_string())),
    }
}

/// The next entry as what reads its key and what reads its value.
fn next_handed<A: MapAccess<'static>>(entries: &mut A) -> String {
    let entry = entries.next_entry_seed(Hand, Hand);
    shown(entry.map(|entry| match entry {
        None => "None".to_string(),
        Some((key, value)) => format!("Some({} => {})", key.show(), value.show()),
    }))
}

impl Visitor<'static> for Steps {
    type Value = String;

    fn expecting(&self, out: &mut Formatter) -> Printed {
        out.write_str("an access")
    }

    fn visit_seq<A: SeqAccess<'static>>(self, mut items: A) -> Result<String, A::Error> {
        let answers = self.0.split("; ").map(|step| match step {
            "size_hint" => format!("ok {:?}", items.size_hint()),
            "next_element<u8>" => told(items.next_element::<u8>()),
            _ => unreachable!("{step} is no step"),
        });
        Ok(answers.collect::<Vec<_>>().join("; "))
    }

    fn visit_map<A: MapAccess<'static>>(self, mut entries: A) -> Result<String, A::Error> {
        let answers = self.0.split("; ").map(|step| match step {
            "size_hint" => format!("ok {:?}", entries.size_hint()),
            "next_key<()>" => told(entries.next_key::<()>()),
            "next_key<bool>" => told(entries.next_key::<bool>()),
            "next_key<u64>" => told(entries.next_key::<u64>()),
            "next_key<i128>" => told(entries.next_key::<i128>()),
            "next_key<String>" => told(entries.next_key::<String>()),
            "next_value<bool>" => told(entries.next_value::<bool>()),
            "next_value<u8>" => told(entries.next_value::<u8>()),
            "next_entry<(), u8>" => told(entries.next_entry::<(), u8>()),
            "next_entry<bool, u8>" => told(entries.next_entry::<bool, u8>()),
            "next_entry<String, bool>" => told(entries.next_entry::<String, bool>()),
            "next_entry<String, u8>" => told(entries.next_entry::<String, u8>()),
            "next_entry_deserializers" => next_handed(&mut entries),
            _ => unreachable!("{step} is no step"),
        });
        Ok(answers.collect::<Vec<_>>().join("; "))
    }
}
