//! Other sorts of structs, a key of one's own, and a tag next to a field for what a variant holds.

use crate::types::Place;
use serde::{Deserialize, Serialize};
use std::collections::BTreeMap;

/// Nothing.
#[derive(PartialEq, Eq, Serialize, Deserialize)]
pub struct Marker;

/// Around one value.
#[derive(PartialEq, Eq, PartialOrd, Ord, Serialize, Deserialize)]
pub struct Code(pub u8);

/// Two values by place, one of a type of another module.
#[derive(PartialEq, Eq, Serialize, Deserialize)]
pub struct Stop(pub i32, pub Option<Place>);

/// A map with keys of one's own.
#[derive(PartialEq, Eq, Serialize, Deserialize)]
pub struct Ledger(pub BTreeMap<Code, bool>);

/// A message, told by the field `t`, what it holds in the field `c`.
#[derive(PartialEq, Eq, Serialize, Deserialize)]
#[serde(tag = "t", content = "c")]
pub enum Message {
    /// No value.
    Ping,
    /// One value.
    Text(String),
}
