//! Sorts of types that `crates/check_derive` leaves out.

use serde::{Deserialize, Serialize};

/// One field, and no other.
#[derive(Serialize, Deserialize)]
#[serde(deny_unknown_fields)]
pub struct Single {
    pub a: u8,
}

/// Three fields, and no other.
#[derive(Serialize, Deserialize)]
#[serde(deny_unknown_fields)]
pub struct Triple {
    pub a: u8,
    pub b: u8,
    pub c: u8,
}

/// One variant.
#[derive(Serialize, Deserialize)]
pub enum Sole {
    Only,
}

/// Two variants, and no other field.
#[derive(Serialize, Deserialize)]
#[serde(deny_unknown_fields)]
pub enum Either {
    Left { a: u8 },
    Right,
}

/// A tag and what it tells, and no other.
#[derive(Serialize, Deserialize)]
#[serde(tag = "t", content = "c", deny_unknown_fields)]
pub enum Closed {
    A,
    B(u8),
    C(Single),
}

/// A tag, and no other field.
#[derive(Serialize, Deserialize)]
#[serde(tag = "t", deny_unknown_fields)]
pub enum Shut {
    A,
    B { x: u8 },
}

/// Told by what they hold.
#[derive(Serialize, Deserialize)]
#[serde(untagged)]
pub enum Loose {
    A(u8),
    C(Single),
}
