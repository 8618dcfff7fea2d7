//! The types of the data, here and in the Rust drivers.

use serde::{Deserialize, Serialize};

/// A struct of two fields.
#[derive(PartialEq, Eq, Serialize, Deserialize)]
pub struct Point {
    /// To the right.
    pub x: i32,
    /// Upwards.
    pub y: i32,
}

/// Six fields of as many kinds, in the order in which serde_cbor sorts their names.
// No other shape has a `u16`: what two shapes read alike, rustc inlines in neither. Without `Eq`,
// `tools/derive` writes no `RoundTrip`, which isn't measured.
#[derive(PartialEq, Serialize, Deserialize)]
pub enum Record {
    /// A new record.
    Added {
        /// Its number.
        id: u64,
        /// What it is called.
        name: String,
        /// Whether it is in use.
        used: bool,
        /// How large a count may be.
        limit: Option<u16>,
        /// Where it is.
        place: Point,
        /// What was counted.
        counts: Vec<u16>,
    },
    /// A record that was there before.
    Changed {
        /// Its number.
        id: u64,
        /// What it is called.
        name: String,
        /// Whether it is in use.
        used: bool,
        /// How large a count may be.
        limit: Option<u16>,
        /// Where it is.
        place: Point,
        /// What was counted.
        counts: Vec<u16>,
    },
}
