//! Arrays.

use serde::{Deserialize, Serialize};

/// A digest of 32 bytes.
#[derive(PartialEq, Eq, Serialize, Deserialize)]
pub struct Digest(pub [u8; 32]);

/// The mark in a square.
#[derive(PartialEq, Eq, Serialize, Deserialize)]
pub enum Mark {
    /// A cross.
    X,
    /// A circle.
    O,
}

/// A grid of two rows.
#[derive(PartialEq, Eq, Serialize, Deserialize)]
#[serde(deny_unknown_fields)]
pub struct Grid {
    /// The squares, row by row.
    pub squares: [[Option<Mark>; 3]; 2],
    /// The letters of those who play.
    pub letters: [char; 2],
    /// The score of each.
    #[serde(default)]
    pub score: [i32; 2],
}

/// A colour.
#[derive(PartialEq, Eq, Serialize, Deserialize)]
#[serde(untagged)]
pub enum Colour {
    /// By three numbers.
    Opaque([u8; 3]),
    /// By four.
    Clear([u8; 4]),
    /// By its name.
    Named(String),
}
