//! What tells variants apart otherwise: a field, or what they hold.

use serde::{Deserialize, Serialize};

/// A command, told by the field `kind`.
#[derive(PartialEq, Eq, Serialize, Deserialize)]
#[serde(tag = "kind", rename_all = "lowercase")]
pub enum Command {
    /// No data.
    Stop,
    /// There.
    Move {
        /// To the right.
        x: i32,
        /// Upwards, or not at all.
        y: Option<i32>,
    },
}

/// A setting, told by what it is.
#[derive(PartialEq, Eq, Serialize, Deserialize)]
#[serde(untagged)]
pub enum Setting {
    /// On or off.
    Flag(bool),
    /// How much.
    Level(i32),
    /// From and to.
    Range(u8, u8),
    /// What it is called.
    Name(String),
}

/// Steps, told by how many they are: two are read as a pair, since that is tried first.
#[derive(Serialize, Deserialize)]
#[serde(untagged)]
pub enum Steps {
    /// The first and the second.
    Pair(u8, u8),
    /// Any others.
    List(Vec<u8>),
}

/// A colour, told by how many numbers it has.
#[derive(PartialEq, Eq, Serialize, Deserialize)]
#[serde(untagged)]
pub enum Color {
    /// Red, green and blue.
    Rgb(u8, u8, u8),
    /// With how opaque it is.
    Rgba(u8, u8, u8, u8),
}
