//! Flattened values that are not inlined, and are only sent.

use serde::Serialize;
use std::collections::{BTreeMap, HashMap};

/// When and where something was seen.
#[derive(Serialize)]
pub struct Seen {
    /// When.
    pub at: u64,
    /// Where, if that is known.
    #[serde(skip_serializing_if = "Option::is_none")]
    pub place: Option<String>,
}

/// What was seen, by what is sent of it.
#[derive(Serialize)]
#[serde(untagged)]
pub enum Sight {
    /// So many birds of a kind.
    Birds {
        /// The kind.
        kind: String,
        /// How many.
        count: u32,
    },
    /// A trace of them.
    Trace(Seen),
    /// How many of other kinds.
    Others(HashMap<String, u8>),
    /// Nothing.
    Nothing,
}

/// The weather, by the field `sky`.
#[derive(Serialize)]
#[serde(tag = "sky")]
pub enum Sky {
    /// No clouds.
    Clear,
    /// Clouds.
    Clouds {
        /// In tenths of the sky.
        tenths: u8,
    },
}

/// Who saw it, by the field `by`.
#[derive(Serialize)]
#[serde(tag = "by", content = "who")]
pub enum Seer {
    /// Somebody.
    Unknown,
    /// One.
    One(String),
    /// Two at once.
    Two(String, String),
}

/// What was made of it, by the name of the field.
#[derive(Serialize)]
pub enum Record {
    /// A sketch, on this page.
    Sketch(u32),
    /// A film.
    Film {
        /// The file.
        file: String,
        /// How long.
        seconds: u32,
    },
}

/// A page of a diary.
#[derive(Serialize)]
pub struct Page {
    /// The day.
    pub day: i32,
    /// What it is filed under.
    #[serde(skip_serializing_if = "Vec::is_empty")]
    pub tags: Vec<String>,
    /// When and where, if something was seen.
    #[serde(flatten)]
    pub seen: Option<Seen>,
    /// What was seen.
    #[serde(flatten)]
    pub sight: Sight,
    /// The weather.
    #[serde(flatten)]
    pub sky: Sky,
    /// Who saw it.
    #[serde(flatten)]
    pub seer: Box<Seer>,
    /// What was made of it.
    #[serde(flatten)]
    pub record: Record,
    /// Anything else.
    #[serde(flatten)]
    pub more: BTreeMap<String, i64>,
    /// What was found where it was read.
    #[serde(flatten, skip_serializing)]
    pub unknown: BTreeMap<String, String>,
}
