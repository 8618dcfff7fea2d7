//! What a shop sends.

// Put your own types in place of these.
use serde::{Deserialize, Serialize};

/// Where a parcel goes.
#[derive(Debug, PartialEq, Eq, Serialize, Deserialize)]
#[serde(rename_all = "camelCase", deny_unknown_fields)]
pub struct Place {
    /// The street, with the number.
    pub street_name: String,
    /// None on the ground.
    pub floor: Option<u8>,
}

/// What becomes of an order.
#[derive(Debug, PartialEq, Eq, Serialize, Deserialize)]
#[serde(rename_all = "snake_case")]
pub enum Step {
    /// Nothing yet.
    Open,
    /// Weighed, in grams.
    Weighed(u32),
    /// Moved on a plan, by so much.
    #[serde(rename = "moved-by")]
    Moved(i32, i32),
    /// Left with somebody.
    Left {
        /// Who took it.
        with: String,
        /// Where they live.
        #[serde(rename = "at")]
        place: Place,
    },
}
