//! What a shop sends.

use serde::{Deserialize, Serialize};
use std::collections::HashMap;

/// Where a parcel goes.
#[derive(Debug, PartialEq, Eq, Serialize, Deserialize)]
#[serde(rename_all = "camelCase", deny_unknown_fields)]
pub struct Place {
    /// The street, with the number.
    pub street_name: String,
    /// None on the ground.
    pub floor: Option<u8>,
}

/// What becomes of an order.
#[derive(Debug, PartialEq, Eq, Serialize, Deserialize)]
#[serde(rename_all = "snake_case")]
pub enum Step {
    /// Nothing yet.
    Open,
    /// Weighed, in grams.
    Weighed(u32),
    /// Moved on a plan, by so much.
    #[serde(rename = "moved-by")]
    Moved(i32, i32),
    /// Left with somebody.
    Left {
        /// Who took it.
        with: String,
        /// Where they live.
        #[serde(rename = "at")]
        place: Place,
    },
}

/// An order.
#[derive(Debug, PartialEq, Eq, Serialize, Deserialize)]
pub struct Order {
    /// Its number.
    #[serde(rename = "order-id")]
    pub id: u64,
    /// Where it goes.
    pub to: Place,
    /// What became of it.
    #[serde(default)]
    pub steps: Vec<Step>,
    /// How many of what.
    pub goods: HashMap<String, u32>,
    /// Width, height and depth.
    pub size: (u16, u16, u16),
    /// A word to the driver.
    pub note: Option<Box<String>>,
}
