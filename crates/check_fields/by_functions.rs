//! Fields that functions of another module read and send.

use crate::rules;
use serde::{Deserialize, Serialize};

/// A switch.
#[derive(Serialize, Deserialize)]
pub struct Switch {
    /// Whether it is on: read out of a number, sent as a word.
    #[serde(with = "rules")]
    pub on: bool,
    /// Its name, if it has one.
    #[serde(default, deserialize_with = "rules::read_text", serialize_with = "rules::send_text")]
    #[serde(skip_serializing_if = "Option::is_none")]
    pub name: Option<String>,
    /// How often it was turned.
    pub turns: u32,
}
