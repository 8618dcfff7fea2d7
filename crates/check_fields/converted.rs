//! Types that are read and sent as others, to which conversions of another module lead.

use serde::{Deserialize, Serialize};

/// How urgent a letter is: elsewhere a number.
#[derive(Clone, Copy, Serialize, Deserialize)]
#[serde(from = "u8", into = "u8")]
pub enum Urgency {
    Low,
    Usual,
    High,
}

/// How much of a letter is written: elsewhere a number of up to 100.
#[derive(Clone, Copy, Serialize, Deserialize)]
#[serde(try_from = "u8", into = "u8")]
pub struct Percent {
    pub of_hundred: u8,
}

/// Whom a letter is for: elsewhere a text.
#[derive(Clone, Serialize, Deserialize)]
#[serde(from = "String", into = "String")]
pub struct Reader {
    pub name: String,
}

/// A letter.
#[derive(Serialize, Deserialize)]
pub struct Letter {
    pub urgency: Urgency,
    pub written: Percent,
    pub readers: Vec<Reader>,
}
