//! Structs whose fields are sent among those of what holds them.

use serde::{Deserialize, Serialize};

/// How much of something.
#[derive(PartialEq, Eq, Serialize, Deserialize)]
pub struct Amount {
    /// The number.
    pub count: i32,
    /// Of which unit, or pieces.
    pub unit: Option<String>,
}

/// A line of a bill.
#[derive(PartialEq, Eq, Serialize, Deserialize)]
pub struct Line {
    /// What it is.
    pub goods: String,
    /// How much of it.
    #[serde(flatten)]
    pub amount: Amount,
    /// For how much.
    pub price: u64,
}

/// What becomes of a bill, told by the field `op`.
#[derive(PartialEq, Eq, Serialize, Deserialize)]
#[serde(tag = "op", rename_all = "lowercase")]
pub enum Change {
    /// So much more.
    Add(Amount),
}
