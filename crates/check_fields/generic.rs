//! Types with parameters: what they hold is read at once.

use serde::{Deserialize, Serialize};
use std::collections::HashMap;

/// A page of what a search found.
#[derive(Serialize, Deserialize)]
pub struct Hits<T> {
    pub query: String,
    pub items: Vec<T>,
    pub by_name: HashMap<String, T>,
    pub best: Option<Box<T>>,
    pub page: u16,
    pub pages: u16,
    pub exact: bool,
    pub took: u32,
    pub left: u8,
}

/// A row of a table: its cells, seven counts, and whether it is hidden.
#[derive(Serialize, Deserialize)]
pub struct Row<T>(pub Vec<T>, pub u8, pub u8, pub u8, pub u8, pub u8, pub u8, pub u8, pub bool);

/// What happened.
#[derive(Serialize, Deserialize)]
pub enum Event<T> {
    Made {
        of: HashMap<String, T>,
        count: u8,
        /// Whether somebody has seen it.
        #[serde(skip)]
        seen: bool,
    },
    Lost,
    Kept(Vec<T>, u16),
}

/// A message of some sort.
#[derive(Serialize, Deserialize)]
#[serde(tag = "kind")]
pub enum Notice<T> {
    Text { to: Vec<T>, copies: HashMap<String, T> },
    Ping,
}
