//! Fields and variants with values, tests and names of their own.

use serde::{Deserialize, Serialize};

/// How much is told.
#[derive(PartialEq, Eq, Serialize, Deserialize)]
#[serde(rename_all = "lowercase")]
pub enum Grade {
    /// Little.
    Quiet,
    /// Some, with a limit.
    #[serde(alias = "warning", alias = "w")]
    Warn(u8),
    /// All, from one number to another.
    #[serde(alias = "all")]
    Full {
        /// The first.
        from: i32,
        /// The last.
        to: u8,
    },
    /// What has another name.
    #[serde(other)]
    Other,
}

/// How a server runs.
#[derive(PartialEq, Eq, Serialize, Deserialize)]
#[serde(rename_all = "kebab-case")]
pub struct Server {
    /// The name of its host.
    #[serde(default = "host")]
    pub host_name: String,
    /// Its port.
    #[serde(default = "port", skip_serializing_if = "is_port")]
    pub port: u16,
    /// By how much it is moved.
    #[serde(default = "Server::offset")]
    pub offset: i32,
    /// Whether it is open.
    #[serde(default = "yes", skip_serializing_if = "is_open")]
    pub open: bool,
    /// Whether it is quiet.
    #[serde(default, skip_serializing_if = "std::ops::Not::not")]
    pub quiet: bool,
    /// What it tells.
    #[serde(default = "Server::grade")]
    pub r#type: Grade,
}

fn host() -> String {
    "local".to_owned()
}

const PORT: u16 = 8_080;

fn port() -> u16 {
    PORT
}

fn is_port(port: &u16) -> bool {
    *port == PORT
}

fn yes() -> bool {
    true
}

fn is_open(open: &bool) -> bool {
    *open
}

impl Server {
    fn offset() -> i32 {
        -5
    }

    fn grade() -> Grade {
        Grade::Quiet
    }
}

/// A size, with a default of its own.
#[derive(PartialEq, Eq, Serialize, Deserialize)]
#[serde(default)]
pub struct Extent {
    /// How wide.
    pub width: u32,
    /// How it is called.
    pub name: String,
    /// Its weight, if known.
    pub weight: Option<u8>,
}

impl Default for Extent {
    fn default() -> Self {
        Extent {
            width: 80,
            name: String::from("plain"),
            weight: None,
        }
    }
}

fn first() -> u8 {
    1
}

/// A task, of which some fields have further names, and others are sent alone, read alone, or neither.
#[derive(PartialEq, Eq, Serialize, Deserialize)]
pub struct Task {
    /// What is done first.
    #[serde(alias = "before-all", alias = "before")]
    pub setup: String,
    /// Its marks.
    #[serde(default, alias = "marks")]
    pub tags: Vec<u8>,
    /// How often it is done.
    #[serde(alias = "count", default = "first")]
    pub times: u8,
    /// What it says inside.
    #[serde(skip)]
    pub notes: Vec<u8>,
    /// Who may see it.
    #[serde(skip_serializing)]
    pub secret: String,
    /// How often it was done.
    #[serde(skip_deserializing, default = "first")]
    pub done: u8,
}

/// A label, which is sent by other names than it is read by.
#[derive(PartialEq, Eq, Serialize, Deserialize)]
#[serde(rename_all(serialize = "camelCase", deserialize = "kebab-case"))]
pub struct Sticker {
    /// The first line.
    pub first_line: String,
    /// Its sort.
    #[serde(rename(deserialize = "kind"))]
    pub sort_of: u8,
    /// Where it goes.
    #[serde(rename = "to")]
    pub way: Way,
}

/// A way.
#[derive(PartialEq, Eq, Serialize, Deserialize)]
pub enum Way {
    /// Upwards.
    #[serde(rename(serialize = "up", deserialize = "north"))]
    Up,
    /// Downwards, so far.
    Down(u8),
    /// Nowhere, which is neither sent nor read.
    #[serde(skip)]
    Lost(u8),
}

/// What a client asks for.
#[derive(PartialEq, Eq, Serialize, Deserialize)]
#[serde(tag = "op", rename_all = "lowercase")]
pub enum Request {
    /// To hear of a channel.
    #[serde(alias = "join", alias = "hear")]
    Listen {
        /// Its number.
        channel: u16,
    },
    /// To end.
    Quit,
    /// What has another tag.
    #[serde(other)]
    Unknown,
}
