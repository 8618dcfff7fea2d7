//! Structs of which one field takes what no other field does.

use serde::Deserialize;
use std::collections::BTreeMap;

/// A package, as a file describes it.
#[derive(PartialEq, Eq, Deserialize)]
#[serde(rename_all = "kebab-case")]
pub struct Package {
    /// What it is called.
    pub name: String,
    /// What stands under other names.
    #[serde(flatten)]
    pub other_keys: BTreeMap<String, String>,
    /// Since when it is there.
    pub first_year: Option<u16>,
}

/// What is the same of every key.
#[derive(PartialEq, Eq, Deserialize)]
pub struct Common {
    /// What it is for.
    pub usage: Option<String>,
    /// Its number.
    pub id: u32,
}

/// A sort of key, told by the field `kty`.
#[derive(PartialEq, Eq, Deserialize)]
#[serde(tag = "kty")]
pub enum Algorithm {
    /// A number of bits.
    Rsa {
        /// How many.
        bits: u32,
    },
    /// A curve.
    Curve(Curve),
}

/// A curve.
#[derive(PartialEq, Eq, Deserialize)]
pub struct Curve {
    /// Its name.
    pub crv: String,
}

/// A key: its own fields among those of its sort.
#[derive(PartialEq, Eq, Deserialize)]
pub struct Key {
    /// The same of every key.
    #[serde(flatten)]
    pub common: Common,
    /// Its sort.
    #[serde(flatten)]
    pub algorithm: Algorithm,
}

/// A chat, told by what it has.
#[derive(PartialEq, Eq, Deserialize)]
#[serde(untagged)]
pub enum Chat {
    /// With many.
    Public {
        /// What it is called.
        title: String,
    },
    /// With one.
    Private(Curve),
    /// Any other.
    Other(BTreeMap<String, u8>),
}

/// A message, with the fields of its chat.
#[derive(PartialEq, Eq, Deserialize)]
pub struct Post {
    /// Its number.
    pub id: u32,
    /// Where it was written.
    #[serde(flatten)]
    pub chat: Chat,
}

/// A lock, which may say how it is opened.
#[derive(PartialEq, Eq, Deserialize)]
pub struct Lock {
    /// Its number.
    pub id: u32,
    /// By what it is opened.
    #[serde(flatten)]
    pub algorithm: Option<Algorithm>,
}
