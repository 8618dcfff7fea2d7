//! Values of every sort inside others, four levels deep and more.

use crate::choices::Setting;
use crate::inlined::Line;
use crate::sorts::{Code, Ledger, Stop};
use crate::types::{Place, Step};
use serde::Deserialize;
use std::collections::BTreeMap;

/// A depot.
#[derive(Deserialize)]
pub struct Depot {
    /// Its name.
    pub name: String,
    /// Who keeps it.
    #[serde(flatten)]
    pub keeper: Keeper,
    /// What drives from it.
    pub vans: Vec<Van>,
    /// How it runs.
    pub settings: BTreeMap<String, Setting>,
    /// What is on which floor.
    pub floors: BTreeMap<u8, Vec<Place>>,
    /// Where the signs point to.
    pub signs: BTreeMap<char, Stop>,
    /// Which codes are in use.
    pub ledger: Ledger,
    /// What drives in need.
    pub spare: Option<Box<Van>>,
}

/// Who keeps a depot.
#[derive(Deserialize)]
pub struct Keeper {
    /// Where the keeper lives.
    pub home: Place,
    /// A code, and another with numbers.
    pub codes: (Code, (Code, Vec<u8>)),
}

/// What drives.
#[derive(Deserialize)]
pub struct Van {
    /// What is in it.
    pub load: Load,
    /// What it does.
    pub job: Option<Job>,
    /// What was seen of it.
    pub event: Option<Event>,
    /// Where it stops.
    #[serde(default)]
    pub route: Vec<Stop>,
}

/// What is in a van.
#[derive(Deserialize)]
#[serde(rename_all = "kebab-case")]
pub enum Load {
    /// Nothing.
    Empty,
    /// What goes to one place.
    One(Box<Place>),
    /// What goes from one stop to another.
    Two(Stop, Stop),
    /// What goes to many.
    Many {
        /// What it is.
        lines: Vec<Line>,
        /// The seal.
        #[serde(rename = "seal-of")]
        seal: Option<Code>,
    },
}

/// What a van does, told by the field `do`.
#[derive(Deserialize)]
#[serde(tag = "do", rename_all = "lowercase")]
pub enum Job {
    /// Nothing.
    Rest,
    /// It drives.
    Drive {
        /// To where.
        to: Stop,
        /// By which places.
        by: Vec<Place>,
    },
}

/// What was seen of a van, told by the field `t`, with more in the field `c`.
#[derive(Deserialize)]
#[serde(tag = "t", content = "c", rename_all = "lowercase")]
pub enum Event {
    /// Nothing.
    Idle,
    /// What became of orders.
    Steps(Vec<Step>),
}
