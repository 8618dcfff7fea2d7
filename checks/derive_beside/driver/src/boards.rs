//! How `Shown` is sent: as a board that borrows what it shows.

use crate::borrowed::Board;
use crate::others::Counts;
use serde::{Serialize, Serializer};

/// Sends a board of these counts.
pub fn send<S: Serializer>(counts: &Counts, serializer: S) -> Result<S::Ok, S::Error> {
    let names: Vec<&str> = counts.names.iter().map(String::as_str).collect();
    let turns = counts.turns.as_slice();
    Board { names: &names, turns }.serialize(serializer)
}
