//! Reads each case by what Serde derives, and prints the text of the refusal.
#![allow(dead_code)]

mod cases;
mod choices;
mod inlined;
mod more;
mod sorts;
mod tree;
mod types;

use serde::Deserialize;
use tree::Tree;

/// Why this can't be read as a `T`, or that it can.
fn refusal<'de, T: Deserialize<'de>>(tree: Tree) -> String {
    match T::deserialize(tree) {
        Ok(_) => "no refusal".to_string(),
        Err(error) => error.to_string(),
    }
}

fn main() {
    cases::print_all();
}
