//! An expression, which may contain others.

use serde::{Deserialize, Serialize};

/// An expression.
#[derive(Debug, PartialEq, Eq, Serialize, Deserialize)]
pub enum Expr {
    /// A number.
    Number(u64),
    /// The opposite of another.
    Not(Box<Expr>),
    /// A call of a function.
    Call {
        /// Its name.
        name: String,
        /// What it is called with.
        with: Vec<Expr>,
    },
}
