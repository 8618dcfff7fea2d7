//! What is only sent, and borrowed.

use serde::Serialize;

/// What is shown of switches.
#[derive(Serialize)]
pub struct Board<'a> {
    /// Their names.
    pub names: &'a [&'a str],
    /// How often each was turned, if there are any.
    #[serde(skip_serializing_if = "<[_]>::is_empty")]
    pub turns: &'a [u32],
}
