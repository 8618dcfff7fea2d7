//! Asks the Rust crate for the answer to each case of the standard input, and prints it, written as
//! crates/check_rows writes ours. Behind a tab stands what the crate answers without the oddity
//! that the case meets: a hint that no memory can hold, a variant of an enum read as a `Value`.
//! Calls that Serde's traits can't make have no answer: `impossible` or, in a value that the crate
//! never looks at, `unseen`. Behind the tab is then the call with which they can't go on.

mod asking;
mod calls;
mod cursor;
mod handed;
mod list;
mod opening;
mod reading;
mod sending;
mod showing;
mod stepping;
mod trees;
mod typed;
mod whole;

use std::io::{stdin, stdout, BufWriter, Write};

/// What the crate answers to a case.
fn answer(case: &str) -> String {
    let columns: Vec<&'static str> = case.to_string().leak().split('\t').collect();
    match columns.as_slice() {
        ["calls", calls] => calls::answer(calls),
        ["ask", flags, request, source] => asking::ask(flags, request, source),
        ["enum", flags, name, request, source] => opening::variant(flags, name, request, source),
        ["read", flags, typ, source] => reading::read(flags, typ, source),
        ["access", flags, request, steps, source] => {
            stepping::access(flags, request, steps, source)
        }
        [operation, trees @ ..] => whole::answer(operation, trees),
        [] => unreachable!("a line has a column"),
    }
}

fn main() {
    handed::check_layout();
    calls::silence_overflows();
    let mut out = BufWriter::new(stdout().lock());
    for case in stdin().lines() {
        writeln!(out, "{}", answer(&case.expect("a line"))).expect("a write");
    }
}
