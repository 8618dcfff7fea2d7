//! A list of calls that is read from its beginning.

use serde::ser::Error;
use std::cell::Cell;

/// What is left of a list, and what became of it.
#[derive(Default)]
pub struct List {
    /// All calls.
    pub calls: Vec<&'static str>,
    /// How many of them were taken.
    pub at: Cell<usize>,
    /// Where and why the traits can't make the calls.
    pub refusal: Cell<Option<(usize, &'static str)>>,
    /// The first item whose value the crate ignores, since it is of another trait.
    pub ignored: Cell<Option<usize>>,
    /// Hints aren't told.
    pub hides_hints: bool,
    /// The crate doesn't look at the tree that is read.
    pub is_unseen: Cell<bool>,
}

impl List {
    /// A list from its beginning.
    pub fn new(calls: &'static str, hides_hints: bool) -> List {
        let calls = calls.split("; ").filter(|call| !call.is_empty()).collect();
        List { calls, hides_hints, ..List::default() }
    }

    /// Takes the next call, as words.
    pub fn take(&self) -> Vec<&'static str> {
        let at = self.at.get();
        let Some(call) = self.calls.get(at) else {
            return Vec::new();
        };
        self.at.set(at + 1);
        match call.split_once(' ') {
            Some((word @ ("str" | "char"), text)) => vec![word, text],
            _ => call.split(' ').collect(),
        }
    }

    /// Refuses the call that many places back, or the end of the list.
    pub fn refuse<E: Error>(&self, back: usize) -> E {
        let place = self.at.get() - back;
        self.refusal.set(self.refusal.get().or(Some((place, "call out of place"))));
        E::custom("misplaced")
    }

    /// Refuses the call that was taken, or the end where none was.
    pub fn refuse_taken<E: Error>(&self, words: &[&str]) -> E {
        if words.is_empty() {
            self.refusal.set(self.refusal.get().or(Some((self.calls.len(), "call list is unfinished"))));
            return E::custom("unfinished");
        }
        self.refuse(1)
    }

    /// A hint, unless they aren't told.
    pub fn hint(&self, words: &[&str]) -> Option<usize> {
        words.first().filter(|_| !self.hides_hints).map(|hint| hint.parse().expect("a hint"))
    }

    /// A length, where hints aren't told 0.
    pub fn length(&self, word: &str) -> usize {
        self.hint(&[word]).unwrap_or(0)
    }

    /// Whether an item comes that this word announces, or else the end.
    pub fn announces<E: Error>(&self, word: &str) -> Result<bool, E> {
        let words = self.take();
        match words.as_slice() {
            ["end"] => Ok(false),
            [announced] if *announced == word => Ok(true),
            _ => Err(self.refuse_taken(&words)),
        }
    }

    /// The field that comes, or else the end.
    pub fn field<E: Error>(&self) -> Result<Option<&'static str>, E> {
        let words = self.take();
        match words.as_slice() {
            ["end"] => Ok(None),
            ["field", key] => Ok(Some(key)),
            _ => Err(self.refuse_taken(&words)),
        }
    }
}
