//! One phase after another, each between two marks, the same in the Rust crate and in ours.

use crate::data::{map, nest, points, tree};
use crate::data::{sum_map, sum_nest, sum_points, sum_records, sum_tree};
use crate::records::records;
use serde::{de::DeserializeOwned, Serialize};
use serde_content::{Deserializer, Expected, Serializer, Unexpected, Value};
use std::cmp::Ordering;
use std::hint::black_box;
use std::process::exit;
use std::sync::atomic::{AtomicU32, Ordering::Relaxed};

extern "C" {
    fn port_points_phases(count: u64) -> u64;
    fn port_nest_phases(count: u64) -> u64;
    fn port_map_phases(count: u64) -> u64;
    fn port_tree_phases(count: u64) -> u64;
    fn port_records_phases(count: u64) -> u64;
    fn port_by_hand_phases(count: u64) -> u64;
}

/// The mark at which the program ends.
pub static LAST: AtomicU32 = AtomicU32::new(u32::MAX);

/// The mark before a phase. Ours calls it too.
#[no_mangle]
#[inline(never)]
pub extern "C" fn port_mark(phase: u32) {
    if phase == LAST.load(Relaxed) {
        exit(0);
    }
}

/// Runs the phases; the answer is the length of the printed error, where all went well.
pub fn run(who: &str, shape: &str, count: u64) -> u64 {
    match (who, shape) {
        ("rust", "points") => typed(&points(count), sum_points),
        ("rust", "nest") => typed(&nest(count), sum_nest),
        ("rust", "map") => typed(&map(count), sum_map),
        ("rust", "tree") => typed(&tree(count), sum_tree),
        ("rust", "records") => typed(&records(count), sum_records),
        // The Rust crate has only one way, so these are its derived points.
        ("rust", "by_hand") => typed(&points(count), sum_points),
        // SAFETY: each takes a number, gives one, and keeps nothing.
        ("ours", "points") => unsafe { port_points_phases(count) },
        ("ours", "nest") => unsafe { port_nest_phases(count) },
        ("ours", "map") => unsafe { port_map_phases(count) },
        ("ours", "tree") => unsafe { port_tree_phases(count) },
        ("ours", "records") => unsafe { port_records_phases(count) },
        ("ours", "by_hand") => unsafe { port_by_hand_phases(count) },
        _ => panic!("no such shape"),
    }
}

fn typed<T: Serialize + DeserializeOwned>(data: &T, sum: fn(&T) -> u64) -> u64 {
    let answer = phases(data);
    if sum(&read_back(data)) == sum(data) {
        answer
    } else {
        0
    }
}

#[inline(never)]
fn phases<T: Serialize>(data: &T) -> u64 {
    port_mark(0);
    let value: Value<'static> = Serializer::new().serialize(data).unwrap();
    port_mark(1);
    let copy = value.clone();
    port_mark(2);
    let same = black_box(black_box(&value) == black_box(&copy));
    port_mark(3);
    let order = black_box(black_box(&value).partial_cmp(black_box(&copy)));
    port_mark(4);
    let own = copy.into_owned();
    port_mark(5);
    drop(own);
    port_mark(6);
    let error = value.unexpected(Expected::Unit);
    port_mark(7);
    let text = error.to_string();
    port_mark(8);
    drop(error);
    port_mark(9);
    if same && order == Some(Ordering::Equal) {
        text.len() as u64
    } else {
        0
    }
}

/// The tenth phase is a second serialising, the eleventh the reading of what it made.
#[inline(never)]
fn read_back<T: Serialize + DeserializeOwned>(data: &T) -> T {
    let value: Value<'static> = Serializer::new().serialize(data).unwrap();
    port_mark(10);
    let back = T::deserialize(Deserializer::new(value)).unwrap();
    port_mark(11);
    back
}
