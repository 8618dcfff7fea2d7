//! Runs the phases of one shape of data, in serde_cbor or in ours. Callgrind writes its counts at
//! each mark between two phases.

mod records;
mod types;

use records::records;
use serde::{de::DeserializeOwned, Serialize};
use serde_cbor::{from_slice, to_vec, Value};
use std::collections::BTreeMap;
use std::hint::black_box;
use types::Point;

extern "C" {
    fn port_points_phases(count: u64) -> u64;
    fn port_map_phases(count: u64) -> u64;
    fn port_records_phases(count: u64) -> u64;
}

/// The mark before a phase. Ours calls it too.
#[no_mangle]
#[inline(never)]
pub extern "C" fn port_mark(phase: u32) {
    black_box(phase);
}

fn main() {
    let words: Vec<String> = std::env::args().skip(1).collect();
    let [who, shape, count] = words.as_slice() else {
        panic!("usage: bench rust|ours points|map|records COUNT");
    };
    let count = count.parse().expect("a number");
    let sum = match (who.as_str(), shape.as_str()) {
        ("rust", "points") => phases(&points(count)),
        ("rust", "map") => phases(&map(count)),
        ("rust", "records") => phases(&records(count)),
        // SAFETY: each takes a number, gives one, and keeps nothing.
        ("ours", "points") => unsafe { port_points_phases(count) },
        ("ours", "map") => unsafe { port_map_phases(count) },
        ("ours", "records") => unsafe { port_records_phases(count) },
        _ => panic!("no such shape"),
    };
    println!("{sum}");
}

/// So many points.
fn points(count: u64) -> Vec<Point> {
    (0..count as i32).map(|i| Point { x: i, y: -i }).collect()
}

/// So many keys of twelve bytes, each with a number.
fn map(count: u64) -> BTreeMap<String, u64> {
    let key = |i: u64| format!("key-{:08x}", (i as u32).wrapping_mul(2_654_435_761));
    (0..count).map(|i| (key(i), i)).collect()
}

/// The phases; the answer is a sum of the bytes.
fn phases<T: Serialize + DeserializeOwned + PartialEq>(data: &T) -> u64 {
    port_mark(0);
    let bytes = to_vec(data).unwrap();
    port_mark(1);
    let value: Value = from_slice(&bytes).unwrap();
    port_mark(2);
    let again = to_vec(&value).unwrap();
    port_mark(3);
    drop(value);
    assert!(again == bytes);
    port_mark(4);
    let back: T = from_slice(&bytes).unwrap();
    port_mark(5);
    assert!(back == *data);
    bytes.iter().fold(0, |sum, byte| sum.wrapping_mul(31).wrapping_add(u64::from(*byte)))
}
