//! Runs the phases of one shape of data, in the Rust crate or in ours. Callgrind writes its counts
//! at each mark between two phases. With a MARK the program ends there.

mod data;
mod phases;
mod records;
mod types;

use std::sync::atomic::Ordering::Relaxed;

fn main() {
    let words: Vec<String> = std::env::args().skip(1).collect();
    let [who, shape, count, mark @ ..] = words.as_slice() else {
        panic!("usage: bench rust|ours points|nest|map|tree|records|by_hand COUNT [MARK]");
    };
    if let [mark] = mark {
        phases::LAST.store(mark.parse().expect("a number"), Relaxed);
    }
    let count = count.parse().expect("a number");
    println!("{}", phases::run(who, shape, count));
}
