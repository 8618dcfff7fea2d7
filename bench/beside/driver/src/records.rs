//! Records, made from a number alone. bench/cbor has them too.

use crate::types::{Point, Record};

/// So many records of six fields, in two variants by turns. Half of them have a limit, and each has
/// four counts.
pub fn records(count: u64) -> Vec<Record> {
    (0..count).map(record).collect()
}

fn record(i: u64) -> Record {
    let code = i as u16;
    let id = i.wrapping_mul(2_654_435_761);
    let name = format!("name-{code:08x}");
    let used = i % 3 == 0;
    let limit = (i % 4 < 2).then_some(code);
    let place = Point { x: i as i32, y: -(i as i32) };
    let counts = (0..4).map(|k| code.wrapping_add(k)).collect();
    if i % 2 == 0 {
        Record::Added { id, name, used, limit, place, counts }
    } else {
        Record::Changed { id, name, used, limit, place, counts }
    }
}
