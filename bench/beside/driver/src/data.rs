//! The shapes of data, made from a number alone, and a sum of each.

use crate::types::{Point, Record};
use serde_content::{Number, Value};
use std::collections::BTreeMap;

pub type Points = Vec<Point>;
pub type Nest = Vec<Vec<Vec<u32>>>;
pub type Map = BTreeMap<String, u64>;
pub type Tree = Value<'static>;
pub type Records = Vec<Record>;

/// So many points.
pub fn points(count: u64) -> Points {
    (0..count as i32).map(|i| Point { x: i, y: -i }).collect()
}

/// A cube of about so many numbers.
pub fn nest(count: u64) -> Nest {
    let side = (1..).take_while(|side| side * side * side <= count).last().unwrap_or(1);
    let row = |i, j| (0..side).map(|k| (i * side * side + j * side + k) as u32).collect();
    (0..side).map(|i| (0..side).map(|j| row(i, j)).collect()).collect()
}

/// So many keys of twelve bytes, each with a number.
pub fn map(count: u64) -> Map {
    (0..count).map(|i| (key(i), i)).collect()
}

fn key(i: u64) -> String {
    format!("key-{:08x}", (i as u32).wrapping_mul(2_654_435_761))
}

/// A tree of so many nodes, four below each: sequences, and numbers at its ends.
pub fn tree(count: u64) -> Tree {
    fn node(i: u64, count: u64) -> Tree {
        if 4 * i + 1 >= count {
            return Value::Number(i.into());
        }
        let children = 4 * i + 1..(4 * i + 5).min(count);
        Value::Seq(children.map(|child| node(child, count)).collect())
    }
    node(0, count)
}

fn sum_point(point: &Point) -> u64 {
    (i64::from(point.x) * 3 + i64::from(point.y)) as u64
}

pub fn sum_points(points: &Points) -> u64 {
    points.iter().fold(0, |a: u64, point| a.wrapping_add(sum_point(point)))
}

pub fn sum_nest(nest: &Nest) -> u64 {
    let sum = |a: u64, x: &u32| a.wrapping_add(u64::from(*x));
    nest.iter().flatten().flatten().fold(0, sum)
}

pub fn sum_map(map: &Map) -> u64 {
    let sum = |a: u64, (k, v): (&String, &u64)| a.wrapping_add(v.wrapping_mul(k.len() as u64));
    map.iter().fold(0, sum)
}

pub fn sum_tree(tree: &Tree) -> u64 {
    match tree {
        Value::Seq(items) => items.iter().fold(1, |a: u64, x| a.wrapping_add(sum_tree(x))),
        Value::Number(Number::U64(value)) => *value,
        _ => 0,
    }
}

pub fn sum_records(records: &Records) -> u64 {
    records.iter().fold(0, |a: u64, record| a.wrapping_add(sum_record(record)))
}

fn sum_record(record: &Record) -> u64 {
    let times = if matches!(record, Record::Added { .. }) { 1 } else { 3 };
    let (Record::Added { id, name, used, limit, place, counts }
    | Record::Changed { id, name, used, limit, place, counts }) = record;
    let counts: u64 = counts.iter().map(|count| u64::from(*count)).sum();
    let sum = *id + name.len() as u64 + u64::from(*used) + u64::from(limit.unwrap_or(0));
    (sum + sum_point(place) + counts).wrapping_mul(times)
}
