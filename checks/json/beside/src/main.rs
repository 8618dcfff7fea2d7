//! What Rust's `serde_json` writes of the trees of `trees.py`: of each line of words the text on one line, the text on
//! several, and a line of two dashes; `refused` where it has no text. With the word `keys`, booleans and `Some` that are
//! keys are sent as the texts that content_json writes of them.

use serde::ser::*;
use std::io::{BufRead, Write};

/// A tree, as its calls to a serialiser say it.
enum Tree {
    Unit,
    Bool(bool),
    /// Its kind, as `u8`, and its digits.
    Number(String, String),
    Char(char),
    Text(String),
    Bytes(Vec<u8>),
    Seq(Vec<Tree>),
    Tuple(Vec<Tree>),
    Map(Vec<(Tree, Tree)>),
    Absent,
    Present(Box<Tree>),
    Struct(Data),
    Variant(&'static str, Data),
}

/// What a struct or a variant holds.
enum Data {
    None,
    One(Box<Tree>),
    Many(Vec<Tree>),
    Named(Vec<(&'static str, Tree)>),
}

fn hex(w: &str) -> Vec<u8> {
    let h = &w[1..];
    (0..h.len() / 2)
        .map(|i| u8::from_str_radix(&h[2 * i..2 * i + 2], 16).unwrap())
        .collect()
}

fn text(w: &str) -> String {
    String::from_utf8(hex(w)).unwrap()
}

fn name(w: &str) -> &'static str {
    Box::leak(text(w).into_boxed_str())
}

/// The words of a line.
type Words<'a> = std::str::Split<'a, char>;

fn list<R>(w: &mut Words, f: impl Fn(&mut Words) -> R) -> Vec<R> {
    let n: usize = w.next().unwrap().parse().unwrap();
    (0..n).map(|_| f(w)).collect()
}

fn tree(w: &mut Words) -> Tree {
    match w.next().unwrap() {
        "unit" => Tree::Unit,
        "true" => Tree::Bool(true),
        "false" => Tree::Bool(false),
        "absent" => Tree::Absent,
        "number" => Tree::Number(w.next().unwrap().into(), w.next().unwrap().into()),
        "character" => Tree::Char(char::from_u32(w.next().unwrap().parse().unwrap()).unwrap()),
        "text" => Tree::Text(text(w.next().unwrap())),
        "bytes" => Tree::Bytes(hex(w.next().unwrap())),
        "seq" => Tree::Seq(list(w, tree)),
        "tuple" => Tree::Tuple(list(w, tree)),
        "map" => Tree::Map(list(w, |w| {
            let k = tree(w);
            (k, tree(w))
        })),
        "present" => Tree::Present(Box::new(tree(w))),
        "struct" => Tree::Struct(data(w)),
        "variant" => {
            let n = name(w.next().unwrap());
            Tree::Variant(n, data(w))
        }
        o => panic!("{o}"),
    }
}

fn data(w: &mut Words) -> Data {
    match w.next().unwrap() {
        "none" => Data::None,
        "one" => Data::One(Box::new(tree(w))),
        "many" => Data::Many(list(w, tree)),
        "named" => Data::Named(list(w, |w| {
            let n = name(w.next().unwrap());
            (n, tree(w))
        })),
        o => panic!("{o}"),
    }
}

/// A key of a map.
struct Key<'a>(&'a Tree);

impl Serialize for Key<'_> {
    fn serialize<S: Serializer>(&self, s: S) -> Result<S::Ok, S::Error> {
        match self.0 {
            Tree::Bool(b) if plain_keys() => s.serialize_str(if *b { "true" } else { "false" }),
            Tree::Present(t) if plain_keys() => Key(t).serialize(s),
            Tree::Struct(Data::One(t)) => s.serialize_newtype_struct("A", &Key(t)),
            other => other.serialize(s),
        }
    }
}

fn plain_keys() -> bool {
    std::env::args().nth(1).as_deref() == Some("keys")
}

impl Serialize for Tree {
    fn serialize<S: Serializer>(&self, s: S) -> Result<S::Ok, S::Error> {
        match self {
            Tree::Unit => s.serialize_unit(),
            Tree::Bool(b) => s.serialize_bool(*b),
            Tree::Char(c) => s.serialize_char(*c),
            Tree::Text(t) => s.serialize_str(t),
            Tree::Bytes(b) => s.serialize_bytes(b),
            Tree::Absent => s.serialize_none(),
            Tree::Present(t) => s.serialize_some(&**t),
            Tree::Number(k, n) => match k.as_str() {
                "u8" => s.serialize_u8(n.parse().unwrap()),
                "u16" => s.serialize_u16(n.parse().unwrap()),
                "u32" => s.serialize_u32(n.parse().unwrap()),
                "u64" => s.serialize_u64(n.parse().unwrap()),
                "u128" => s.serialize_u128(n.parse().unwrap()),
                "i8" => s.serialize_i8(n.parse().unwrap()),
                "i16" => s.serialize_i16(n.parse().unwrap()),
                "i32" => s.serialize_i32(n.parse().unwrap()),
                "i64" => s.serialize_i64(n.parse().unwrap()),
                "i128" => s.serialize_i128(n.parse().unwrap()),
                o => panic!("{o}"),
            },
            Tree::Seq(v) => {
                let mut q = s.serialize_seq(Some(v.len()))?;
                for x in v {
                    q.serialize_element(x)?
                }
                q.end()
            }
            Tree::Tuple(v) => {
                let mut q = s.serialize_tuple(v.len())?;
                for x in v {
                    q.serialize_element(x)?
                }
                q.end()
            }
            Tree::Map(v) => {
                let mut q = s.serialize_map(Some(v.len()))?;
                for (k, x) in v {
                    q.serialize_entry(&Key(k), x)?
                }
                q.end()
            }
            Tree::Struct(Data::None) => s.serialize_unit_struct("A"),
            Tree::Struct(Data::One(x)) => s.serialize_newtype_struct("A", &**x),
            Tree::Struct(Data::Many(v)) => {
                let mut q = s.serialize_tuple_struct("A", v.len())?;
                for x in v {
                    q.serialize_field(x)?
                }
                q.end()
            }
            Tree::Struct(Data::Named(v)) => {
                let mut q = s.serialize_struct("A", v.len())?;
                for (k, x) in v {
                    q.serialize_field(k, x)?
                }
                q.end()
            }
            Tree::Variant(n, Data::None) => s.serialize_unit_variant("A", 0, n),
            Tree::Variant(n, Data::One(x)) => s.serialize_newtype_variant("A", 0, n, &**x),
            Tree::Variant(n, Data::Many(v)) => {
                let mut q = s.serialize_tuple_variant("A", 0, n, v.len())?;
                for x in v {
                    q.serialize_field(x)?
                }
                q.end()
            }
            Tree::Variant(n, Data::Named(v)) => {
                let mut q = s.serialize_struct_variant("A", 0, n, v.len())?;
                for (k, x) in v {
                    q.serialize_field(k, x)?
                }
                q.end()
            }
        }
    }
}

fn main() {
    let (i, mut o) = (std::io::stdin(), std::io::BufWriter::new(std::io::stdout()));
    for l in i.lock().lines() {
        let l = l.unwrap();
        let t = tree(&mut l.split(' '));
        for r in [serde_json::to_string(&t), serde_json::to_string_pretty(&t)] {
            match r {
                Ok(x) => writeln!(o, "{x}").unwrap(),
                Err(_) => writeln!(o, "refused").unwrap(),
            }
        }
        writeln!(o, "--").unwrap();
    }
}
