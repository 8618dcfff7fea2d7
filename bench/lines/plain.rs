//! What the program does for lines of numbers, texts, sequences, maps and structs, as one would
//! write it in Rust at once.

use std::fmt::{self, Display, Formatter};
use std::io::{self, Read, Write};

enum Number {
    I16(i16),
    I32(i32),
    I64(i64),
    U16(u16),
    U32(u32),
    U64(u64),
}

enum Value {
    Unit,
    Bool(bool),
    Number(Number),
    Str(String),
    Seq(Vec<Value>),
    Map(Vec<(Value, Value)>),
    Struct(Box<Struct>),
}

struct Struct {
    name: &'static str,
    fields: Vec<(&'static str, Value)>,
}

enum Call<'a> {
    Leaf(Value),
    Str(&'a str),
    Seq,
    Map,
    Struct(&'static str),
    Element,
    Key,
    Value,
    Field(&'static str),
    End,
}

/// What is open, and where in it the next tree goes.
enum Open {
    Seq { items: Vec<Value>, announced: bool },
    Map { pairs: Vec<(Value, Value)>, key: Option<Value>, announced: bool },
    Struct { name: &'static str, fields: Vec<(&'static str, Value)>, key: Option<&'static str> },
}

#[derive(Default)]
struct Builder {
    open: Vec<Open>,
    tree: Option<Value>,
}

const MISPLACED: &str = "call out of place";

impl Builder {
    fn call(&mut self, call: Call<'_>) -> Result<(), &'static str> {
        match call {
            Call::Leaf(value) => self.put(value),
            Call::Str(text) => self.put(Value::Str(text.to_string())),
            Call::Seq => self.begin(Open::Seq { items: Vec::new(), announced: false }),
            Call::Map => self.begin(Open::Map { pairs: Vec::new(), key: None, announced: false }),
            Call::Struct(name) => self.begin(Open::Struct { name, fields: Vec::new(), key: None }),
            Call::End => self.end(),
            call => self.announce(call),
        }
    }

    /// Whether a tree may come.
    fn waits(&self) -> bool {
        match self.open.last() {
            None => self.tree.is_none(),
            Some(Open::Seq { announced, .. } | Open::Map { announced, .. }) => *announced,
            Some(Open::Struct { key, .. }) => key.is_some(),
        }
    }

    fn begin(&mut self, open: Open) -> Result<(), &'static str> {
        if !self.waits() {
            return Err(MISPLACED);
        }
        self.open.push(open);
        Ok(())
    }

    fn announce(&mut self, call: Call<'_>) -> Result<(), &'static str> {
        match (self.open.last_mut(), call) {
            (Some(Open::Seq { announced, .. }), Call::Element) if !*announced => *announced = true,
            (Some(Open::Map { key: None, announced, .. }), Call::Key) if !*announced => {
                *announced = true;
            }
            (Some(Open::Map { key: Some(_), announced, .. }), Call::Value) if !*announced => {
                *announced = true;
            }
            (Some(Open::Struct { key, .. }), Call::Field(name)) if key.is_none() => {
                *key = Some(name);
            }
            _ => return Err(MISPLACED),
        }
        Ok(())
    }

    fn put(&mut self, value: Value) -> Result<(), &'static str> {
        if !self.waits() {
            return Err(MISPLACED);
        }
        match self.open.last_mut() {
            None => self.tree = Some(value),
            Some(Open::Seq { items, announced }) => {
                *announced = false;
                items.push(value);
            }
            Some(Open::Map { pairs, key, announced }) => {
                *announced = false;
                match key.take() {
                    None => *key = Some(value),
                    Some(key) => pairs.push((key, value)),
                }
            }
            Some(Open::Struct { fields, key, .. }) => {
                fields.push((key.take().ok_or(MISPLACED)?, value));
            }
        }
        Ok(())
    }

    fn end(&mut self) -> Result<(), &'static str> {
        if self.open.is_empty() || self.waits() {
            return Err(MISPLACED);
        }
        match self.open.pop() {
            Some(Open::Seq { items, .. }) => self.put(Value::Seq(items)),
            Some(Open::Map { pairs, key: None, .. }) => self.put(Value::Map(pairs)),
            Some(Open::Struct { name, fields, .. }) => {
                self.put(Value::Struct(Box::new(Struct { name, fields })))
            }
            _ => Err(MISPLACED),
        }
    }
}

fn name(text: &str) -> Option<&'static str> {
    ["Foo", "Bar", "Baz", "Point", "bar", "baz", "x", "y"].into_iter().find(|name| *name == text)
}

fn number(kind: &str, text: &str) -> Option<Number> {
    Some(match kind {
        "i16" => Number::I16(text.parse().ok()?),
        "i32" => Number::I32(text.parse().ok()?),
        "i64" => Number::I64(text.parse().ok()?),
        "u16" => Number::U16(text.parse().ok()?),
        "u32" => Number::U32(text.parse().ok()?),
        "u64" => Number::U64(text.parse().ok()?),
        _ => return None,
    })
}

fn parse(line: &str) -> Option<Call<'_>> {
    if !line.bytes().all(|byte| (32..127).contains(&byte)) {
        return None;
    }
    let Some((word, rest)) = line.split_once(' ') else {
        return Some(match line {
            "unit" => Call::Leaf(Value::Unit),
            "seq" => Call::Seq,
            "map" => Call::Map,
            "element" => Call::Element,
            "key" => Call::Key,
            "value" => Call::Value,
            "end" => Call::End,
            _ => return None,
        });
    };
    Some(match word {
        "bool" => Call::Leaf(Value::Bool(rest.parse().ok()?)),
        "str" => Call::Str(rest),
        "field" => Call::Field(name(rest)?),
        "struct" => {
            let (word, len) = rest.split_once(' ')?;
            let _len: usize = len.parse().ok()?;
            Call::Struct(name(word)?)
        }
        kind => Call::Leaf(Value::Number(number(kind, rest)?)),
    })
}

impl Display for Number {
    fn fmt(&self, f: &mut Formatter<'_>) -> fmt::Result {
        match self {
            Number::I16(n) => write!(f, "{n}i16"),
            Number::I32(n) => write!(f, "{n}i32"),
            Number::I64(n) => write!(f, "{n}i64"),
            Number::U16(n) => write!(f, "{n}u16"),
            Number::U32(n) => write!(f, "{n}u32"),
            Number::U64(n) => write!(f, "{n}u64"),
        }
    }
}

impl Display for Value {
    fn fmt(&self, f: &mut Formatter<'_>) -> fmt::Result {
        match self {
            Value::Unit => f.write_str("()"),
            Value::Bool(boolean) => write!(f, "{boolean}"),
            Value::Number(number) => number.fmt(f),
            Value::Str(text) => write!(f, "{text:?}"),
            Value::Seq(items) => {
                f.write_str("[")?;
                for (i, item) in items.iter().enumerate() {
                    separate(f, i)?;
                    item.fmt(f)?;
                }
                f.write_str("]")
            }
            Value::Map(pairs) => {
                f.write_str("{ ")?;
                for (i, (key, value)) in pairs.iter().enumerate() {
                    separate(f, i)?;
                    key.fmt(f)?;
                    f.write_str(": ")?;
                    value.fmt(f)?;
                }
                f.write_str(" }")
            }
            Value::Struct(node) => {
                f.write_str(node.name)?;
                f.write_str(" { ")?;
                for (i, (key, value)) in node.fields.iter().enumerate() {
                    separate(f, i)?;
                    f.write_str(key)?;
                    f.write_str(": ")?;
                    value.fmt(f)?;
                }
                f.write_str(" }")
            }
        }
    }
}

fn separate(f: &mut Formatter<'_>, index: usize) -> fmt::Result {
    if index > 0 {
        f.write_str(", ")?;
    }
    Ok(())
}

fn answer(input: &str) -> String {
    let mut builder = Builder::default();
    let mut refused = None;
    let mut calls = 0;
    for (i, line) in input.split('\n').enumerate() {
        if line.is_empty() {
            continue;
        }
        let Some(call) = parse(line) else {
            return format!("bad line {}", i + 1);
        };
        if refused.is_none() {
            refused = builder.call(call).err().map(|why| format!("refused at {calls}: {why}"));
        }
        calls += 1;
    }
    match (refused, builder.open.is_empty(), builder.tree) {
        (Some(refused), ..) => refused,
        (None, true, Some(tree)) => format!("ok {tree}"),
        _ => format!("refused at {calls}: call list is unfinished"),
    }
}

fn main() -> io::Result<()> {
    let mut input = Vec::new();
    io::stdin().read_to_end(&mut input)?;
    let text = String::from_utf8_lossy(&input);
    let answer = answer(&text);
    io::stdout().write_all(answer.as_bytes())?;
    io::stdout().write_all(b"\n")
}
