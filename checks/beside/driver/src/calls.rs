//! Lists of calls, made on the crate's serializer by a type that calls Serde's traits in their order.

use crate::list::List;
use crate::trees::{number_of, show};
use serde::ser::{
    Serialize, SerializeMap, SerializeSeq, SerializeStruct, SerializeStructVariant, SerializeTuple,
    SerializeTupleStruct, SerializeTupleVariant, Serializer as _,
};
use serde_content::{Error, Serializer, Value};
use std::any::Any;
use std::panic::{catch_unwind, set_hook, take_hook, AssertUnwindSafe};

/// What is said where a hint is more than memory can hold.
const OVERFLOW: &str = "capacity overflow";

/// The text of a panic.
fn text_of(panic: &(dyn Any + Send)) -> &str {
    panic
        .downcast_ref::<&str>()
        .copied()
        .or(panic.downcast_ref::<String>().map(String::as_str))
        .unwrap_or("")
}

/// Says nothing of a panic at a hint.
pub fn silence_overflows() {
    let say = take_hook();
    set_hook(Box::new(move |panic| {
        if text_of(panic.payload()) != OVERFLOW {
            say(panic);
        }
    }));
}

/// What the crate makes of the calls.
pub fn answer(calls: &'static str) -> String {
    let list = List::new(calls, false);
    match catch_unwind(AssertUnwindSafe(|| list.made())) {
        Ok(made) => list.told(made),
        Err(panic) => {
            let list = List::new(calls, true);
            let told = list.told(list.made());
            format!(
                "panicked: {}\t{}",
                text_of(&*panic),
                told.split('\t').next_back().unwrap_or_default()
            )
        }
    }
}

impl List {
    /// The value that the crate makes, where all calls are needed for it.
    fn made(&self) -> Result<Value<'static>, Error> {
        let value = self.value()?;
        match self.calls.get(self.at.get()) {
            None => Ok(value),
            Some(_) => Err(self.refuse(0)),
        }
    }

    /// The answer. Behind a tab stands where our list is refused: at an item whose value is ignored,
    /// at calls that nobody looked at, or at calls that the traits can't make.
    fn told(&self, made: Result<Value<'static>, Error>) -> String {
        let word = match &made {
            Ok(value) => format!("ok {}", show(value)),
            Err(error) if self.refusal.get().is_none() => format!("refused {error}"),
            Err(_) if self.is_unseen.get() => "unseen".to_string(),
            Err(_) => "impossible".to_string(),
        };
        match (self.ignored.get(), self.refusal.get()) {
            (Some(at), _) => format!("ignored {word}\trefused at {at}: call out of place"),
            (None, Some((at, why))) => format!("{word}\trefused at {at}: {why}"),
            (None, None) => word,
        }
    }

    /// Passes the tree at this place, at which the crate doesn't look.
    fn pass<E: serde::ser::Error>(&self, place: usize) -> Result<(), E> {
        let aside = List { calls: self.calls.clone(), hides_hints: true, ..List::default() };
        aside.at.set(place);
        let passed = aside.serialize(Serializer::new());
        self.at.set(aside.at.get());
        self.refusal.set(self.refusal.get().or(aside.refusal.get()));
        self.is_unseen.set(passed.is_err());
        passed.map(|_| ()).map_err(E::custom)
    }

    /// A map, whose items come in any order.
    fn map<S: serde::Serializer>(&self, hint: Option<usize>, to: S) -> Result<S::Ok, S::Error> {
        let mut map = to.serialize_map(hint)?;
        loop {
            let words = self.take();
            let place = self.at.get();
            match words.as_slice() {
                ["end"] => return map.end(),
                ["key"] => map.serialize_key(self)?,
                ["entry"] => map.serialize_entry(self, self)?,
                ["value"] => {
                    map.serialize_value(self)?;
                    if self.at.get() == place {
                        self.pass(place)?;
                    }
                }
                _ => return Err(self.refuse_taken(&words)),
            }
        }
    }
}

/// Reads the items of a struct or a variant, announced by either trait's call, and ends it by the
/// trait that opened it.
macro_rules! fields_of {
    ($list:expr, $made:expr, $tuple:ident, $record:ident, $opened:ident) => {{
        let mut made = $made?;
        loop {
            let words = $list.take();
            let place = $list.at.get();
            match words.as_slice() {
                ["end"] => return $opened::end(made),
                ["tuple_field"] => $tuple::serialize_field(&mut made, $list)?,
                ["field", key] => $record::serialize_field(&mut made, key, $list)?,
                _ => return Err($list.refuse_taken(&words)),
            }
            if $list.at.get() == place {
                $list.ignored.set($list.ignored.get().or(Some(place - 1)));
                $list.pass::<Error>(place)?;
            }
        }
    }};
}

impl List {
    /// The value that the crate makes. The fields of the outermost struct or variant may be of the
    /// other trait, since its type is known.
    fn value(&self) -> Result<Value<'static>, Error> {
        let words = self.take();
        let to = Serializer::new();
        match words.as_slice() {
            ["tuple_struct", name, length] => {
                let made = to.serialize_tuple_struct(name, self.length(length));
                fields_of!(self, made, SerializeTupleStruct, SerializeStruct, SerializeTupleStruct)
            }
            ["struct", name, length] => {
                let made = to.serialize_struct(name, self.length(length));
                fields_of!(self, made, SerializeTupleStruct, SerializeStruct, SerializeStruct)
            }
            ["tuple_variant", name, index, variant, length] => {
                let made =
                    to.serialize_tuple_variant(name, number(index), variant, self.length(length));
                fields_of!(
                    self,
                    made,
                    SerializeTupleVariant,
                    SerializeStructVariant,
                    SerializeTupleVariant
                )
            }
            ["struct_variant", name, index, variant, length] => {
                let made =
                    to.serialize_struct_variant(name, number(index), variant, self.length(length));
                fields_of!(
                    self,
                    made,
                    SerializeTupleVariant,
                    SerializeStructVariant,
                    SerializeStructVariant
                )
            }
            _ => {
                self.at.set(0);
                self.serialize(to)
            }
        }
    }
}

/// The index of a variant.
fn number(word: &str) -> u32 {
    word.parse().expect("an index")
}

/// The text that a call has, where `%` and two digits stand for a byte.
fn decoded(text: &str) -> String {
    let mut pieces = text.split('%');
    let mut bytes = pieces.next().unwrap_or_default().as_bytes().to_vec();
    for piece in pieces {
        let (code, rest) = piece.split_at(2);
        bytes.push(u8::from_str_radix(code, 16).expect("two digits"));
        bytes.extend(rest.as_bytes());
    }
    String::from_utf8(bytes).expect("a text")
}

/// The bytes that pairs of digits spell.
fn octets(digits: &str) -> Vec<u8> {
    let pairs = digits.as_bytes().chunks(2).map(|pair| std::str::from_utf8(pair).expect("digits"));
    pairs.map(|pair| u8::from_str_radix(pair, 16).expect("two digits")).collect()
}

impl List {
    /// The compound that these words open, whose items are of one sort.
    fn listed<S: serde::Serializer>(
        &self,
        words: &[&'static str],
        to: S,
    ) -> Result<S::Ok, S::Error> {
        match words {
            ["seq", hint @ ..] => {
                let mut items = to.serialize_seq(self.hint(hint))?;
                while self.announces("element")? {
                    items.serialize_element(self)?;
                }
                items.end()
            }
            ["tuple", length] => {
                let mut items = to.serialize_tuple(self.length(length))?;
                while self.announces("element")? {
                    items.serialize_element(self)?;
                }
                items.end()
            }
            ["tuple_struct", name, length] => {
                let mut items = to.serialize_tuple_struct(name, self.length(length))?;
                while self.announces("tuple_field")? {
                    items.serialize_field(self)?;
                }
                items.end()
            }
            ["tuple_variant", name, index, variant, length] => {
                let mut items =
                    to.serialize_tuple_variant(name, number(index), variant, self.length(length))?;
                while self.announces("tuple_field")? {
                    items.serialize_field(self)?;
                }
                items.end()
            }
            ["struct", name, length] => {
                let mut fields = to.serialize_struct(name, self.length(length))?;
                while let Some(key) = self.field()? {
                    fields.serialize_field(key, self)?;
                }
                fields.end()
            }
            ["struct_variant", name, index, variant, length] => {
                let mut fields =
                    to.serialize_struct_variant(name, number(index), variant, self.length(length))?;
                while let Some(key) = self.field()? {
                    fields.serialize_field(key, self)?;
                }
                fields.end()
            }
            _ => Err(self.refuse_taken(words)),
        }
    }
}

impl Serialize for List {
    /// The tree that the next calls spell.
    fn serialize<S: serde::Serializer>(&self, to: S) -> Result<S::Ok, S::Error> {
        let words = self.take();
        match words.as_slice() {
            ["unit"] => to.serialize_unit(),
            ["none"] => to.serialize_none(),
            ["some"] => to.serialize_some(self),
            ["bool", flag] => to.serialize_bool(*flag == "true"),
            ["char", text] => to.serialize_char(decoded(text).chars().next().expect("a character")),
            ["str", text] => to.serialize_str(&decoded(text)),
            ["bytes", digits] => to.serialize_bytes(&octets(digits)),
            ["unit_struct", name] => to.serialize_unit_struct(name),
            ["newtype_struct", name] => to.serialize_newtype_struct(name, self),
            ["unit_variant", name, index, variant] => {
                to.serialize_unit_variant(name, number(index), variant)
            }
            ["newtype_variant", name, index, variant] => {
                to.serialize_newtype_variant(name, number(index), variant, self)
            }
            [kind, digits] if kind.starts_with(['i', 'u']) && kind.len() <= 4 => {
                number_of(kind, digits).serialize(to)
            }
            ["map", hint @ ..] => self.map(self.hint(hint), to),
            words => self.listed(words, to),
        }
    }
}
