//! What the crate hands out. Serde hands deserializers out as a type parameter, and the crate keeps
//! what they hold private, so they are looked at through types of the same fields.

use crate::trees::{show, show_text};
use serde::de::{DeserializeSeed, EnumAccess, Visitor};
use serde::Deserializer as _;
use serde_content::{Data, Deserializer, Enum, Error, Value};
use std::any::type_name;
use std::borrow::Cow;
use std::fmt::{Formatter, Result as Printed};
use std::mem::{transmute_copy, ManuallyDrop};

/// The fields of a `serde_content::Deserializer`.
struct OfTree {
    value: Value<'static>,
    human_readable: bool,
    coerce_numbers: bool,
}

/// The fields of a `serde_content::de::identifier::Identifier`.
struct OfName {
    name: Cow<'static, str>,
    index: u64,
}

/// The two flags of a deserializer.
#[derive(Clone, Copy, PartialEq)]
pub struct Flags {
    pub human_readable: bool,
    pub coerces: bool,
}

impl Flags {
    /// The flags that a word tells.
    pub fn read(word: &str) -> Flags {
        Flags { human_readable: word.contains('h'), coerces: word.contains('c') }
    }

    /// The word of these flags.
    pub fn word(self) -> &'static str {
        match (self.human_readable, self.coerces) {
            (false, false) => "-",
            (true, false) => "h",
            (false, true) => "c",
            (true, true) => "hc",
        }
    }

    /// A deserializer of this tree with these flags.
    pub fn deserializer(self, value: Value<'static>) -> Deserializer<'static> {
        let mut from = Deserializer::new(value);
        if self.human_readable {
            from = from.human_readable();
        }
        if self.coerces {
            from = from.coerce_numbers();
        }
        from
    }
}

/// What a deserializer reads.
pub enum Source {
    Tree(Value<'static>),
    Name(Cow<'static, str>, u64),
}

/// What is handed out.
pub struct Handed {
    pub flags: Flags,
    pub source: Source,
}

/// What a deserializer holds, as a type of the same fields.
fn fields_of<D, T>(from: D) -> T {
    assert_eq!(size_of::<D>(), size_of::<T>(), "{} has other fields", type_name::<D>());
    let from = ManuallyDrop::new(from);
    // SAFETY: `check_layout` has compared both types with what they hold.
    unsafe { transmute_copy(&*from) }
}

impl Handed {
    /// What a deserializer of the crate holds. An identifier has no flag for numbers.
    pub fn of<D: serde::Deserializer<'static>>(from: D) -> Handed {
        let human_readable = from.is_human_readable();
        match type_name::<D>().split('<').next() {
            Some("serde_content::de::Deserializer") => {
                let OfTree { value, human_readable, coerce_numbers: coerces } = fields_of(from);
                Handed { flags: Flags { human_readable, coerces }, source: Source::Tree(value) }
            }
            Some("serde_content::de::identifier::Identifier") => {
                let OfName { name, index } = fields_of(from);
                Handed {
                    flags: Flags { human_readable, coerces: false },
                    source: Source::Name(name, index),
                }
            }
            _ => panic!("{} isn't the crate's", type_name::<D>()),
        }
    }

    /// The flags, a colon and what is read.
    pub fn show(&self) -> String {
        format!("{}:{}", self.flags.word(), self.show_source())
    }

    /// What is read inside an access with these flags, its own before it only where they differ. A
    /// name is for people.
    pub fn show_inside(&self, flags: Flags) -> String {
        let expected = match self.source {
            Source::Tree(_) => flags,
            Source::Name(..) => Flags { human_readable: true, coerces: false },
        };
        if self.flags == expected {
            self.show_source()
        } else {
            self.show()
        }
    }

    /// What is read.
    fn show_source(&self) -> String {
        match &self.source {
            Source::Tree(value) => show(value),
            Source::Name(name, index) => format!("id({}, {index})", show_text('s', name)),
        }
    }
}

/// Takes what is handed out.
pub struct Hand;

impl DeserializeSeed<'static> for Hand {
    type Value = Handed;

    fn deserialize<D: serde::Deserializer<'static>>(self, from: D) -> Result<Handed, D::Error> {
        Ok(Handed::of(from))
    }
}

/// Hands the tag of a variant to a seed.
struct Tag<S>(S);

impl<S: DeserializeSeed<'static>> Visitor<'static> for Tag<S> {
    type Value = S::Value;

    fn expecting(&self, out: &mut Formatter) -> Printed {
        out.write_str("a variant")
    }

    fn visit_enum<A: EnumAccess<'static>>(self, access: A) -> Result<S::Value, A::Error> {
        access.variant_seed(self.0).map(|(value, _)| value)
    }
}

/// Hands the name of a variant with this index to a seed.
pub fn with_name<S: DeserializeSeed<'static>>(
    flags: Flags,
    variant: Cow<'static, str>,
    variant_index: u32,
    seed: S,
) -> Result<S::Value, Error> {
    let node = Enum { name: Cow::Borrowed("E"), variant_index, variant, data: Data::Unit };
    flags.deserializer(Value::Enum(Box::new(node))).deserialize_enum("E", &[], Tag(seed))
}

/// Whether what is handed out holds what the crate was given.
pub fn check_layout() {
    for word in ["-", "h", "c", "hc"] {
        let handed = Handed::of(Flags::read(word).deserializer(Value::from("text")));
        assert_eq!(handed.show(), format!("{word}:b\"text\""));
        for name in [Cow::Borrowed("text"), Cow::Owned("text".to_string())] {
            let wanted = format!("h:id({}, 7)", show_text('s', &name));
            let handed = with_name(Flags::read(word), name, 7, Hand).expect("a name");
            assert_eq!(handed.show(), wanted);
        }
    }
}
