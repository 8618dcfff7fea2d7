//! Variants of enums.

use crate::asking::{answered, with_source, Request, Send};
use crate::handed::{Flags, Hand, Handed};
use crate::showing::Show;
use serde::de::{EnumAccess, VariantAccess, Visitor};
use serde_content::{ErrorKind, Expected, Found, Unexpected, Value};
use std::fmt::{Formatter, Result as Printed};

/// What a variant answers to a request.
enum Opened {
    Handed(Handed),
    Shown(String),
}

/// Makes a request of a variant.
struct Open {
    request: Request,
    flags: Flags,
}

impl Visitor<'static> for Open {
    type Value = Opened;

    fn expecting(&self, out: &mut Formatter) -> Printed {
        out.write_str("a variant")
    }

    fn visit_enum<A: EnumAccess<'static>>(self, access: A) -> Result<Opened, A::Error> {
        let (_, variant) = access.variant_seed(Hand)?;
        let show = Show(self.flags);
        match self.request.word {
            "unit_variant" => variant.unit_variant().map(|()| Opened::Shown("()".to_string())),
            "newtype_deserializer" => variant.newtype_variant_seed(Hand).map(Opened::Handed),
            "tuple_variant" => variant.tuple_variant(self.request.length, show).map(Opened::Shown),
            "struct_variant" => variant.struct_variant(&[], show).map(Opened::Shown),
            word => unreachable!("{word} is no request of a variant"),
        }
    }
}

/// What is answered to a request for what a variant holds: one of an enum of this name, or under `-` whatever is there.
pub fn variant(
    flags: &'static str,
    name: &'static str,
    request: &'static str,
    source: &'static str,
) -> String {
    let open = Open { request: Request::read(request), flags: Flags::read(flags) };
    let by: &'static str = if name == "-" { "any" } else { format!("enum({name})").leak() };
    answered(with_source(flags, source, Send(by, open)).map(|opened| match opened {
        Opened::Handed(handed) => handed.show(),
        Opened::Shown(text) => text,
    }))
}

/// The image of a tree.
pub fn image(tree: Value<'static>) -> Found {
    match tree.unexpected(Expected::Unit).into_kind() {
        ErrorKind::Unexpected { found, .. } => found,
        kind => unreachable!("{kind:?} has no image"),
    }
}
