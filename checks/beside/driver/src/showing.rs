//! What the crate calls on a visitor.

use crate::handed::{Flags, Hand, Handed};
use crate::trees::show;
use serde::de::{EnumAccess, MapAccess, SeqAccess, Visitor};
use serde_content::Value;
use std::fmt::{Formatter, Result as Printed};

/// Shows what it is called with; of a variant of an enum the tag.
pub struct Show(pub Flags);

/// The visits of data, each shown as the tree that holds them.
macro_rules! visit {
    ($($visit:ident($typ:ty) => $value:expr;)*) => {
        $(fn $visit<E>(self, datum: $typ) -> Result<String, E> {
            Ok(show(&$value(datum)))
        })*
    };
}

impl Visitor<'static> for Show {
    type Value = String;

    fn expecting(&self, out: &mut Formatter) -> Printed {
        out.write_str("anything")
    }

    visit! {
        visit_bool(bool) => Value::Bool;
        visit_i8(i8) => Value::from;
        visit_u8(u8) => Value::from;
        visit_i16(i16) => Value::from;
        visit_u16(u16) => Value::from;
        visit_i32(i32) => Value::from;
        visit_u32(u32) => Value::from;
        visit_i64(i64) => Value::from;
        visit_u64(u64) => Value::from;
        visit_i128(i128) => Value::from;
        visit_u128(u128) => Value::from;
        visit_char(char) => Value::Char;
        visit_string(String) => Value::from;
        visit_borrowed_str(&'static str) => Value::from;
        visit_byte_buf(Vec<u8>) => Value::from;
        visit_borrowed_bytes(&'static [u8]) => Value::from;
    }

    fn visit_unit<E>(self) -> Result<String, E> {
        Ok("()".to_string())
    }

    fn visit_str<E>(self, text: &str) -> Result<String, E> {
        Ok(format!("lent {text:?}"))
    }

    fn visit_bytes<E>(self, bytes: &[u8]) -> Result<String, E> {
        Ok(format!("lent{bytes:?}"))
    }

    fn visit_none<E>(self) -> Result<String, E> {
        Ok("none".to_string())
    }

    fn visit_some<D: serde::Deserializer<'static>>(self, from: D) -> Result<String, D::Error> {
        Ok(format!("some {}", Handed::of(from).show()))
    }

    fn visit_newtype_struct<D: serde::Deserializer<'static>>(
        self,
        from: D,
    ) -> Result<String, D::Error> {
        Ok(format!("newtype {}", Handed::of(from).show()))
    }

    fn visit_seq<A: SeqAccess<'static>>(self, mut items: A) -> Result<String, A::Error> {
        let mut shown = Vec::new();
        while let Some(item) = items.next_element_seed(Hand)? {
            shown.push(item.show_inside(self.0));
        }
        Ok(format!("seq({}; {})", self.0.word(), shown.join(", ")))
    }

    fn visit_map<A: MapAccess<'static>>(self, mut entries: A) -> Result<String, A::Error> {
        let mut shown = Vec::new();
        while let Some(key) = entries.next_key_seed(Hand)? {
            let value = entries.next_value_seed(Hand)?;
            shown.push(format!("{} => {}", key.show_inside(self.0), value.show_inside(self.0)));
        }
        Ok(format!("map({}; {})", self.0.word(), shown.join(", ")))
    }

    fn visit_enum<A: EnumAccess<'static>>(self, access: A) -> Result<String, A::Error> {
        let (tag, _) = access.variant_seed(Hand)?;
        Ok(format!("enum {}", tag.show()))
    }
}
