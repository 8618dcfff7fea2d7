//! Declarations that tools/derive takes, each below the lines that it answers.

// 1: left out: `#[repr(C)]`
// - repr
#[repr(C)]
#[derive(Serialize)]
struct A(u8);

// 2: left out: `#[repr(u8)]`
// 4: left out: the discriminant `X = 1`
// 5: left out: the discriminant `Y = 1<<3`
// 6: left out: the discriminant `Z = (3<4) as isize`
// + enum A { X, Y, Z { x: u8, }, }
#[derive(Serialize)]
#[repr(u8)]
enum A {
    X = 1,
    Y = 1 << 3,
    Z { x: u8 } = (3 < 4) as isize,
}

// 7: not copied: `pub use std::fmt::{self, Display}`, but for what it brings into this file
// 8: passed over: `use super::other::*`
// 11: not copied: `const N`: write it in another module, if code needs it
// 12: not copied: `static mut S`: write it in another module, if code needs it
// 13: not copied: `extern crate alloc`: write it in another module, if code needs it
// 14: not copied: `extern "C"`: write it in another module, if code needs it
// 15: not copied: `pub(crate) const unsafe extern "C" fn g`: write it in another module, if code needs it
// 16: not copied: `mod x`: write it in another module, if code needs it
// 18: not copied: `mod tests`: write it in another module, if code needs it
// 19: not copied: `trait T`: write it in another module, if code needs it
// 20: not copied: `macro_rules! m`: write it in another module, if code needs it
// 21: not copied: `m!`: write it in another module, if code needs it
// 22: not copied: `std::thread_local!`: write it in another module, if code needs it
// 24: not copied: `pub enum Plain`, which derives neither Serialize nor Deserialize: write it in another module, if code needs it
// 26: not copied: `struct Other`, which derives neither Serialize nor Deserialize: write it in another module, if code needs it
// 27: not copied: `type Id = (u8, Alias)`, whose type is written in its place
// 28: not copied: `type Alias = Option<Vec<u32>>`, whose type is written in its place
// 30: left out: `#[must_use]`
// 31: left out: `#[non_exhaustive]`
// 33: left out: `#[deprecated = "old"]`
// 44: of another file: `Thing`, which needs Serialize, Deserialize, PartialEq, Eq, Clone, Debug, RoundTrip, CborRoundTrip; delete Eq here if it has no RoundTrip
// 45: of another file: `other::Inner`, which needs Serialize, Deserialize, PartialEq, Eq, Clone, Debug, RoundTrip, CborRoundTrip; delete Eq here if it has no RoundTrip
// 46: of another file: `Drei`, which needs Serialize, Deserialize, PartialEq, Eq, Clone, Debug, RoundTrip, CborRoundTrip; delete Eq here if it has no RoundTrip
// 48: not copied: `impl fmt::Display for A`: write it in another module, if code needs it
// 49: not copied: `impl<'a> From<&'a str> for A`: write it in another module, if code needs it
// 50: not copied: `unsafe impl Send for A`: write it in another module, if code needs it
// + //! A whole file. //! With documentation. //! //! Written by
// + use crate::other; use crate::other::Thing; use crate::other::deep::Third as Drei;
// - fmt
// - Not documentation
// + /// In an attribute. #[derive(Drop, Clone, Debug, PartialEq, Eq)] pub(in super) struct A {
// + /// Raw "text". pub(crate) x: (u8, Option<Vec<u32>>), /// A block /// of two lines. pub(self) y: Vec<u8>, z: BTreeMap<String, Thing>,
//! A whole file.
#![allow(dead_code)]
#![doc = "With documentation."]
#![doc = include_str!("README.md")]
use serde::*;
use std::collections::BTreeMap as Map;
pub use std::fmt::{self, Display};
use super::other::*;
use crate::other::{self, Thing, deep::{Third as Drei}};
/// Not documentation of a type.
const N: usize = { let x = 3; x };
static mut S: [u8; 3] = [1; 3];
extern crate alloc as a;
extern "C" { fn f(x: u8); }
pub(crate) const unsafe extern "C" fn g<T>(x: T) -> [u8; 3] where T: Copy { [1, 2, 3] }
mod x;
#[cfg(test)]
mod tests { #[test] fn t() { let x = '{'; let y = "}"; } }
trait T { fn f(&self); }
macro_rules! m { ($x:expr) => { $x }; }
m!(1);
std::thread_local! { static X: u8 = b'"'; }
#[derive(Debug, Clone, thiserror::Error)]
pub enum Plain<'a, T: 'a> { #[error("x")] A(&'a T) }
#[derive(Default)]
struct Other { x: f64 }
type Id = (u8, Alias);
type Alias = Option<Vec<u32>>;
#[derive(Clone, Debug, serde::Serialize, ::serde::Deserialize, PartialEq, Eq)]
#[must_use]
#[non_exhaustive]
#[allow(clippy::all)]
#[deprecated = "old"]
#[rustfmt::skip]
#[doc = "In an attribute."]
#[doc(hidden)]
pub(in super) struct A {
    #[doc = r#"Raw "text"."#]
    #[expect(unused)]
    pub(crate) x: Id,
    /** A block
     *  of two lines. */
    pub(self) y: ::std::vec::Vec<u8>, /* nested /* comment */ */
    z: Map<String, Thing>,
    w: other::Inner,
    v: Drei,
}
impl fmt::Display for A { fn fmt(&self) -> u8 { r##"}"#"##; 1.0 .. 2. } }
impl<'a> From<&'a str> for A { }
unsafe impl Send for A {}

// + struct A(pub (u8, u8));
// + struct B(pub(crate) (u8,), pub(crate) u8, pub u8);
#[derive(Serialize)]
struct A(pub (u8, u8));
#[derive(Serialize)]
struct B(pub(crate) (u8,), pub (crate) u8, pub ((u8)));

// 1: read as if its condition held: `#[cfg_attr]`
// 2: read as if its condition held: `#[cfg_attr]`
// 4: read as if its condition held: `#[cfg_attr]`
// + (name "someName")
// + (name "z")
#[cfg_attr(feature = "serde", derive(serde::Serialize, serde::Deserialize), serde(rename_all = "camelCase"))]
#[cfg_attr(docsrs, doc(cfg(feature = "serde")))]
struct A {
    #[cfg_attr(feature = "serde", serde(rename = "z"))]
    x: u8,
    some_name: u8,
}

// 1: left out: `derive(Queryable)`, as no rule of Rattle writes it
// 1: left out: `derive(diesel::Identifiable)`, as no rule of Rattle writes it
// 1: read as if its condition held: `#[cfg_attr]`
// 2: left out: `#[diesel(table_name = a)]`
// 2: read as if its condition held: `#[cfg_attr]`
// + #[derive(Drop, Clone)]
#[cfg_attr(feature = "full", derive(Queryable, Clone, diesel::Identifiable))]
#[cfg_attr(feature = "full", diesel(table_name = a))]
#[derive(Serialize)]
struct A(u8);

/// A tab	here, größe and 日本 and a zero-width space​ too.
#[derive(Serialize)]
struct A(u8); // ein Größter Kommentar 😀

// + .TheVariants as the_data;
// + .TheVariants as the_the_data;
// + result ≡ the_data.Open data_field_field open_field
#[derive(Serialize, Deserialize, PartialEq, Eq)]
enum Data {
    Record(i8),
    Open { data: i8, open: u8, module: u8, data_field: u8 },
    Closed { record: u8, elim: u8, ruleset: u8, axiom: u8, infix: u8 },
}
#[derive(Serialize, Deserialize, PartialEq, Eq)]
enum TheData { Type(i8) }
#[derive(Serialize, Deserialize, PartialEq, Eq)]
enum Where { Let }
#[derive(Serialize, Deserialize, PartialEq, Eq)]
enum In { Use }
#[derive(Serialize, Deserialize, PartialEq, Eq)]
enum Do { Pub, Mod, Module, Axiom, Infix, Elim, Ruleset }
#[derive(Serialize, Deserialize, PartialEq, Eq)]
enum Record { A }
#[derive(Serialize, Deserialize, PartialEq, Eq)]
enum Match { Type, Loop(i64) }
#[derive(Serialize, Deserialize, PartialEq, Eq)]
enum Type { Fn }
#[derive(Serialize, Deserialize, PartialEq, Eq)]
enum Search { There(i8) }
#[derive(Serialize, Deserialize, PartialEq, Eq)]
enum There { There(i8) }

// + let ReadField(result_field, row, _) = row;
// + let ReadField(row_field, row, _) = row;
// + let ReadField(send_row_field, row, _) = row;
#[derive(Serialize, Deserialize, PartialEq, Eq)]
struct A { result: i8, alloc: u8, fields: u8, serializer: u8, row: u8, send_row: u8, alloc_field: Option<u8> }
#[derive(Serialize, Deserialize, PartialEq, Eq)]
enum B { X { result: i8, result_field: u8 } }

// + fn read_order_placed_variant<
#[derive(Serialize, Deserialize)]
enum Order { Placed { a: u8, b: u8, c: u8 }, OrderPlaced(u8) }
#[derive(Serialize, Deserialize)]
struct OrderPlaced { a: u8, b: u8, c: u8 }

// + struct FieldsOfTaggedType;
// + type Field1OfAType = ReadField<FieldsOfAType, 0, u8, OthersSkipped<FieldsOfAType>>;
#[derive(Serialize, Deserialize)]
struct Tagged { a: u8 }
#[derive(Serialize, Deserialize)]
struct A { a: u8 }
#[derive(Serialize, Deserialize)]
struct FieldsOfA { a: u8 }

// + as the_status;
#[derive(Serialize, Deserialize, PartialEq, Eq)]
enum Status { Changed { status: i32 }, Left(i8) }

// + fn read_same_a<
#[derive(Serialize, Deserialize, PartialEq, Eq)]
#[serde(tag = "data")]
enum Same { A { x: i8 }, B }
#[derive(Serialize, Deserialize, PartialEq, Eq)]
struct TheSame { a: u8, b: u8, c: u8 }

// 9: not copied: `impl Default for D`: write it in another module, if code needs it
#[derive(Clone, Copy, Default, Hash, Debug, PartialEq, Eq, PartialOrd, Ord, Serialize, Deserialize)]
struct A { x: Option<u8>, y: (u8, char), z: (), b: B }
#[derive(Clone, Copy, Default, Hash, Debug, PartialEq, Eq, PartialOrd, Ord, Serialize, Deserialize)]
enum B { #[default] X, Y(u8) }
#[derive(Default, Serialize)]
struct C { x: Option<String>, d: D }
#[derive(Serialize)]
struct D;
impl Default for D { fn default() -> D { D } }

#[derive(Serialize, Deserialize)]
struct A(std::collections::BTreeMap<std::string::String, core::option::Option<Box<u8>>>);

// + (name "abc")
// + (name "r#w")
#[derive(Serialize)]
struct A { #[serde(rename = "a\u{62}\x63", default)] x: u8, #[serde(rename = r"r#w")] y: u8 }

// + Ok(A { b: B { c: b_c_field }, b_c })
#[derive(Serialize, Deserialize)]
struct A { #[serde(flatten)] b: B, b_c: u8 }
#[derive(Serialize, Deserialize)]
struct B { c: u8 }

// + { Upper: upper_field_field, Global: global_field, low, read_a_from_3, upper_field }
#[derive(Deserialize)]
struct A { Upper: u8, Global: u8, low: u8, read_a_from_3: u8, upper_field: Upper }
#[derive(Deserialize)]
struct Upper;

// 6: not copied: `type Number = u8`, whose type is written in its place
// + x: B, y: B, z: B, w: u8,
use self::B as Other;
#[derive(Serialize)]
struct A { x: self::B, y: crate::types::B, z: Other, w: self::Number }
#[derive(Serialize)]
struct B(u8);
type Number = u8;

/// A direction‮, a separator .
#[derive(Serialize)]
struct A(u8);

// + pub(in crate::types) struct A(pub(in crate) u8, pub(in self) u8, pub(in super) u8, pub(self) u8, pub(super) u8);
#[derive(Serialize)]
pub(in crate::types) struct A(pub(in crate) u8, pub(in self) u8, pub(in super) u8, pub(self) u8, pub(super) u8);

// + struct FieldsOfDatabase;
// - struct FieldsOfDataBase;
#[derive(Serialize, Deserialize)]
enum Data { Base { x: u8, y: u8 }, C }
#[derive(Serialize, Deserialize)]
struct Database { x: u8, y: u8 }

// - struct FieldsOfA;
// - struct NamesOfE;
#[derive(Serialize, Deserialize)]
struct _A { x: u8, y: u8 }
#[derive(Serialize, Deserialize)]
struct A { x: u8, y: u8 }
#[derive(Serialize, Deserialize)]
struct A_ { x: u8, y: u8 }
#[derive(Serialize, Deserialize)]
struct FieldsOfA(u8);
#[derive(Serialize, Deserialize)]
enum NamesOfE { X }
#[derive(Serialize, Deserialize)]
enum E { X }

// - fn name_a()
// - fn send_whole_a_b<
#[derive(Serialize, Deserialize)]
struct name_a(u8);
#[derive(Serialize, Deserialize)]
struct send_whole_a_b(u8);
#[derive(Serialize, Deserialize)]
enum A { B(u8, u8, u8) }
#[derive(Serialize, Deserialize)]
struct B { a: u8 }

// 3: passed over: `use crate::r#type::C`
use rocket::serde::{Deserialize, Serialize};
use crate::prelude::Debug;
use crate::r#type::C;
#[derive(Debug, Serialize, Deserialize)]
struct A(u8);

// 1: not copied: `fn f`: write it in another module, if code needs it
// + struct A(u8, u8, BTreeMap<u8, u8>);
#[unsafe(no_mangle)] fn f() {}
#[derive(Serialize)]
struct A(std::primitive::u8, core::primitive::u8, std::collections::btree_map::BTreeMap<u8, u8>);

// 2: no RoundTrip is written for `A`: `x` may be left out, and is not read where it is missing: give it `default` too
// + SendFieldUnless(FieldsOfA, 0, &self.x, row)
// - RoundTrip
#[derive(PartialEq, Eq, Serialize, Deserialize)]
struct A {
    #[serde(skip_serializing_if = "std::vec::Vec::is_empty")]
    x: Vec<u8>,
}

// + fields_less (⟦<String as Skip>⟧.is_empty p.x) 1
// + RoundTrip
#[derive(PartialEq, Eq, Serialize, Deserialize)]
struct A {
    #[serde(default, skip_serializing_if = "str::is_empty")]
    x: String,
}

// 3: written as `Absent`: `derive(Default)` on `A`, whose value takes an allocator
// + impl Absent for A
// + impl Absent for B
// + impl Absent for C
// - Default, PartialEq, Eq)] struct A
#[derive(Default, PartialEq, Eq, Serialize, Deserialize)]
#[serde(default)]
struct A { x: String, b: B, c: C }
#[derive(Default, PartialEq, Eq, Serialize, Deserialize)]
struct B { x: u8, #[serde(default)] c: C }
#[derive(Default, PartialEq, Eq, Serialize, Deserialize)]
enum C { X(u8), #[default] Y }

// + impl Serialize for A
// - struct_script
#[derive(PartialEq, Eq, Serialize, Deserialize)]
#[serde(transparent)]
struct A { x: Vec<u8> }

// 3: no RoundTrip is written for `A`: `y` is not sent
// 3: passed over: `rename` in a `transparent` struct, where Serde doesn't read it
// 6: passed over: `alias` in a `transparent` struct, where Serde doesn't read it
// + ghost gives = { λ s p. (p.y ≡ 0) × (string_bytes p.z ≡ []) × ⟦<Vec<u8> as Deserialize<'de>>⟧.gives s p.x };
// + let x = Deserialize::deserialize(alloc, from)?; let y: u8 = Absent::absent(alloc); let z: String = Absent::absent(alloc); Ok(A { x, y, z })
// + ghost gives = { λ s p. (p.0 ≡ false) × ⟦<u8 as Deserialize<'de>>⟧.gives s p.1 };
// + impl<'de> RoundTrip<'de> for B
// + self.0.serialize(alloc, serializer)
// - RoundTrip<'de> for A
// - Field1Of
#[derive(PartialEq, Eq, Serialize, Deserialize)]
#[serde(transparent)]
struct A { #[serde(rename = "w")] x: Vec<u8>, #[serde(skip)] y: u8, #[serde(skip, default)] z: String }
#[derive(PartialEq, Eq, Serialize, Deserialize)]
#[serde(transparent)]
struct B { #[serde(alias = "y")] x: i8 }
#[derive(Serialize, Deserialize)]
#[serde(transparent)]
struct C(#[serde(skip_deserializing)] bool, #[serde(skip_serializing)] u8);

// 3: called: `crate::rules::deserialize`, which needs the contract `pub fn deserialize<'de, 'n: 'de>(alloc: Global, from: Deserializer<'de, 'n>) -> Result<u8> ensures { Reads (deserialize_refusal (subject from.entry)) (DeserializeGives (subject from.entry)) result }`, by the definitions `deserialize_refusal` and `DeserializeGives` of `Rattle.a.specs.Rules`
// 3: called: `crate::rules::serialize`, which needs the contract `pub fn serialize<S: Serializer>(value: &u8, alloc: Global, serializer: &mut S) -> Result<()> ensures { Sends S.step S.refuses (S.seen serializer.old) (serialize_script value.now) result (S.seen serializer.new) }`, by the definitions `serialize_script` and `serialize_lawful` of `Rattle.a.specs.Rules`, the latter of the type `(x : ℕ) (readable : Bool) → IsLawful (serialize_script x readable)`; `#[tactic(auto, using(content_ser::proofs::Sending::sending))]` above it lets its proof be found
// 3: no RoundTrip is written for `A`: `0` is read or sent by a function of your own
// + crate::rules::serialize(&self.0, alloc, serializer)
// + let x1 = crate::rules::deserialize(alloc, from)?;
// + refusal = { rules_said.deserialize_refusal };
// - Send1Of
#[derive(PartialEq, Eq, Serialize, Deserialize)]
#[serde(transparent)]
struct A(#[serde(with = "crate::rules")] u8);

// 2: no RoundTrip is written for `A`: `x` may be left out, and is not read where it is missing: give it `default` too
// 4: no RoundTrip is written for `B`: `A`, which it holds, does not come back
// 6: no RoundTrip is written for `D`: `A`, which it holds, does not come back
// + impl<'de> Deserialize<'de> for B
// - RoundTrip
#[derive(PartialEq, Eq, Serialize, Deserialize)]
struct A { #[serde(skip_serializing_if = "Vec::is_empty")] x: Vec<u8> }
#[derive(PartialEq, Eq, Serialize, Deserialize)]
#[serde(untagged)] enum B { A(A), C(u8) }
#[derive(PartialEq, Eq, Serialize, Deserialize)]
#[serde(untagged)] enum D { A(BTreeMap<String, A>), C(u8) }

// 2: no RoundTrip is written for `A`: a value of `Y` may be read as `X`: tag the enum, or hold tuples of different lengths
// 4: no RoundTrip is written for `B`: `A`, which it holds, does not come back
// 6: no RoundTrip is written for `C`: a value of `Z` may be read as `Y`: tag the enum, or hold tuples of different lengths
// 8: no RoundTrip is written for `D`: which values `Option<u8>` in `X` takes is not known: hold a struct of this file with named fields, or a type of std's but Option and IP addresses
// + impl<'de> Deserialize<'de> for B
// - RoundTrip
#[derive(PartialEq, Eq, Serialize, Deserialize)]
#[serde(untagged)] enum A { X(u8), Y(u16) }
#[derive(PartialEq, Eq, Serialize, Deserialize)]
#[serde(untagged)] enum B { X(Vec<A>), Y(u8) }
#[derive(PartialEq, Eq, Serialize, Deserialize)]
#[serde(untagged)] enum C { X(String), Y(u8, u8), Z(bool, char) }
#[derive(PartialEq, Eq, Serialize, Deserialize)]
#[serde(untagged)] enum D { X(Option<u8>) }

// 2: no RoundTrip is written for `A`: a value of `Y` may be read as `X`: tag the enum, or hold tuples of different lengths
// + impl<'de> RoundTrip<'de> for B
#[derive(PartialEq, Eq, Serialize, Deserialize)]
#[serde(untagged)] enum A { X, Y }
#[derive(PartialEq, Eq, Serialize, Deserialize)]
#[serde(untagged)] enum B { X, Y(u8) }

// 5: no RoundTrip is written for `B`: which values `A` in `X` takes is not known: hold a struct of this file with named fields, or a type of std's but Option and IP addresses
// 7: no RoundTrip is written for `C`: which values `A` in `X` takes is not known: hold a struct of this file with named fields, or a type of std's but Option and IP addresses
// + impl<'de> RoundTrip<'de> for A
// - RoundTrip<'de> for B
// - RoundTrip<'de> for C
// + RoundTrip<'de> for D
#[derive(PartialEq, Eq, Serialize, Deserialize)]
#[serde(transparent)]
struct A(u8);
#[derive(PartialEq, Eq, Serialize, Deserialize)]
#[serde(untagged)] enum B { X(A), Y(u8) }
#[derive(PartialEq, Eq, Serialize, Deserialize)]
#[serde(untagged)] enum C { X(A), Y(String) }
#[derive(PartialEq, Eq, Serialize, Deserialize)]
#[serde(untagged)] enum D { X(Vec<A>), Y(String) }

// - NotNull<'de> for A
// + CborRoundTrip<'de> for A
// + CborRoundTrip<'de> for B
// - CborRoundTrip<'de> for C
#[derive(PartialEq, Eq, Serialize, Deserialize)]
#[serde(transparent)]
struct A { x: Option<u8> }
#[derive(PartialEq, Eq, Serialize, Deserialize)]
struct B { x: A }
#[derive(PartialEq, Eq, Serialize, Deserialize)]
struct C { x: Option<A> }

// - Absent
#[derive(Default, Serialize)]
#[serde(default)]
struct A { b: B, c: char }
#[derive(Default, Serialize)]
struct B { x: u8 }

// 3: of another file: `crate::other::Thing`, which needs Serialize, Deserialize
// 3: written as `Absent`: `derive(Default)` on `A`, whose value takes an allocator
// + impl Absent for A
#[derive(Default, Serialize, Deserialize)]
#[serde(default)]
struct A { b: crate::other::Thing, c: String }

// 3: written as `Absent`: `derive(Default)` on `A`, whose value takes an allocator
// 5: written as `Absent`: `derive(Default)` on `B`, whose value takes an allocator
// + is_absent p.b.x
// - #[derive(Drop, Default
#[derive(Default, PartialEq, Eq, Serialize, Deserialize)]
#[serde(default)]
struct A { #[serde(flatten)] b: B, y: i8 }
#[derive(Default, PartialEq, Eq, Serialize, Deserialize)]
struct B { x: String }

// + is_absent = { λ x. x ≡ a.Y }
#[derive(Default, PartialEq, Eq, Serialize, Deserialize)]
#[serde(tag = "t")]
enum A { X { q: String }, #[default] Y }
#[derive(PartialEq, Eq, Serialize, Deserialize)]
enum B { Z { #[serde(default)] a: A, b: i8 } }

// 3: not copied: `impl<const N: usize> T<{N}> for A`: write it in another module, if code needs it
// 4: not copied: `fn f`: write it in another module, if code needs it
// 5: not copied: `crate::m!`: write it in another module, if code needs it
// 6: not copied: `const _`: write it in another module, if code needs it
// 7: not copied: `extern crate self`: write it in another module, if code needs it
#[derive(Serialize)]
struct A;
impl<const N: usize> T<{ N }> for A where A: B<{ 3 }>, {}
fn f() -> B<{ 3 }> { 1 }
crate::m! {}
const _: fn(u8) -> u8 = f;
extern crate self as a;

// 10: of another file: `Thing`, which needs Serialize
// + use crate::other::Thing;
#[cfg(x)]
use std::collections::BTreeMap;
#[cfg(not(x))]
use alloc::collections::BTreeMap;
#[cfg(x)]
use crate::other::Thing;
#[cfg(not(x))]
use crate::other::Thing;
#[derive(Serialize)]
struct A(BTreeMap<u8, Thing>);

// 4: of another file: `Third`, which needs Serialize
// 4: of another file: `crate::other::Inner`, which needs Serialize
// 4: of another file: `crate::other::Thing`, which needs Serialize
// 4: of another file: `other::Inner`, which needs Serialize
// + use crate::other; use crate::other::deep::Third;
// + struct A(crate::other::Thing, other::Inner, Third, crate::other::Thing, crate::other::Inner, B);
use super::other;
use other::deep::Third;
#[derive(Serialize)]
struct A(super::other::Thing, other::Inner, Third, self::other::Thing, self::super::other::Inner, self::B);
#[derive(Serialize)]
struct B;

// 1: passed over: `use serde::Deserialize`
// 2: passed over: `use std::fmt::Write as _`
// 3: not copied: `pub use std::fmt`, but for what it brings into this file
// 4: passed over: `use crate::other`
// 6: passed over: `use crate::other::Inner as Other`
// 8: not copied: `type Number = Short`, whose type is written in its place
// 10: of another file: `Thing`, which needs Serialize
use serde::{self, Deserialize};
use std::{fmt::{Write as _}, string::String as Text};
pub use std::fmt;
use crate::other::{self,
    Thing,
    Inner as Other};
use u8 as Short;
type Number = Short;
#[derive(serde::Serialize)]
struct A(Text, Thing, Number);

// 4: of another file: `Thing`, which needs Serialize, Deserialize, PartialEq, Eq, Clone, Ord, PartialOrd, RoundTrip, CborRoundTrip; delete Eq here if it has no RoundTrip
// 5: of another file: `crate::other::deep::Thing`, which needs Serialize, Deserialize, PartialEq, Eq, Clone, Ord, PartialOrd, RoundTrip, CborRoundTrip; delete Eq here if it has no RoundTrip
// + ghost use Rattle.a.specs.declared.other.Thing.{Thing};
// + ghost use Rattle.a.specs.declared.other.deep.Thing as deep_thing_as_seen;
// + Laws as deep_thing_serialize;
// + (x : (Option (Vec deep_thing_as_seen.Thing Global)))
// + as the_deep_thing_as_seen;
use crate::other::Thing;
#[derive(Clone, PartialEq, Eq, PartialOrd, Ord, Serialize, Deserialize)]
struct A {
    x: Option<Thing>,
    y: Option<Vec<crate::other::deep::Thing>>,
    z: std::collections::BTreeMap<crate::other::deep::Thing, Thing>,
}
#[derive(PartialEq, Eq, Serialize, Deserialize)]
enum DeepThingAsSeen { X(i8), Y(B) }
#[derive(PartialEq, Eq, Serialize, Deserialize)]
#[serde(tag = "t")]
enum B { X { #[serde(default)] a: crate::other::deep::Thing, b: Thing } }

// 2: left out: `#[deprecated = "two lines"]`
// + pub(in crate) struct A(pub(in self) u8);
#[derive(Serialize)]
#[deprecated = "two
    lines"]
pub(in crate) struct A(pub(in self) u8);

// 3: of another file: `Other`, which needs Serialize, Deserialize, PartialEq, Eq, RoundTrip, CborRoundTrip; delete Eq here if it has no RoundTrip
// + ghost use Rattle.a.specs.declared.other.Thing as other_as_seen;
// - as thing_as_seen;
// + (RowOrThen (name "y") (λ (x : (Vec other_as_seen.Thing Global)). x.items ≡ [])
use crate::other::Thing as Other;
#[derive(PartialEq, Eq, Serialize, Deserialize)]
struct A(Option<Other>, Thing);
#[derive(PartialEq, Eq, Serialize, Deserialize)]
struct Thing { x: u8, #[serde(default)] y: Vec<Other> }
#[derive(PartialEq, Eq, Serialize, Deserialize)]
#[serde(tag = "t")] enum B { X(Thing), Y { #[serde(default)] a: Option<Thing>, b: Other } }

// 3: written as `type_`: the name `r#type`
// 5: written as `in_`: the name `r#in`
// + struct A { type_: u8, plain: u8, }
// + (name "TYPE")
// + (name "PLAIN")
// + in_(u8)
#[derive(Serialize, Deserialize)]
#[serde(rename_all = "UPPERCASE")]
struct A { r#type: u8, r#plain: u8 }
#[derive(Serialize, Deserialize)]
enum B { r#in(u8) }

// 2: no RoundTrip is written for `A`: `x` may be left out, and is not read where it is missing: give it `default` too
// 4: no RoundTrip is written for `B`: `A`, which it holds, does not come back
#[derive(PartialEq, Eq, Serialize, Deserialize)]
struct A { #[serde(skip_serializing_if = "Vec::is_empty")] x: Vec<u8> }
#[derive(PartialEq, Eq, Serialize, Deserialize)]
struct B { a: A }

// 2: no RoundTrip is written for `A`: `x` may be left out, and is not read where it is missing: give it `default` too
// 4: no RoundTrip is written for `B`: `x` may be left out, and is not read where it is missing: give it `default` too
#[derive(PartialEq, Eq, Serialize, Deserialize)]
struct A { #[serde(skip_serializing_if = "String::is_empty")] x: String, y: u8 }
#[derive(PartialEq, Eq, Serialize, Deserialize)]
#[serde(tag = "t")] enum B { A(A), C }

// 13: not copied: `const HOUR`: write it in another module, if code needs it
// 14: not copied: `impl A`, but what it gives is written where an attribute asks for it
// 15: not copied: `fn is_hour`, but what it gives is written where an attribute asks for it
// 16: not copied: `fn five`, but what it gives is written where an attribute asks for it
// 17: not copied: `mod inner`, but what it gives is written where an attribute asks for it
// 18: not copied: `fn some`, but what it gives is written where an attribute asks for it
// 19: not copied: `fn low`, but what it gives is written where an attribute asks for it
// + is_default = { λ x. x ≡ 3600 }
// + is_skipped = { λ x. (nat_eq x (3600)) }
// + is_default = { λ x. x ≡ negsuc 4 }
// + string_bytes x ≡ (name "a b")
// + is_default = { λ x. x ≡ Some (16) }
// + is_default = { λ x. x ≡ level.Low }
// + type Field6OfA = ReadFieldOr<FieldsOfA, 5, Vec<u8>
// + !*value
#[derive(Serialize, Deserialize)]
struct A {
    #[serde(default = "A::seconds", skip_serializing_if = "is_hour")] a: u32,
    #[serde(default = "five")] b: i8,
    #[serde(default = "inner::text")] c: String,
    #[serde(default = "some")] d: Option<u8>,
    #[serde(default = "low")] e: Level,
    #[serde(default = "Vec::new")] f: Vec<u8>,
    #[serde(default, skip_serializing_if = "core::ops::Not::not")] g: bool,
}
#[derive(PartialEq, Eq, Serialize, Deserialize)]
enum Level { Low, High(u8) }
const HOUR: u32 = 60 * 60;
impl A { fn seconds() -> u32 { HOUR } }
fn is_hour(n: &u32) -> bool { *n == A::seconds() }
fn five() -> i8 { -5 }
mod inner { pub fn text() -> String { String::from("a b") } }
fn some() -> Option<u8> { Some(0x10) }
fn low() -> Level { Level::Low }

// 4: not copied: `impl Default for A`, but what it gives is written where an attribute asks for it
// + is_default = { λ x. x ≡ 7 }
// + ReadFieldOr<FieldsOfA, 1, String
// - impl Absent
#[derive(Serialize, Deserialize)]
#[serde(default)]
struct A { a: u8, b: String }
impl Default for A { fn default() -> Self { Self { a: 7, b: String::new() } } }

// 2: no RoundTrip is written for `A`: `x` is not sent
// + (UnreadThen (λ (x : ℕ). x ≡ 0) z.x (RowThen (name "y")
// + let x: u8 = Absent::absent(alloc); Ok(A { x, y, z })
// + script = { λ p. struct_script (name "A") 1 (field_first (name "z")
// - name "x"
#[derive(PartialEq, Eq, Serialize, Deserialize)]
struct A { #[serde(skip)] x: u8, #[serde(skip_serializing)] y: u8, z: u8 }

// 2: no RoundTrip is written for `A`: variant `Y` is not sent
// 5: no RoundTrip is written for `B`: variant `X` is read by another name than it is sent by
// + unsent_script (codes "the enum variant A::Y cannot be serialized")
// + A::Y(_) => { refuse_unsent(alloc, serializer, "the enum variant A::Y cannot be serialized") }
// + ghost names = { name "X" ∷ [] };
// + SendTag(FieldsOfBX, SentOfB, 0, row)
// + &["y", "Z"]
#[derive(PartialEq, Eq, Serialize, Deserialize)]
enum A { X, #[serde(skip)] Y(u8) }
#[derive(PartialEq, Eq, Serialize, Deserialize)]
#[serde(tag = "t")]
enum B { #[serde(rename(serialize = "y", deserialize = "x"))] X, #[serde(skip_deserializing)] Z }

// 2: no RoundTrip is written for `A`: `0` is not sent
// + let x1: String = Absent::absent(alloc); let x3: (u8, char) = (Absent::absent(alloc), '\0');
// + (UnreadThen (λ (x : (ℕ × ℕ)). (x.0 ≡ 0) × (x.1 ≡ 0)) p.2
// + deserialize_tuple_struct(alloc, name_a(), 1)?
#[derive(PartialEq, Eq, Serialize, Deserialize)]
struct A(#[serde(skip)] String, u8, #[serde(skip)] (u8, char));

// + (UnreadThen (λ (x : _). ⟦<f64 as Default>⟧.is_default x) z.x
// + (UnreadThen (λ (x : (Vec _ Global)). x.items ≡ []) z.z
// + let x: f64 = Default::default();
// + let _: OthersSkipped<FieldsOfB> = ReadFields::read(alloc, fields)?;
// + | c.Y x1 ↦ ⊥
// + first_of_two::<u8, (String, u8)>(alloc, from,
#[derive(Serialize, Deserialize)]
struct A { #[serde(skip)] x: f64, y: u8, #[serde(skip)] z: Vec<f32> }
#[derive(Serialize, Deserialize)]
struct B { #[serde(skip)] x: u8 }
#[derive(Serialize, Deserialize)]
#[serde(untagged)]
enum C { X(u8), #[serde(skip_deserializing)] Y(String), #[serde(skip_serializing)] Z(String, u8) }

// 7: not copied: `fn five`, but what it gives is written where an attribute asks for it
// + impl Absent for B
// + let b: B = Absent::absent(alloc);
// + let c: u8 = 5;
// - Deserialize<'de> for B
#[derive(Serialize, Deserialize)]
struct A { a: u8, #[serde(skip)] b: B, #[serde(skip, default = "five")] c: u8 }
#[derive(Default, Serialize)]
struct B { x: u8, y: C }
#[derive(Default, Serialize)]
struct C(u8);
fn five() -> u8 { 5 }

// 2: no RoundTrip is written for `A`: `x` has an `alias`
// + aliased_then (name "x") (name "x" ∷ name "y" ∷ name "z" ∷ []) (Some (missing_field (name "x")))
// + type TagsOfB = OtherAt<Aliases<AliasesOfB, MeantOfB>, NamesOfB, 1>;
#[derive(PartialEq, Eq, Serialize, Deserialize)]
struct A { #[serde(alias = "y", alias = "z")] x: u8 }
#[derive(PartialEq, Eq, Serialize, Deserialize)]
enum B { #[serde(alias = "x")] X, #[serde(other)] Y }

// 3: no RoundTrip is written for `A`: variant `X` of a tagged enum has an `alias`
// 6: no RoundTrip is written for `B`: variant `Y` of a tagged enum takes other tags
// + read_tagged_by::<TagsOfA, Self>(alloc, from)
// + read_adjacent_by::<TagsOfB, Self>(alloc, from)
#[derive(PartialEq, Eq, Serialize, Deserialize)]
#[serde(tag = "t")]
enum A { #[serde(alias = "x")] X { y: u8 }, Y }
#[derive(PartialEq, Eq, Serialize, Deserialize)]
#[serde(tag = "t", content = "c")]
enum B { X(u8), #[serde(other)] Y }

// 3: no RoundTrip is written for `A`: `first_name` is read by another name than it is sent by
// + ghost names = { name "first-name" ∷ name "b" ∷ [] }
// + ghost names = { name "firstName" ∷ name "secondName" ∷ [] }
#[derive(PartialEq, Eq, Serialize, Deserialize)]
#[serde(rename_all(serialize = "camelCase", deserialize = "kebab-case"))]
struct A { first_name: u8, #[serde(rename(deserialize = "b"))] second_name: u8 }

#[derive(Serialize)]
struct A {
    #[serde(default = "one")]
    x: u8,
}

// 2: left out: `T: Serialize+Clone`, as each impl has the bounds that it needs
// 2: left out: `where U: Ord`, as each impl has the bounds that it needs
// 7: left out: `where T: Copy, for<'a>&'a T: Copy`, as each impl has the bounds that it needs
// + pub struct A<T, U> { pub x: T, pub y: Vec<U>, }
// + type Field2OfA<U> = ReadField<FieldsOfA, 1, Vec<U>, OthersSkipped<FieldsOfA>>;
// + fn read_a_from_1<'de, 'n: 'de, T: Deserialize<'de>, U: Deserialize<'de>>(alloc: Global, mut fields: FieldsByName<'de, 'n>) -> Result<(T, Field2OfA<U>)>
// + impl<'de, T: Deserialize<'de>, U: Deserialize<'de>> ReadStruct<'de> for A<T, U>
// + impl<T: Serialize, U: Serialize> Serialize for A<T, U>
// + (T.lawful p.x readable)
// + impl<'de, T: CborRoundTrip<'de>, U: CborRoundTrip<'de>> CborRoundTrip<'de> for A<T, U>
// + impl<'de, T: NotNull<'de>> NotNull<'de> for B<T>
// + impl<'de, T: CborRoundTrip<'de> + NotNull<'de>> CborRoundTrip<'de> for C<T>
// + impl<T> serde_content::derive_support::MadeFrom<From1OfCY<T>> for C<T>
// + { serde_content::derive_support::read_variant_made_from::<FieldsOfCY, From1OfCY<T>, Self>(alloc, variant) }
// + let law : (x : (B ℕ)) (readable : Bool) → IsLawful (⟦<B<u8> as Serialize>⟧.script x readable) = λ p readable. newtype_struct_lawful
// - b_serialize
#[derive(PartialEq, Eq, Serialize, Deserialize)]
pub struct A<T: Serialize + Clone, U> where U: Ord {
    pub x: T,
    pub y: Vec<U>,
}
#[derive(PartialEq, Eq, Serialize, Deserialize)]
struct B<T,>(T) where T: Copy, for<'a> &'a T: Copy;
#[derive(PartialEq, Eq, Serialize, Deserialize)]
enum C<T> { X(T), Y { x: Option<Box<T>>, y: i8 } }
#[derive(PartialEq, Eq, Serialize, Deserialize)]
struct D { x: Vec<B<u8>>, y: C<String> }

// + struct EXContentVariant {
// + let (x1, x2) = read_e_pair(alloc, fields)?;
// + SendInside(FieldsOfEX, 1, row, SendEnd)
// + impl<'de> RoundTrip<'de> for E
// + let EXContentVariant { a, b } = read_e_x(alloc, fields)?;
#[derive(PartialEq, Eq, Serialize, Deserialize)]
#[serde(tag = "t", content = "c")]
enum E { Unit, Pair(u8, String), X { a: u8, b: Option<u8> } }
#[derive(Serialize, Deserialize)]
struct EXContent { a: u8 }

// 2: of another file: `crate::other::Thing`, which needs Serialize, Clone
// 2: written as `Absent`: `derive(Default)` on `A`, whose value takes an allocator
// 4: left out: `derive(Default)` on `B`, as a `Box<u8>` takes memory: write a `new(alloc)`
// 6: left out: `derive(Default)` on `C`, as `B` has none: write a `new(alloc)`
// + impl Absent for A
// - impl Absent for B
// - Default
#[derive(Clone, Default, Serialize)]
struct A { x: String, y: (u8, char), z: Option<Box<u8>>, d: (), e: crate::other::Thing }
#[derive(Serialize, Default)]
struct B { x: (u8, Box<u8>) }
#[derive(Serialize, Default)]
struct C { x: String, b: B }

// 5: not copied: `impl Default for E`, but what it gives is written where an attribute asks for it
// 8: not copied: `impl Default for F`, but what it gives is written where an attribute asks for it
// 10: to be written by hand: the impl of `Absent` for `D`, as its impl of `Default` is more than one value
// 11: not copied: `impl Default for D`: write it in another module, if code needs it
// + elim x [ | the_e.X ↦ ⊥ | the_e.Y x1 ↦ x1.items ≡ [] ]
// + ghost is_absent = { λ x. x.a ≡ 5 × string_bytes x.b ≡ [] };
// - impl Absent for D
#[derive(Deserialize)]
struct A { #[serde(default)] e: E, #[serde(default)] s: F, #[serde(default)] d: D }
#[derive(Deserialize)]
enum E { X, Y(Vec<u8>) }
impl Default for E { fn default() -> Self { Self::Y(Vec::new()) } }
#[derive(Deserialize)]
struct F { a: u8, b: String }
impl Default for F { fn default() -> Self { Self { a: 5, b: String::new() } } }
#[derive(Deserialize)]
struct D { a: u8 }
impl Default for D { fn default() -> Self { made() } }

// 4: called: `rules::is_small`, which needs the contract `ensures { result ≡ is_small value.now }`, by the definition `Rattle.a.specs.Rules.is_small`
// 5: called: `Level::is_low`, which needs the contract `ensures { result ≡ level_is_low value.now }`, by the definition `Rattle.a.specs.Types.level_is_low`
// 5: called: `Level::usual()`, of whose value contracts know nothing
// 6: called: `crate::rules::named(alloc)?`, of whose value contracts know nothing
// + ghost use Rattle.a.specs.Rules as rules_said;
// + use crate::rules;
// + fn is_skipped(value: &u8) -> bool { rules::is_small(value) }
// + fn is_skipped(value: &Level) -> bool { Level::is_low(value) }
// + Ok(crate::rules::named(alloc)?)
// + Ok(Level::usual())
use crate::rules;
#[derive(Serialize, Deserialize)]
struct A {
    #[serde(default, skip_serializing_if = "rules::is_small")] x: u8,
    #[serde(default = "Level::usual", skip_serializing_if = "Level::is_low")] level: Level,
    #[serde(default = "crate::rules::named")] name: String,
}
#[derive(Serialize, Deserialize)]
enum Level { Low, High }

// 5: called: `rules::small`, which needs the contract `pub fn small<'de, 'n: 'de>(alloc: Global, from: Deserializer<'de, 'n>) -> Result<u8> ensures { Reads (small_refusal (subject from.entry)) (SmallGives (subject from.entry)) result }`, by the definitions `small_refusal` and `SmallGives` of `Rattle.a.specs.Rules`
// 6: called: `rules::words::deserialize`, which needs the contract `pub fn deserialize<'de, 'n: 'de>(alloc: Global, from: Deserializer<'de, 'n>) -> Result<Option<String>> ensures { Reads (deserialize_refusal (subject from.entry)) (DeserializeGives (subject from.entry)) result }`, by the definitions `deserialize_refusal` and `DeserializeGives` of `Rattle.a.specs.Rules.Words`
// 6: called: `rules::words::serialize`, which needs the contract `pub fn serialize<S: Serializer>(value: &Option<String>, alloc: Global, serializer: &mut S) -> Result<()> ensures { Sends S.step S.refuses (S.seen serializer.old) (serialize_script value.now) result (S.seen serializer.new) }`, by the definitions `serialize_script` and `serialize_lawful` of `Rattle.a.specs.Rules.Words`, the latter of the type `(x : (Option (String Global))) (readable : Bool) → IsLawful (serialize_script x readable)`; `#[tactic(auto, using(content_ser::proofs::Sending::sending))]` above it lets its proof be found
// 7: called: `priced`, which needs the contract `pub fn price<S: Serializer>(value: &f64, alloc: Global, serializer: &mut S) -> Result<()> ensures { Sends S.step S.refuses (S.seen serializer.old) (price_script value.now) result (S.seen serializer.new) }`, by the definitions `price_script` and `price_lawful` of `Rattle.a.specs.Money`, the latter of the type `(x : _) (readable : Bool) → IsLawful (price_script x readable)`; `#[tactic(auto, using(content_ser::proofs::Sending::sending))]` above it lets its proof be found
// 7: called: `read_price`, which needs the contract `pub fn read_price<'de, 'n: 'de>(alloc: Global, from: Deserializer<'de, 'n>) -> Result<f64> ensures { Reads (read_price_refusal (subject from.entry)) (ReadPriceGives (subject from.entry)) result }`, by the definitions `read_price_refusal` and `ReadPriceGives` of `Rattle.a.specs.Money`
// + struct Read1OfA(u8);
// + ghost gives = { λ s x. rules_said.SmallGives s x.0 };
// + (RowThen (name "b") (⟦<Read2OfA as Deserialize<'de>>⟧.gives) (record { 0 = z.b })
// + let ReadField(Read2OfA(b), row, _) = row;
// + impl<'sent> Skip for Send2OfA<'sent> {
// + SendFieldUnless(FieldsOfA, 1, &sent_2, row)
// + crate::money::price(self.0, alloc, serializer)
// - passed over
// - RoundTrip
use crate::rules;
use crate::money::{price as priced, read_price};
#[derive(Serialize, Deserialize)]
struct A {
    #[serde(deserialize_with = "rules::small")] a: u8,
    #[serde(with = "rules::words", skip_serializing_if = "Option::is_none")] b: Option<String>,
    #[serde(serialize_with = "priced", deserialize_with = "read_price")] c: f64,
}

// 2: no RoundTrip is written for `A`: `B`, which it holds, does not come back
// 4: no RoundTrip is written for `B`: `x` is read or sent by a function of your own
// - RoundTrip<'de>
// - Send1OfC
// - Read1OfD
// + struct Read1OfC(u8);
// + struct Send1OfD<'sent>(&'sent u8);
// 5: called: `crate::rules::deserialize`, which needs the contract `pub fn deserialize<'de, 'n: 'de>(alloc: Global, from: Deserializer<'de, 'n>) -> Result<u8> ensures { Reads (deserialize_refusal (subject from.entry)) (DeserializeGives (subject from.entry)) result }`, by the definitions `deserialize_refusal` and `DeserializeGives` of `Rattle.a.specs.Rules`
// 5: called: `crate::rules::serialize`, which needs the contract `pub fn serialize<S: Serializer>(value: &u8, alloc: Global, serializer: &mut S) -> Result<()> ensures { Sends S.step S.refuses (S.seen serializer.old) (serialize_script value.now) result (S.seen serializer.new) }`, by the definitions `serialize_script` and `serialize_lawful` of `Rattle.a.specs.Rules`, the latter of the type `(x : ℕ) (readable : Bool) → IsLawful (serialize_script x readable)`; `#[tactic(auto, using(content_ser::proofs::Sending::sending))]` above it lets its proof be found
#[derive(PartialEq, Eq, Serialize, Deserialize)]
enum A { X(B), Y }
#[derive(PartialEq, Eq, Serialize, Deserialize)]
struct B {
    #[serde(with = "crate::rules")] x: u8,
}
#[derive(Deserialize)]
struct C { #[serde(with = "crate::rules")] x: u8 }
#[derive(Serialize)]
struct D { #[serde(with = "crate::rules")] x: u8 }

// + is_skipped = { λ x. (⟦<Level as PartialEq>⟧.eq x level.Low) }
// + *value == Level::Low
// + RoundTrip
// 5: not copied: `mod level`, but what it gives is written where an attribute asks for it
#[derive(PartialEq, Eq, Serialize, Deserialize)]
struct A { #[serde(default = "level::usual", skip_serializing_if = "level::is_usual")] level: Level }
#[derive(PartialEq, Eq, Serialize, Deserialize)]
enum Level { Low, High }
mod level {
    pub fn usual() -> Level { Level::Low }
    pub fn is_usual(level: &Level) -> bool { *level == Level::Low }
}

// + pub enum Found<'a> {
// + impl<'a> Serialize for Found<'a>
// + fn send_whole_found_part<'a, S: Serializer>(
// + pub struct Part<'a>(&'a str, &'static str);
#[derive(Serialize)]
pub enum Found<'a> { Text(&'a str), Part { part: Part<'a>, more: Option<&'a Part<'a>>, last: Vec<&'a str> } }
#[derive(Serialize)]
pub struct Part<'a>(&'a str, &'static str);

// + pub struct A<'a> { pub x: &'a [u8], pub y: Vec<&'a [&'static str]>, }
// + SendFieldUnless(FieldsOfA, 0, &self.x, row)
// + (seq_lawful (λ x h. seq_lawful (λ x h. leaf_lawful refl) x.now h) p.y.items readable)
#[derive(Serialize)]
pub struct A<'a> { #[serde(skip_serializing_if = "<[_]>::is_empty")] pub x: &'a [u8], pub y: Vec<&'a [&'static str]> }

// + Token::Ident(x1, x2) => send_whole_token_ident(alloc, serializer, self, x1, x2),
// + Token::At { of } => send_whole_token_at(alloc, serializer, self, of),
// - send_whole_token_only
#[derive(Serialize)]
pub struct Span { pub lo: u32, pub hi: u32 }
#[derive(Serialize)]
pub enum Token { Ident(String, Span), At { of: Span }, Only(Span), Eof }

// + struct From1OfAX(String, Option<u8>, i16, String, u8);
// + impl serde_content::derive_support::MadeFrom<From1OfAX> for A
// + fn send_told_a_x<S: Serializer>(alloc: Global, serializer: &mut S, x1: &String, x2: &Option<u8>, x3: &i16) -> Result<()>
// + { send_told_a_x(alloc, serializer, name, b, c) }
// + A::X { name, b, c, d, e } => send_whole_a_x(alloc, serializer, self, name, b, c, d, e),
// + struct From1OfBY(u8, (Vec<i8>, Option<(bool, char)>, BTreeMap<u8, String>));
#[derive(Serialize, Deserialize)]
enum A { X { name: String, b: Option<u8>, c: i16, #[serde(skip)] d: String, #[serde(skip)] e: u8 }, Y }
#[derive(Deserialize)]
enum B { Y(u8, (Vec<i8>, Option<(bool, char)>, BTreeMap<u8, String>)) }

// + let ANContent { a, b, c } = read_a_n(alloc, fields)?;
// + SendOpen(Call::Struct(name_n(), 1), row)
// + SendTag(FieldsOfAN, NamesOfA, 1, row)
// + | a.G x1 x2 ↦ unsent_script (codes "the enum variant A::G cannot be serialized")
// + let b: f64 = Default::default(); let c: E = Absent::absent(alloc);
// + elim x [ | the_e.X ↦ ⊥ | the_e.Y x1 ↦ x1 ≡ 4 ]
// 9: not copied: `impl Default for E`, but what it gives is written where an attribute asks for it
#[derive(Serialize, Deserialize)]
#[serde(tag = "t", content = "c")]
enum A {
    #[serde(skip_serializing)] G(u8, String),
    N { a: u8, #[serde(skip)] b: f64, #[serde(skip)] c: E },
}
#[derive(Serialize)]
enum E { X, Y(u8) }
impl Default for E { fn default() -> Self { Self::Y(4) } }

// 7: called: `crate::rules::pair()`, of whose value contracts know nothing
// + let c: (u8, B) = crate::rules::pair();
// + let d: (f32, C) = (Default::default(), Absent::absent(alloc));
// - impl Absent for B
// + impl Absent for C
#[derive(Serialize, Deserialize)]
struct A {
    a: u8,
    #[serde(skip)]
    b: u8,
    #[serde(skip, default = "crate::rules::pair")]
    c: (u8, B),
    #[serde(skip)]
    d: (f32, C),
}
#[derive(Serialize)]
struct B(u8);
#[derive(Default, Serialize)]
struct C(char, (u8, u8));

// + struct A<'a> { a: &'a str, b: &'a f64, }
// - name "b"
// + | the_b.Y x1 x2 ↦ unsent_script (codes "the enum variant B::Y cannot be serialized")
#[derive(Serialize)]
struct A<'a> { a: &'a str, #[serde(skip)] b: &'a f64 }
#[derive(Serialize)]
#[serde(tag = "t", content = "c")]
enum B<'a> { X(&'a str, u8), #[serde(skip)] Y(&'a str, u8), Z { a: &'a str, #[serde(skip)] b: &'a u8 } }

// + pub struct A { pub x: BTreeSet<String>, pub y: HashMap<K, VecDeque<u8>>, pub z: PathBuf, pub w: Rc<BoxedStr>, pub v: Arc<HashSet<PathBuf>>, }
// + use std::collections::{BTreeSet, HashMap, HashSet, VecDeque};
// + use std::boxed::{BoxedStr};
// + (hash_map_back k_eq.laws-law
// + (set_back string_cmp_total
#[derive(PartialEq, Eq, Hash, Serialize, Deserialize)]
pub struct K(u8);
#[derive(PartialEq, Eq, Serialize, Deserialize)]
pub struct A {
    pub x: std::collections::BTreeSet<String>,
    #[serde(default, skip_serializing_if = "HashMap::is_empty")]
    pub y: HashMap<K, VecDeque<u8>>,
    #[serde(default)]
    pub z: std::path::PathBuf,
    pub w: std::rc::Rc<Box<str>>,
    pub v: std::sync::Arc<HashSet<PathBuf>>,
}

// 2: no RoundTrip is written for `A`: it contains itself, and is read to a limit of levels
// 4: no RoundTrip is written for `B`: it contains itself, and is read to a limit of levels
// 6: no RoundTrip is written for `D`: `A`, which it holds, does not come back
// + enum A { X(Option<Box<A>>), Y { x: Vec<A>, y: String, z: Box<A>, w: i8, }, Z, }
// + type Field1OfAY = NestedField<FieldsOfAY, 0, Vec<A>, Field2OfAY>;
// + let row = SendNestedField(FieldsOfAY, 0, x1, row);
// + content_nested::tell(self);
// + fold-B Nested ⟦<B as Steps>⟧.step y
// + impl<'de> ReadWithin<'de, B> for Levels
// - RoundTrip
#[derive(Clone, Debug, PartialEq, Eq, Serialize, Deserialize)]
enum A { X(Option<Box<Self>>), Y { x: Vec<A>, y: String, z: Box<A>, w: i8 }, Z }
#[derive(PartialEq, Eq, Serialize, Deserialize)]
pub struct B { the_next: Vec<B> }
#[derive(PartialEq, Eq, Serialize, Deserialize)]
struct D { a: A, b: Vec<A>, c: Option<B> }

// 3: passed over: `default` beside `flatten`, where Serde doesn't read it
// + type Field2OfA = TryRest<B, OthersSkipped<FieldsOfA>>;
// + let ReadField(z, row, _) = row; let TryRest(x, _) = row;
// + (RestTried (⟦<B as Deserialize<'de>>⟧.refusal) (⟦<B as Deserialize<'de>>⟧.gives) p.x NoOthers)
#[derive(Deserialize)]
struct A {
    #[serde(flatten, default)] x: Option<B>,
    z: u8,
}
#[derive(Deserialize)]
struct B { y: u8 }

// 2: no RoundTrip is written for `A`: `x` takes the entries that no other field takes, and a key of its own may be a field's name
// + type Field2OfA = ReadRest<BTreeMap<String, u8>, OthersSkipped<FieldsOfA>>;
// + (rest_then (⟦<BTreeMap<String, u8> as Deserialize<'de>>⟧.refusal) (others_left (name "z" ∷ [])))
// + let row = SendEntry(FieldsOfA, 0, &self.z, row);
// - SendEntry(FieldsOfA, 1
#[derive(PartialEq, Eq, Serialize, Deserialize)]
struct A {
    #[serde(flatten, skip_serializing)] x: BTreeMap<String, u8>,
    z: u8,
}

// 3: passed over: `default` beside `flatten`, where Serde doesn't read it
// + (RowThen (name "y") (⟦<u8 as Deserialize<'de>>⟧.gives) p.x.y
#[derive(Deserialize)]
struct A {
    #[serde(flatten, default)] x: B,
    z: u8,
}
#[derive(Deserialize)]
struct B { y: u8 }

// + type Field1OfA = ReadRest<B, OthersSkipped<FieldsOfA>>;
// + type Field2OfB = ReadRest<Box<C>, OthersSkipped<FieldsOfB>>;
#[derive(Deserialize)]
struct A { #[serde(flatten)] b: B }
#[derive(Deserialize)]
struct B { x: u8, #[serde(flatten)] c: Box<C> }
#[derive(Deserialize)]
#[serde(transparent)]
struct C { d: D }
#[derive(Deserialize)]
struct D(HashMap<u8, String>);

// + (name "rest" ∷ name "y" ∷ [])
#[derive(Deserialize)]
struct A { #[serde(rename = "rest")] x: u8, y: u8, #[serde(flatten)] rest: BTreeMap<String, u8> }

// 4: passed over: `default` beside `flatten`, where Serde doesn't read it
// + flattened_unless (⟦<Option<u8> as Skip>⟧.is_empty p.b.x) (name "x") (⟦<Option<u8> as Serialize>⟧.script p.b.x)
// + (⟦<BTreeMap<String, u8> as SendEntries>⟧.entries p.more end_script)
// + let row = SendAll(&self.more, row);
// + impl SendEntries for C
// - p.unknown
#[derive(Serialize)]
struct A {
    #[serde(flatten)] b: B,
    #[serde(flatten, default, skip_serializing_if = "Option::is_none")] c: Option<C>,
    #[serde(flatten, skip_serializing)] unknown: BTreeMap<String, u8>,
    #[serde(flatten)] more: BTreeMap<String, u8>,
}
#[derive(Serialize)]
struct B { #[serde(skip_serializing_if = "Option::is_none")] x: Option<u8>, y: u8 }
#[derive(Serialize)]
struct C { z: u8 }

// + flattened_back (entries_named (entry_named_back (name "x") u8_back p.b.x tt (λ q. q.b.x) (entry_unless_back {names = ([])} (name "y")
#[derive(PartialEq, Eq, Serialize, Deserialize)]
struct A { #[serde(flatten)] b: B, #[serde(skip_serializing_if = "Option::is_none")] y: Option<u8> }
#[derive(PartialEq, Eq, Serialize, Deserialize)]
struct B { x: u8 }

// + (tag_first (name "t") (name "Two") (flattened_first (name "c") (tuple_script 2
// + (flattened_first (name "Named") (struct_script (name "Named") 1
// + body.Nothing ↦ λ rest. rest
// + body.Map x1 ↦ λ rest. ⟦<Option<BTreeMap<String, u8>> as SendEntries>⟧.entries x1 rest
#[derive(Serialize)]
struct A { #[serde(flatten)] b: B, #[serde(flatten)] c: Box<C>, #[serde(flatten)] d: Body }
#[derive(Serialize)]
#[serde(tag = "t", content = "c")]
enum B { One, Two(u8, i8) }
#[derive(Serialize)]
enum C { One(u8), Named { x: u8 } }
#[derive(Serialize)]
#[serde(untagged)]
enum Body { Nothing, Map(Option<BTreeMap<String, u8>>), Named { x: u8 } }

// 5: called: `crate::rules::five()`, of whose value contracts know nothing
// + type Field1OfA = ReadField<FieldsOfA, 0, u8, OthersSkipped<FieldsOfA>>;
// + let y: BTreeMap<String, u8> = Absent::absent(alloc);
// + let z: i32 = crate::rules::five();
// - ReadRest
#[derive(Deserialize)]
struct A {
    x: u8,
    #[serde(flatten, skip)] y: BTreeMap<String, u8>,
    #[serde(flatten, skip_deserializing, default = "crate::rules::five")] z: i32,
}

// 2: of another file: `Cell`, which needs Serialize, Deserialize
// + pub struct A { pub a: LinkedList, pub b: Range, pub c: Cell, pub d: Vec<BinaryHeap>, }
// + use crate::other::Thing as Cell;
#[derive(Serialize, Deserialize)]
pub struct A { pub a: LinkedList, pub b: Range, pub c: Cell, pub d: Vec<BinaryHeap> }
#[derive(Serialize, Deserialize)]
pub struct LinkedList { pub head: u8 }
#[derive(Serialize, Deserialize)]
pub struct Range { pub start: u8, pub end: u8 }
#[derive(Serialize, Deserialize)]
pub enum BinaryHeap { Leaf, Node(u8) }
use crate::other::Thing as Cell;

// 2: no RoundTrip is written for `A`: `B`, which it holds, does not come back
// 4: no RoundTrip is written for `B`: `c` may be left out, and what is read in its place may be another value
// 5: called: `C::is_empty`, which needs the contract `ensures { result ≡ c_is_empty value.now }`, by the definition `Rattle.a.specs.Types.c_is_empty`
// 6: called: `crate::rules::is_big`, which needs the contract `ensures { result ≡ is_big value.now }`, by the definition `Rattle.a.specs.Rules.is_big`
// 11: no RoundTrip is written for `D`: `n` may be left out, and is not read where it is missing: give it `default` too
// - RoundTrip<'de> for A
// - RoundTrip<'de> for B
// + RoundTrip<'de> for C
// - RoundTrip<'de> for D
#[derive(PartialEq, Eq, Serialize, Deserialize)]
enum A { X(B), Y }
#[derive(PartialEq, Eq, Serialize, Deserialize)]
struct B {
    #[serde(default, skip_serializing_if = "C::is_empty")] c: C,
    #[serde(default, skip_serializing_if = "crate::rules::is_big")] n: u8,
}
#[derive(Default, PartialEq, Eq, Serialize, Deserialize)]
struct C { x: u8 }
#[derive(PartialEq, Eq, Serialize, Deserialize)]
struct D { #[serde(skip_serializing_if = "crate::rules::is_big")] n: u8 }

// 3: no RoundTrip is written for `A`: `x` has an `alias`
// + (AliasedThen (name "x" ∷ name "y" ∷ []) (λ (x : (Unit {0})). ⊤)
// + (AliasedThen (name "z" ∷ name "{w}" ∷ []) (λ (x : (record {0 : ℕ}))
// + (aliased_then (name "{v") (name "{v" ∷ name "}u" ∷ []) (Some (missing_field (name "{v")))
#[derive(PartialEq, Eq, Serialize, Deserialize)]
#[serde(deny_unknown_fields)]
struct A {
    #[serde(alias = "y", default)] x: (),
    #[serde(alias = "{w}", default)] z: (u8,),
    #[serde(rename = "{v", alias = "}u")] v: u8,
}

// + requires { whole.now ≡ the_whole.B x.now y.now }
#[derive(Serialize)]
#[serde(tag = "t", content = "c")]
enum Whole {
    A,
    B { x: u8, y: String },
}

// + ghost use Rattle.a.specs.Util as util_said; ghost use Rattle.other.specs.Util as the_util_said;
// 3: called: `crate::util::put`, which needs the contract `pub fn put<S: Serializer>(value: &u8, alloc: Global, serializer: &mut S) -> Result<()> ensures { Sends S.step S.refuses (S.seen serializer.old) (put_script value.now) result (S.seen serializer.new) }`, by the definitions `put_script` and `put_lawful` of `Rattle.a.specs.Util`, the latter of the type `(x : ℕ) (readable : Bool) → IsLawful (put_script x readable)`; `#[tactic(auto, using(content_ser::proofs::Sending::sending))]` above it lets its proof be found
// 4: called: `other::util::put`, which needs the contract `pub fn put<S: Serializer>(value: &u8, alloc: Global, serializer: &mut S) -> Result<()> ensures { Sends S.step S.refuses (S.seen serializer.old) (put_script value.now) result (S.seen serializer.new) }`, by the definitions `put_script` and `put_lawful` of `Rattle.other.specs.Util`, the latter of the type `(x : ℕ) (readable : Bool) → IsLawful (put_script x readable)`; `#[tactic(auto, using(content_ser::proofs::Sending::sending))]` above it lets its proof be found
#[derive(Serialize)]
struct A {
    #[serde(serialize_with = "crate::util::put")] x: u8,
    #[serde(serialize_with = "other::util::put")] y: u8,
}

// + impl<'de, T: Deserialize<'de>> Deserialize<'de> for A<T> {
#[derive(Serialize, Deserialize)]
struct A<T> { #[serde(flatten)] b: B<T> }
#[derive(Serialize, Deserialize)]
struct B<T> { x: T }

// + pub struct A { x: u8, a: Option<std::time::Instant>, b: std::cell::RefCell<u8>, c: Option<Cache<u8>>, d: std::time::Instant, e: std::sync::atomic::AtomicU8, f: [u8; 4], g: Vec<std::result::Result<u8, Duration>>, h: HashMap<Vec<u8>, std::ops::Range<u8>>, j: (u8, u8, u8, u8, f64), }
// + (UnreadThen (λ (x : (Option _)). x ≡ None) z.a
// + (UnreadThen (λ (x : _). ⟦<std::cell::RefCell<u8> as Default>⟧.is_default x) z.b
// + let b: std::cell::RefCell<u8> = Default::default();
// + let d: std::time::Instant = crate::rules::now();
// + use crate::other::Cache;
// - specs.declared.other
// 8: called: `crate::rules::now()`, of whose value contracts know nothing
use crate::other::Cache;
use std::{sync::atomic, time::Instant as When};
#[derive(Serialize, Deserialize)]
pub struct A {
    x: u8,
    #[serde(skip)] a: Option<std::time::Instant>, #[serde(skip)] b: std::cell::RefCell<u8>, #[serde(skip)] c: Option<Cache<u8>>,
    #[serde(skip, default = "crate::rules::now")]
    d: When,
    #[serde(skip)] e: atomic::AtomicU8, #[serde(skip)] f: [u8; 4], #[serde(skip)] g: Vec<Result<u8, core::time::Duration>>,
    #[serde(skip)] h: std::collections::HashMap<Vec<u8>, std::ops::Range<u8>>, #[serde(skip)] j: (u8, u8, u8, u8, f64),
}

// 2: called: `crate::rules::d`, which needs the contract `pub fn d<'de, 'n: 'de>(alloc: Global, from: Deserializer<'de, 'n>) -> Result<[u8; 32]> ensures { Reads (d_refusal (subject from.entry)) (DGives (subject from.entry)) result }`, by the definitions `d_refusal` and `DGives` of `Rattle.a.specs.Rules`
// 2: called: `crate::rules::s`, which needs the contract `pub fn s<S: Serializer>(value: &[u8; 32], alloc: Global, serializer: &mut S) -> Result<()> ensures { Sends S.step S.refuses (S.seen serializer.old) (s_script value.now) result (S.seen serializer.new) }`, by the definitions `s_script` and `s_lawful` of `Rattle.a.specs.Rules`, the latter of the type `(x : (ArrayOf ℕ)) (readable : Bool) → IsLawful (s_script x readable)`; `#[tactic(auto, using(content_ser::proofs::Sending::sending))]` above it lets its proof be found
// + struct Read1OfA([u8; 32]);
#[derive(Serialize, Deserialize)]
struct A { #[serde(serialize_with = "crate::rules::s", deserialize_with = "crate::rules::d")] x: [u8; 32], y: u8 }

// 8: written as `Absent`: `derive(Default)` on `B`, whose value takes an allocator
// + a: [u8; 4], b: [f32; 3], c: [bool; 40], d: [[f64; 2]; 3], e: [B; 2], f: ([Option<std::time::Instant>; 2], [i8; 2]), g: [crate::other::Thing; 2],
// + (UnreadThen (λ (x : (ArrayOf ℕ)). ⟦<[u8; 4] as Absent>⟧.is_absent x) z.a
// + (UnreadThen (λ (x : _). ⟦<[f32; 3] as Default>⟧.is_default x) z.b
// + (UnreadThen (λ (x : _). ⟦<[bool; 40] as Default>⟧.is_default x) z.c
// + (UnreadThen (λ (x : (ArrayOf Thing)). ⟦<[crate::other::Thing; 2] as Absent>⟧.is_absent x) z.g
// + let d: [[f64; 2]; 3] = Default::default(); let e: [B; 2] = Absent::absent(alloc);
// + let f: ([Option<std::time::Instant>; 2], [i8; 2]) = (Default::default(), Absent::absent(alloc));
// + (let law : (x : (C _)) (readable : Bool) → IsLawful (⟦<C<[u8; 40]> as Serialize>⟧.script x readable)
// + (let law : (x : (C (ArrayOf ℕ))) (readable : Bool) → IsLawful (⟦<C<[u8; 4]> as Serialize>⟧.script x readable)
#[derive(Serialize, Deserialize)]
pub struct A {
    x: u8,
    #[serde(skip)] a: [u8; 4], #[serde(skip)] b: [f32; 3], #[serde(skip)] c: [bool; 40], #[serde(skip)] d: [[f64; 2]; 3],
    #[serde(skip)] e: [B; 2], #[serde(skip)] f: ([Option<std::time::Instant>; 2], [i8; 2]), #[serde(skip)] g: [crate::other::Thing; 2],
}
#[derive(Default, Serialize, Deserialize)]
pub struct B { x: String }
#[derive(Serialize, Deserialize)]
pub struct C<T> { x: u64, #[serde(skip)] kind: std::marker::PhantomData<T> }
#[derive(Serialize, Deserialize)]
pub struct D { a: C<[u8; 40]>, b: C<[u8; 4]> }

// 11: called: `crate::rules::deserialize`, which needs the contract `pub fn deserialize<'de, 'n: 'de>(alloc: Global, from: Deserializer<'de, 'n>) -> Result<u8> ensures { Reads (deserialize_refusal (subject from.entry)) (DeserializeGives (subject from.entry)) result }`, by the definitions `deserialize_refusal` and `DeserializeGives` of `Rattle.a.specs.Rules`
// 13: called: `crate::rules::send`, which needs the contract `pub fn send<S: Serializer>(value: &u8, alloc: Global, serializer: &mut S) -> Result<()> ensures { Sends S.step S.refuses (S.seen serializer.old) (send_script value.now) result (S.seen serializer.new) }`, by the definitions `send_script` and `send_lawful` of `Rattle.a.specs.Rules`, the latter of the type `(x : ℕ) (readable : Bool) → IsLawful (send_script x readable)`; `#[tactic(auto, using(content_ser::proofs::Sending::sending))]` above it lets its proof be found
// + Z { x: u8, y: [u8; 3], z: u8, w: Option<Box<u8>>, },
// - is_small
// - Absent::absent(alloc)
#[derive(Serialize, Deserialize)]
pub enum A {
    X(u8),
    #[serde(skip)] Y(#[serde(skip)] std::time::Instant),
    #[serde(skip)]
    Z {
        #[serde(with = "crate::rules")] x: u8, #[serde(default = "crate::rules::some")] y: [u8; 3],
        #[serde(skip_serializing_if = "is_small", alias = "y")] z: u8, #[serde(default)] w: Option<Box<u8>>,
    },
    #[serde(skip_serializing)]
    U { #[serde(with = "crate::rules")] x: u8, #[serde(skip_serializing_if = "is_small")] y: bool },
    #[serde(skip_deserializing)]
    V { #[serde(skip)] x: std::time::Instant, #[serde(serialize_with = "crate::rules::send", default = "none")] y: u8 },
}

// + pub struct A<T> { x: u64, kind: std::marker::PhantomData<T>, }
// + impl<T> Serialize for A<T>
// + impl<'de, T> Deserialize<'de> for A<T>
// + impl<'de, T> ReadStruct<'de> for A<T>
// + let kind: std::marker::PhantomData<T> = Default::default();
// + impl<T> Serialize for B<T>
// + impl<'de, K, V: Deserialize<'de>> Variants<'de> for C<K, V>
// + impl<'de, K> ReadFields<'de> for From1OfCX<K>
// + pub struct D { a: A<std::time::Instant>, }
// - PhantomData::
#[derive(Serialize, Deserialize)]
pub struct A<T> { x: u64, #[serde(skip)] kind: PhantomData<T> }
#[derive(Serialize, Deserialize)]
#[serde(transparent)]
pub struct B<T>(u32, PhantomData<T>);
#[derive(Serialize, Deserialize)]
pub enum C<K, V> { X { x: u8, #[serde(skip)] kind: PhantomData<K> }, Y(V) }
#[derive(Serialize, Deserialize)]
pub struct D { a: A<std::time::Instant> }
use std::marker::PhantomData;

// 2: called: `crate::rules::deserialize`, which needs the contract `pub fn deserialize<'de, 'n: 'de>(alloc: Global, from: Deserializer<'de, 'n>) -> Result<u8> ensures { Reads (deserialize_refusal (subject from.entry)) (DeserializeGives (subject from.entry)) result }`, by the definitions `deserialize_refusal` and `DeserializeGives` of `Rattle.a.specs.Rules`
// 2: called: `crate::rules::serialize`, which needs the contract `pub fn serialize<S: Serializer>(value: &u8, alloc: Global, serializer: &mut S) -> Result<()> ensures { Sends S.step S.refuses (S.seen serializer.old) (serialize_script value.now) result (S.seen serializer.new) }`, by the definitions `serialize_script` and `serialize_lawful` of `Rattle.a.specs.Rules`, the latter of the type `(x : ℕ) (readable : Bool) → IsLawful (serialize_script x readable)`; `#[tactic(auto, using(content_ser::proofs::Sending::sending))]` above it lets its proof be found
// 2: no RoundTrip is written for `A`: `1` is read or sent by a function of your own
// + let sent_2 = Send2OfA(&self.1); let row = SendEnd; let row = SendPart(&sent_2, row); let row = SendPart(&self.0, row);
// + type Part2OfA = ReadPart<2, 1, Read2OfA, PartsEnd<2>>;
// + let ReadPart(x1, row) = row; let ReadPart(Read2OfA(x2), _) = row;
// + let sent_1 = Send1OfB(&self.0); Call::NewtypeStruct(name_b()).around(&sent_1, alloc, serializer)
// + let inside = from.deserialize_newtype_struct(alloc, name_b())?; let Read1OfB(x1) = inside.deserialize(alloc)?; Ok(B(x1))
// + let sent_1 = Send1OfCX(x1); Call::NewtypeVariant(name_c(), 0, name_x()).around(&sent_1, alloc, serializer)
// + let Read1OfCX(x1) = variant.newtype_variant(alloc)?; Ok(C::X(x1))
#[derive(PartialEq, Eq, Serialize, Deserialize)]
struct A(u8, #[serde(with = "crate::rules")] u8);
#[derive(Serialize, Deserialize)]
struct B(#[serde(with = "crate::rules")] u8);
#[derive(Serialize, Deserialize)]
enum C { X(#[serde(with = "crate::rules")] u8), Y(#[serde(with = "crate::rules")] u8, u8) }

// 2: written as `Absent`: `derive(Default)` on `A`, whose value takes an allocator
// 4: of another file: `crate::other::View`, which needs Serialize
// + ghost is_absent = { λ p. ⟦<String as Absent>⟧.is_absent p.x × ⟦<std::marker::PhantomData<u8> as Default>⟧.is_default p.of };
// + A { x: Absent::absent(alloc), of: Default::default() }
// + struct B<'a> { a: crate::other::View<'a>, b: Option<A>, }
#[derive(Default, Serialize, Deserialize)]
struct A { x: String, #[serde(skip)] of: std::marker::PhantomData<u8> }
#[derive(Serialize)]
struct B<'a> { a: crate::other::View<'a>, #[serde(skip)] b: Option<A> }

// + pub struct A { pub id: [u8; 32], pub grid: Vec<[Option<String>; 3]>, pub pairs: [[u16; 4]; 2], pub none: Option<[bool; 0]>, }
// + (field_fits (array_lawful 32 (λ x h. leaf_lawful refl) p.id readable)
// + = (array_back 2 (array_back 4 u16_back)) in law)
// + (array_keeps 3 (option_keeps
// + (array_kept 3 (option_kept text_not_null text_kept))
// + (tuple_not_null 0 (array_refusal 0 (⟦<bool as Deserialize<'de>>⟧.refusal)))
#[derive(PartialEq, Eq, Serialize, Deserialize)]
pub struct A {
    pub id: [u8; 0x20],
    pub grid: Vec<[Option<String>; 3_usize]>,
    pub pairs: [[u16; 4]; 2],
    pub none: Option<[bool; 0usize]>,
}

// + taken_by_one (array_counts 2 (⟦<u8 as Deserialize<'de>>⟧.refusal)) (array_counts 3
#[derive(PartialEq, Eq, Serialize, Deserialize)]
#[serde(untagged)]
pub enum A { X([u8; 2]), Y(Box<[u8; 3]>), Z(String) }

// 2: called: `crate::hex::serialize`, which needs the contract `pub fn serialize<S: Serializer>(value: &[u8; 64], alloc: Global, serializer: &mut S) -> Result<()> ensures { Sends S.step S.refuses (S.seen serializer.old) (serialize_script value.now) result (S.seen serializer.new) }`, by the definitions `serialize_script` and `serialize_lawful` of `Rattle.a.specs.Hex`, the latter of the type `(x : (ArrayOf ℕ)) (readable : Bool) → IsLawful (serialize_script x readable)`; `#[tactic(auto, using(content_ser::proofs::Sending::sending))]` above it lets its proof be found
#[derive(Serialize)]
struct A { #[serde(with = "crate::hex")] x: [u8; 64] }

// 3: called: `impl From<A> for u8`, which needs `ghost from_gives = { λ x y. y ≡ a_into x }`, by the definition `a_into` of `Rattle.a.specs.Types`, of the type `A → ℕ`
// 3: called: `impl From<u8> for A`, of whose value contracts know what its `from_gives` says
// 3: no RoundTrip is written for `A`: it is read as `u8`
// + ghost script = { λ p. ⟦<u8 as Serialize>⟧.script (types_said.a_into p) };
// + let sent: u8 = From::from(*self); sent.serialize(alloc, serializer)
// + ghost gives = { λ s p. (u : _) × ⟦<u8 as Deserialize<'de>>⟧.gives s u × ⟦<A as From<u8>>⟧.from_gives u p };
// + let read: u8 = Deserialize::deserialize(alloc, from)?; Ok(From::from(read))
// + pub enum A { B, C { x: f64, }, }
// - name "
// - TheVariants as a
// - impl Variants
#[derive(Clone, Copy, PartialEq, Eq, Serialize, Deserialize)]
#[serde(from = "u8", into = "u8", rename_all = "UPPERCASE", untagged)]
pub enum A { #[serde(rename = "b")] B, C { #[serde(default = "f", with = "g")] x: f64 } }

// 3: called: `impl From<&A> for Raw`, which needs `ghost from_gives = { λ x y. y ≡ a_into x.now }`, by the definition `a_into` of `Rattle.a.specs.Types`, of the type `A → Raw`
// 3: called: `impl From<Vec<u8>> for A`, of whose value contracts know what its `from_gives` says
// 3: no RoundTrip is written for `A`: it is read as `Vec<u8>`
// 10: called: `C::to_sent`, which needs the contract `pub fn to_sent(&self, alloc: Global) -> Result<BoxedStr, AllocError> ensures { IfOk result (λ y. boxed_str_bytes y ≡ c_into self.now) }`, by the definition `c_into` of `Rattle.a.specs.Types`, of the type `C → List ℕ`
// 10: written as `Absent`: `derive(Default)` on `C`, whose value takes an allocator
// + let sent: Raw = From::from(self);
// + ghost lawful = { λ p readable. raw_serialize.lawful-law (types_said.a_into p) readable };
// + let sent: BoxedStr = self.to_sent(alloc)?;
// + impl Absent for C
// + impl<'de> ReadStruct<'de> for C
// - ReadStruct<'de> for A
// - Call::Struct(name_c()
#[derive(PartialEq, Eq, Serialize, Deserialize)]
#[serde(from = "Vec<u8>", into = "Raw")]
pub struct A { #[serde(skip_serializing_if = "h")] pub x: f64, pub b: u8 }
#[derive(Serialize)]
pub(crate) struct Raw([u8; 4], Option<bool>);
#[derive(Serialize, Deserialize)]
struct B { #[serde(default)] a: Option<C>, more: Vec<A> }
#[derive(Default, Serialize, Deserialize)]
#[serde(into = "Box<str>", default)]
pub struct C { x: Option<u8>, y: String }

// 3: called: `impl From<crate::raw::Whole> for A`, of whose value contracts know what its `from_gives` says
// 6: called: `Level::to_sent`, which needs the contract `pub fn to_sent(&self, alloc: Global) -> Result<String, AllocError> ensures { IfOk result (λ y. string_bytes y ≡ level_into self.now) }`, by the definition `level_into` of `Rattle.a.specs.Types`, of the type `Level → List ℕ`
// 6: called: `impl TryFrom<u16> for Level`, which needs `ghost try_from_gives = { λ x r. MatchResult r (λ y. level_refusal (pos x) ≡ None) (λ e. IsSomeAnd (⟦<E as Display>⟧.output e) (λ t. level_refusal (pos x) ≡ Some t)) }`, where `E` is its `Error`, by the definition `level_refusal` of `Rattle.a.specs.Types`, of the type `ℤ → Option (List ℕ)`
// 9: called: `impl From<String> for B`, of whose value contracts know what its `from_gives` says
// 10: not copied: `type Text = String`, whose type is written in its place
// 13: called: `impl TryFrom<bool> for D`, which needs `ghost try_from_gives = { λ x r. MatchResult r (λ y. d_refusal x ≡ None) (λ e. IsSomeAnd (⟦<E as Display>⟧.output e) (λ t. d_refusal x ≡ Some t)) }`, where `E` is its `Error`, by the definition `d_refusal` of `Rattle.a.specs.Types`, of the type `Bool → Option (List ℕ)`
// + (refusal_then (number_from kind.u16 s) (λ v. option_map custom (types_said.level_refusal v))) };
// + (refusal_then (bool_from s.origin) (λ v. option_map custom (types_said.d_refusal v))) };
// + let read: String = Deserialize::deserialize(alloc, from)?; Ok(From::from(read))
// + #[tactic(auto, using(content_ser::proofs::Sending::sending))] fn serialize
// + match Level::try_from(read) { Ok(made) => Ok(made), Err(refused) =>
// + let sent: String = self.to_sent(alloc)?;
// + ghost script = { λ p. scripts_standard_said.only (calls_event_said.text (types_said.level_into p)) };
// + ghost script = { λ p. struct_script (name "A") 2
// - ReadStruct<'de> for A
#[derive(Serialize, Deserialize)]
#[serde(from = "crate::raw::Whole", rename_all = "UPPERCASE")]
pub(super) struct A { #[serde(deserialize_with = "h")] pub x: u8, pub(crate) level: Level }
#[derive(Clone, Copy, Serialize, Deserialize)]
#[serde(try_from = "u16", into = "String")]
pub enum Level { Low, High(u8) }
#[derive(Deserialize)]
#[serde(from = "Text", into = "no type")]
pub struct B(pub String);
type Text = String;
#[derive(Deserialize)]
#[serde(try_from = "bool")]
pub enum D { Yes }

// + use crate::my::Cell;
// + struct A { x: u8, a: Option<Cell<u8>>, b: crate::my::Cow<'static, u8>, c: a::Result<u8>, d: Option<std::result::Result<u8, String>>, }
use crate::my::Cell;
#[derive(Serialize, Deserialize)]
struct A {
    x: u8,
    #[serde(skip)] a: Option<Cell<u8>>, #[serde(skip)] b: crate::my::Cow<'static, u8>, #[serde(skip)] c: a::Result<u8>,
    #[serde(skip)] d: Option<Result<u8, String>>,
}

// + struct A { a: [u8; 10], b: [u8; 3], c: [u8; 16], d: [[u8; 31]; 1], }
#[derive(Serialize, Deserialize)]
struct A { a: [u8; 1_0], b: [u8; 0b11], c: [u8; 0o2_0usize], d: [[u8; 0x_1F]; 01] }

// 3: called: `impl From<&types_said> for u8`, which needs `ghost from_gives = { λ x y. y ≡ types_said_into x.now }`, by the definition `types_said_into` of `Rattle.a.specs.Types`, of the type `types_said → ℕ`
// + ghost use Rattle.a.specs.Types as the_types_said;
// + ghost script = { λ p. ⟦<u8 as Serialize>⟧.script (the_types_said.types_said_into p) };
#[derive(Serialize)]
#[serde(into = "u8")]
pub enum types_said { X }

// 2: not copied: `type Pause = core::time::Duration`, whose type is written in its place
// 4: no RoundTrip is written for `A`: `pause` holds a Duration, and std's contracts don't tell which are equal
// 8: not copied: `fn none`, but what it gives is written where an attribute asks for it
// 10: no RoundTrip is written for `B`: `A`, which it holds, does not come back
// 13: no RoundTrip is written for `C`: `0` holds a Duration, and std's contracts don't tell which are equal
// 15: no RoundTrip is written for `D`: `x` is not sent
// + use std::time::{Duration};
// + pub struct A { pause: Duration, limit: Option<Duration>, steps: Vec<(u8, Duration)>, after: Duration, left: Duration, }
// + ghost use Rattle.content_ser.specs.Laws.Durations.{duration_lawful};
// + (field_fits (duration_lawful p.pause readable)
// + (field_fits (option_lawful (λ x h. duration_lawful x h) p.limit readable)
// + (RowOrThen (name "after") (λ (x : Duration). as_nanos x ≡ 0)
// + (RowOrThen (name "left") (λ (x : Duration). as_nanos x ≡ 0)
// + let x: Duration = Absent::absent(alloc);
// + pub struct E { x: Duration, y: u8, }
// - RoundTrip
use std::time::{self, Duration};
type Pause = core::time::Duration;
#[derive(PartialEq, Eq, Serialize, Deserialize)]
pub struct A {
    pause: Pause, limit: Option<time::Duration>, steps: Vec<(u8, std::time::Duration)>, #[serde(default)] after: Duration,
    #[serde(default = "none")] left: Duration,
}
fn none() -> Duration { Duration::ZERO }
#[derive(PartialEq, Eq, Serialize, Deserialize)]
pub struct B { held: Vec<A> }
#[derive(PartialEq, Eq, Serialize, Deserialize)]
#[serde(untagged)]
pub enum C { X(Duration), Y { held: u8 } }
#[derive(PartialEq, Eq, Serialize, Deserialize)]
pub struct D { #[serde(skip)] x: Duration, y: u8 }
#[derive(Default, PartialEq, Serialize, Deserialize)]
#[serde(default)]
pub struct E { x: Duration, y: u8 }

// 1: not copied: `const PAUSE`: write it in another module, if code needs it
// 3: not copied: `impl Default for A`, but what it gives is written where an attribute asks for it
// 9: not copied: `fn pause`, but what it gives is written where an attribute asks for it
// 10: not copied: `fn few`, but what it gives is written where an attribute asks for it
// + ghost is_default = { λ x. as_nanos x ≡ 90000000000 };
// + Ok(Duration::from_secs(90))
// + ghost is_default = { λ x. as_nanos x ≡ 250000000 };
// + ghost is_skipped = { λ x. (nat_eq (as_nanos x) 0) };
// + fn is_skipped(value: &Duration) -> bool { value.is_zero() }
// + ghost is_default = { λ x. as_nanos x ≡ 7 };
const PAUSE: std::time::Duration = std::time::Duration::from_secs(90);
use std::time::Duration;
impl Default for A { fn default() -> A { A { x: Duration::ZERO, y: Duration::from_nanos(7) } } }
#[derive(Serialize, Deserialize)]
#[serde(default)]
pub struct A { x: Duration, y: Duration }
#[derive(Serialize, Deserialize)]
pub struct B { #[serde(default = "pause")] x: Duration, #[serde(default = "few", skip_serializing_if = "Duration::is_zero")] y: Duration }
fn pause() -> Duration { PAUSE }
fn few() -> Duration { Duration::from_millis(5 * 50) }

// 2: not copied: `type Host = core::net::IpAddr`, whose type is written in its place
// + use std::net::{IpAddr, Ipv4Addr, Ipv6Addr};
// + pub struct A { host: IpAddr, bound: Option<Ipv4Addr>, six: Vec<(u8, Ipv6Addr)>, }
// + (field_fits (ip_lawful p.host readable)
// + ghost exists = { λ p. ⟦<IpAddr as RoundTrip<'de>>⟧.exists p.host × ⟦<Option<Ipv4Addr> as RoundTrip<'de>>⟧.exists p.bound
// + impl<'de> CborRoundTrip<'de> for A
use std::net::{self, Ipv4Addr};
type Host = core::net::IpAddr;
#[derive(PartialEq, Eq, Serialize, Deserialize)]
pub struct A { host: Host, bound: Option<Ipv4Addr>, six: Vec<(u8, net::Ipv6Addr)> }

// 3: no RoundTrip is written for `A`: which values `IpAddr` in `X` takes is not known: hold a struct of this file with named fields, or a type of std's but Option and IP addresses
// - RoundTrip
use std::net::IpAddr;
#[derive(PartialEq, Eq, Serialize, Deserialize)]
#[serde(untagged)] enum A { X(IpAddr), Y(u8) }

// + struct Sent6OfA<'sent, T>(&'sent Box<T>);
// + let row = Sent6OfA(&self.f); let row = SendField(FieldsOfA, 4, &self.e, row);
// - struct Sent5OfB
#[derive(Serialize)]
struct A<T> { a: Vec<T>, b: u8, c: u8, d: u8, e: u8, f: Box<T> }
#[derive(Serialize)]
struct B<T> { a: Vec<T>, b: u8, c: u8, d: u8, e: Box<T> }

// + impl<T> serde_content::derive_support::MadeOf<From1OfA<T>> for A<T>
// + { serde_content::derive_support::read_made::<From1OfA<T>, Self>(alloc, fields) }
// + serde_content::derive_support::read_made_of_parts::<From1OfB<T>, Self>(alloc, parts) }
// + { serde_content::derive_support::read_made_from::<From1OfCX<T>, Self>(alloc, fields) }
// + { serde_content::derive_support::read_made_from::<From1OfCY<T>, Self>(alloc, fields) }
// + struct From1OfCY<T>(Vec<T>, u8, u8);
// + impl<T> serde_content::derive_support::MadeOf<From1OfD<T>> for D<T>
// + serde_content::derive_support::read_tuple_variant_made_from::<From1OfEX<T>, Self>(alloc, variant, 2)
// + serde_content::derive_support::read_variant_made_from::<FieldsOfFX, From1OfFX, Self>(alloc, variant)
use std::collections::HashMap;
#[derive(Deserialize)]
struct A<T> { a: Vec<T>, b: Vec<T>, c: Vec<T>, d: u8, e: u8, f: u8, g: u8, h: HashMap<u8, T>, i: u8 }
#[derive(Deserialize)]
struct B<T>(Vec<T>, Vec<T>, Vec<T>, u8, u8, u8, u8, u8, HashMap<u8, u8>);
#[derive(Deserialize)]
#[serde(tag = "kind")]
enum C<T> { X { a: HashMap<u8, T>, b: u8 }, Y { a: Vec<T>, b: u8, #[serde(skip)] c: u8 } }
#[derive(Deserialize)]
struct D<T> { a: Vec<T>, b: u8, c: u8, d: u8, e: u8, f: u8, g: u8, h: u8, i: u8, #[serde(skip)] j: u8 }
#[derive(Deserialize)]
enum E<T> { X(HashMap<u8, T>, #[serde(skip)] u8, u8), Y(Vec<T>) }
#[derive(Deserialize)]
enum F { X { a: HashMap<u8, u8>, b: String }, Y { a: u8 } }

// 3: not copied: `const N`: write it in another module, if code needs it
// 4: not copied: `fn d`, but what it gives is written where an attribute asks for it
// 5: not copied: `fn is`, but what it gives is written where an attribute asks for it
// 6: not copied: `mod inner`, but what it gives is written where an attribute asks for it
// + ghost is_default = { λ x. x ≡ 2 };
// + ghost is_skipped = { λ x. (nat_eq x (3)) };
// + ghost is_skipped = { λ x. (nat_eq x (5)) };
#[derive(Serialize, Deserialize)]
struct A { #[serde(default = "inner::f")] x: u8, #[serde(skip_serializing_if = "inner::is")] y: u8, #[serde(skip_serializing_if = "is")] z: u8 }
const N: u8 = 1;
fn d() -> u8 { 5 }
fn is(n: &u8) -> bool { *n == d() }
mod inner {
    const N: u8 = 2;
    pub fn f() -> u8 { N }
    fn d() -> u8 { 3 }
    pub fn is(n: &u8) -> bool { *n == d() }
}

// + type Field1OfAZ = ReadField<FieldsOfAZ, 1, u8, OthersSkipped<FieldsOfAZ>>;
// + type Field1OfAY = ReadField<FieldsOfAY, 1, u8, OthersRefused<FieldsOfAY>>;
#[derive(Deserialize)]
struct I { x: u8 }
#[derive(Deserialize)]
#[serde(tag = "t", deny_unknown_fields)]
enum A { Z(I), Y { y: u8 } }

// 7: not copied: `fn seven`, but what it gives is written where an attribute asks for it
// 8: not copied: `fn is_seven`, but what it gives is written where an attribute asks for it
// 12: not copied: `impl Default for B`, but what it gives is written where an attribute asks for it
// 16: not copied: `fn make`, but what it gives is written where an attribute asks for it
// + RowOrThen (name "x") (λ (x : (hash_map.HashMap ℕ ℕ (BuildHasherDefault FoldHasher))). x.entries ≡ [])
// + RowOrThen (name "y") (λ (x : (String Global)). string_bytes x ≡ [])
// + RowOrThen (name "z") (λ (x : ℕ). x ≡ 7)
// + RowOrThen (name "x") (λ (x : (Vec ℕ Global)). x.items ≡ [])
// + RowOrThen (name "y") (λ (x : ℕ). x ≡ 80)
// + impl DefaultOf<u16> for Default1OfC { ghost is_default = { λ x. x ≡ 80 };
// + impl SkipIf<u32> for Unless3OfA { ghost is_skipped = { λ x. (nat_eq x (7)) };
#[derive(Serialize, Deserialize)]
struct A {
    #[serde(default = "std::collections::HashMap::new")] x: HashMap<u8, u8>,
    #[serde(default = "::std::string::String::new")] y: String,
    #[serde(default = "seven", skip_serializing_if = "is_seven")] z: u32,
}
fn seven() -> u32 { return 7; }
fn is_seven(x: &u32) -> bool { return *x == 7 }
#[derive(Deserialize)]
#[serde(default)]
struct B { x: Vec<u16>, y: u16 }
impl Default for B { fn default() -> Self { return Self { x: alloc::vec::Vec::new(), y: 80 }; } }
#[derive(Deserialize)]
#[serde(default = "make")]
struct C { x: u16, y: u16 }
fn make() -> C { C { x: 80, y: 7 } }

// 1: not copied: `pub(crate) use crate::x::*`
// 2: not copied: `pub use crate::y::{B, z::*}`, but for what it brings into this file
// 2: passed over: `use crate::y::z::*`
// 3: passed over: `use crate::w::*`
pub(crate) use crate::x::*;
pub use crate::y::{B, z::*};
use crate::w::*;
#[derive(Serialize)]
struct A(u8);

// 2: left out: `derive(Default)` on `A`, as a `Box<str>` takes memory: write a `new(alloc)`
#[derive(Serialize, Default)]
struct A { x: Box<str>, y: Vec<Box<str>> }

// 2: written as `Absent`: `derive(Default)` on `Tags`, whose value takes an allocator
// + type Field1OfA = ReadFieldOr<FieldsOfA, 0, Tags, Field2OfA>; type Field2OfA = ReadFieldOr<FieldsOfA, 1, Tags, OthersSkipped<FieldsOfA>>;
// - Tags::default(
#[derive(Default, Deserialize)]
struct Tags { v: Vec<String> }
#[derive(Deserialize)]
struct A { #[serde(default = "Tags::default")] x: Tags, #[serde(default = "Default::default")] y: Tags }

// 2: called: `crate::other::sent()`, of whose value contracts know nothing
// 2: of another file: `crate::other::Read`, which needs Deserialize, Clone
// 2: of another file: `crate::other::Sent`, which needs Serialize, Clone
#[derive(Clone, Serialize, Deserialize)]
struct A { #[serde(skip_deserializing, default = "crate::other::sent")] x: crate::other::Sent, #[serde(skip_serializing)] y: crate::other::Read }

// + use serde_content::Number;
// + struct A { x: u8, y: Option<Value<'static>>, z: Vec<Number>, }
#[derive(Serialize, Deserialize)]
struct A { x: u8, #[serde(skip)] y: Option<Value<'static>>, #[serde(skip)] z: Vec<Number> }
use serde_content::{Number, Value};

// 2: passed over: `bound(serialize = "T: Serialize", deserialize = "T: Deserialize<'de> + Clone")`, as each impl has the bounds that it needs
// 2: passed over: `crate = "serde"`, as what is written uses `serde_content`
// 3: passed over: `expecting = "a page"`, as refusals have a text of their own
// 4: passed over: `bound = ""`, as each impl has the bounds that it needs
// 6: passed over: `borrow = "'a"`, as what is read is owned
// 6: passed over: `borrow`, as what is read is owned
// 8: passed over: `borrow`, as what is read is owned
// 8: passed over: `bound = ""`, as each impl has the bounds that it needs
// + impl<'de, T: Deserialize<'de>> Deserialize<'de> for A<T>
// + pub struct B<'a> { x: &'a str, y: Vec<&'a str>, }
#[derive(Serialize, Deserialize)]
#[serde(bound(serialize = "T: Serialize", deserialize = "T: Deserialize<'de> + Clone"), crate = "serde", rename = "Page")]
#[serde(expecting = "a page")]
pub struct A<T> { #[serde(bound = "", rename = "X")] x: T }
#[derive(Serialize)]
pub struct B<'a> { #[serde(borrow)] x: &'a str, #[serde(borrow = "'a")] y: Vec<&'a str> }
#[derive(Serialize, Deserialize)]
pub enum C { #[serde(bound = "")] X(u8), #[serde(borrow)] Y(String) }
