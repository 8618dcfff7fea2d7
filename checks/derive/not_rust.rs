//! Texts that are no Rust, each below the line that tools/derive answers.

// 1: `(` is not closed
pub(struct A;

// 2: `{` is not closed
#[derive(Serialize)]
struct A { x: u8

// 2: expected `}` for the `{` of line 2, found `]`
#[derive(Serialize)]
struct A { x: u8 ]

// 2: `)` closes nothing that is open
#[derive(Serialize)]
struct A )

// 2: expected `>`, found `}`
#[derive(Serialize)]
struct A { x: Vec<u8 }

// 1: U+FEFF begins no token of Rust
#[derive(Serialize)]﻿
struct A;

// 3: expected a name, found `"two lines"`
#[derive(Serialize)]
struct A { x: u8,
"two
 lines" }

// 2: `}` closes nothing that is open
struct A;
}

// 2: expected `:`, found `u8`
#[derive(Serialize)]
struct A { x u8 }

// 2: the text that begins here is not closed
#[derive(Serialize)]
struct A { x: "text }

// 1: the comment that begins here is not closed
/* /* */ struct A;

// 2: ``` begins no token of Rust
#[derive(Serialize)]
struct A(`u8`);

// 1: expected an item, found `let`
let x = 1;

// 2: attributes and `///` stand before an item
#[derive(Serialize)]

// 3: expected `;`, found `the end of the file`
#[derive(Serialize)]
struct A

// 2: expected a name, found `match`
#[derive(Serialize)]
struct match;

// 4: A: another type has this name too (line 2)
#[derive(Serialize)]
struct A;
#[derive(Serialize)]
struct A;

// 2: A.x: two are called `x`
#[derive(Serialize)]
struct A { x: u8, x: u8 }

// 2: expected a text in quotes, found `5`
#[derive(Serialize)]
#[serde(rename = 5)]
struct A;

// 2: "\u{110000}" holds an escape for no character
#[derive(Serialize)]
#[serde(rename = "\u{110000}")]
struct A;

// 1: `{` is not closed
use a::{b;

// 2: expected a name, found `5`
#[derive(Serialize)]
struct A(pub(in 5) u8);

// 2: `pub` is not for a field of a variant: delete it
#[derive(Serialize)]
enum A { X { pub x: u8 } }

// 2: `pub(crate)` is not for a field of a variant: delete it
#[derive(Serialize)]
enum A { X(u8, pub(crate) u8) }

// 2: expected a name, found `Self`
#[derive(Serialize)]
struct A(crate::Self::B);

// 2: expected a name, found `super`
#[derive(Serialize)]
struct A(super::super::B, self::super::B, crate::super::B);

// 1: expected a name, found `match`
use match::x;

// 1: expected a name, found `crate`
use a::{b::crate};

// 1: expected a name, found `self`
use a::b as self;

// 3: A: something else in this file has this name too
use crate::other::A;
#[derive(Serialize)]
struct A(u8);

// 1: not copied: `type A = u8`, whose type is written in its place
// 2: not copied: `struct B`, which derives neither Serialize nor Deserialize: write it in another module, if code needs it
// 4: A: something else in this file has this name too
// 6: B: something else in this file has this name too
type A = u8;
struct B;
#[derive(Serialize)]
struct A(u8);
#[derive(Serialize)]
struct B(u8);

// 2: expected a name, found `do`
#[derive(Serialize)]
struct A { do: u8 }

// 2: expected a name, found `try`
#[derive(Serialize)]
enum A { try }

// 2: expected a value, found `}`
#[derive(Serialize)]
enum A { X = }

// 2: expected a value, found `,`
#[derive(Serialize)]
enum A { X = , Y }

// 2: `#[default]` stands twice
#[derive(Serialize, Default)]
enum A { #[default] #[default] X }

// 2: expected a name, found `the end of the file`
pub struct

// 3: expected a name, found `fn`
#[derive(Serialize)]
struct A;
enum fn {}

// 3: expected a name, found `5`
#[derive(Serialize)]
struct A;
fn 5() {}

// 3: expected a name, found `_`
#[derive(Serialize)]
struct A;
static _: u8 = 1;

// 3: expected an item, found `struct`
#[derive(Serialize)]
struct A;
unsafe struct B;

// 4: expected `{` or `;`, found `the end of the file`
#[derive(Serialize)]
struct A;
trait B

// 3: expected `{` or `;`, found `struct`
struct A(u8)
#[derive(Serialize)]
struct B { x: u8 }

// 3: expected `;`, found `struct`
const N: u8 = 1
#[derive(Serialize)]
struct A { x: u8 }

// 3: expected `;`, found `pub`
type A = u8
#[derive(Serialize)]
pub struct B { x: u8 }

// 1: `self` is brought by a `use` in braces after a path alone
use self as a;

// 2: expected a type, found `super`
#[derive(Serialize)]
struct A(super);

// 2: `[` is not closed
#[derive(Serialize)]
struct A[u8; 3

// 3: expected `{` or `;`, found `the end of the file`
struct B;
struct A<T

// 2: "a\Hb" holds an escape for no character
#[derive(Serialize)]
#[serde(rename = "a\Hb")]
struct A;

// 2: "\xff" holds an escape for no character
#[derive(Serialize)]
#[serde(rename = "\xff")]
struct A;

// 3: expected `{` or `;`, found `struct`
impl
#[derive(Serialize)]
struct A(u8);
#[derive(Serialize)]
struct B { x: u8 }

// 2: A: it has a value of its own type in itself: put that into a Box
// 4: B: it has a value of its own type in itself: put that into a Box
// 6: C: it has a value of its own type in itself: put that into a Box
#[derive(Serialize)]
enum A { X(A), Y }
#[derive(Serialize)]
struct B { x: Option<C> }
#[derive(Serialize)]
struct C { x: (u8, B), y: Vec<C> }

// 2: A: the lifetime `'b` is in no field
// 4: B: the lifetime `'a` is in no field
#[derive(Serialize)]
struct A<'a, 'b: 'a> { x: Vec<Option<(u8, &'a str)>> }
#[derive(Serialize)]
enum B<'a> { X(&'static str) }
#[derive(Serialize)]
enum C<'a, 'b, T> { X(&'a T), Y(A<'a, 'b>) }

// 2: serde's `serialize_with` names no function: write its path
#[derive(Serialize)]
struct A { #[serde(serialize_with = "")] x: u8 }

// 2: A.X: serde's `other` is for the last variant: move this one to the end
#[derive(Deserialize)]
enum A { #[serde(other)] X, Y }

// 2: expected `;`, found `3`
#[derive(Serialize)]
struct A([u8 3]);

// 2: expected `]` for the `[` of line 2, found `)`
#[derive(Serialize)]
struct A([u8; 3);

// 2: serde's `from` names no type: write one
#[derive(Deserialize)]
#[serde(from = "")]
struct A(u8);

// 3: A: serde's `from`: expected a type, found `Vec<`
#[derive(Deserialize)]
#[serde(from = "Vec<")]
struct A(u8);

// 3: A: serde's `into`: expected a type, found `u8 u8`
#[derive(Serialize)]
#[serde(into = "u8 u8")]
struct A(u8);

// 2: expected the length of an array, found `]`
#[derive(Serialize)]
struct A([u8; ]);
