//! Declarations that tools/derive refuses, each below the lines that it answers.

// 3: A.x: floats are not covered: hold a whole number of a smaller unit, or a String
#[derive(Serialize)]
struct A {
    x: Vec<f64>,
}

// 2: A.1: `[T]` is covered behind a reference alone: write a Vec
// 4: B: a parameter that is a value is not covered: write a type for each that you use
// 6: C: a default of a parameter is not covered: delete that of `T`, and write it where you use the type
// 8: D: the name `S` of a parameter is not covered: give it one that begins with a capital, and that nothing else has
// 8: D: the name `A` of a parameter is not covered: give it one that begins with a capital, and that nothing else has
// 8: D: the name `t` of a parameter is not covered: give it one that begins with a capital, and that nothing else has
// 11: E.x: its default is not covered: hold a number, bool, char, String, PathBuf, Duration, Option, Vec, map, set, an array or a tuple of these, or a type of your own that derives Default
// 12: E.y: what is flattened is not covered where a parameter is its type, as it may be no struct or map: name the type itself
// 13: E.z: a map with keys of type `T` is not covered, as their order is not known: hold a Vec of pairs
// 18: F.0: `G` has 0 arguments here, and its parameters are: T
// 18: F.1: `G` has 2 arguments here, and its parameters are: T
// 18: F.2: `H` has 1 arguments here, and its parameters are: none
// 18: F.3: a map with keys of type `G<u8>` is not covered, as their order is not known: hold a Vec of pairs
// 18: F.4: `crate::other::Page<u8>` is not covered: a type with arguments is where this file declares it, or std's is: write in another file a struct around it, with its impls by hand, and hold that
// 22: I: `I` contains itself, which is not covered in a type with parameters or lifetimes: write its impls by hand
// 24: J.x: the size of `Option<T>` depends on `T`, which is not covered: hold `Box<T>` there for `T`
// 24: J.y: the size of `(u8, T)` depends on `T`, which is not covered: hold `Box<T>` there for `T`
// 26: K.0: the size of `G<T>` depends on `T`, which is not covered: hold `Box<T>` there for `T`
// 28: L.8: a field of a parameter's type is covered among the first 7 of up to 8: hold `Box<T>`
// 30: M.X.x: a field of a parameter's type is covered before those that may be missing or have an alias: move it there, or hold `Box<T>`
// 33: N.X.x: of an untagged enum, a value of a parameter's type is covered alone in its variant: hold `Box<T>`
// 33: N.Y.1: of an untagged enum, a value of a parameter's type is covered alone in its variant: hold `Box<T>`
// 35: O: `derive(Copy)` is not covered on a type with parameters, as one that isn't Copy has to be dropped: delete Copy
#[derive(Serialize)]
struct A<'a, T>(&'a [T], Box<[T]>);
#[derive(Serialize)]
struct B<const N: usize>(u8);
#[derive(Serialize)]
enum C<T = u8> { X(T) }
#[derive(Serialize)]
struct D<S, A, t>(S, A, t);
#[derive(Serialize, Deserialize)]
struct E<T> {
    #[serde(default)] x: T,
    #[serde(flatten)] y: T,
    z: BTreeMap<T, u8>,
}
#[derive(Serialize, Deserialize)]
struct G<T>(T);
#[derive(Serialize)]
struct F(G, G<u8, u8>, H<u8>, BTreeMap<G<u8>, u8>, crate::other::Page<u8>);
#[derive(Serialize)]
struct H(u8);
#[derive(Serialize)]
enum I<T> { X(Box<I<T>>), Y(T) }
#[derive(Deserialize)]
struct J<T> { x: Option<T>, y: Vec<(u8, T)> }
#[derive(Deserialize)]
struct K<T>(G<T>);
#[derive(Deserialize)]
struct L<T>(u8, u8, u8, u8, u8, u8, u8, u8, T);
#[derive(Deserialize)]
enum M<T> { X { a: Option<u8>, x: T }, Y(T) }
#[derive(Deserialize)]
#[serde(untagged)]
enum N<T> { X { x: T }, Y(u8, T), Z(T) }
#[derive(Clone, Copy, Serialize)]
struct O<T>(T);

// 2: A: a union is not covered: write an enum
#[derive(Serialize)]
union A {
    x: u8,
}

// 4: A.x: serde's `skip_serializing_if` so is not covered: Option::is_none is, Duration::is_zero, `is_empty` of String, Vec, VecDeque, slices, maps and sets, each on a field of its type, a function of this file that compares with one value, as `*n == 0`, and one of another module that is named from `crate` on
#[derive(Serialize)]
struct A {
    #[serde(skip_serializing_if = "is_zero")]
    x: u8,
}

// 4: A.x: serde's `skip_serializing_if` so is not covered: Option::is_none is, Duration::is_zero, `is_empty` of String, Vec, VecDeque, slices, maps and sets, each on a field of its type, a function of this file that compares with one value, as `*n == 0`, and one of another module that is named from `crate` on
#[derive(Serialize)]
struct A {
    #[serde(skip_serializing_if = "Vec::is_empty")]
    x: Option<Vec<u8>>,
}

// 2: A.0: serde's `skip_serializing_if` is covered in fields with names: give them names
#[derive(Serialize)]
struct A(#[serde(skip_serializing_if = "Option::is_none")] Option<u8>);

// 3: A: such attributes don't go together: write `tag`, `tag` and `content`, or `untagged`
#[derive(Serialize)]
#[serde(content = "sort")]
enum A {
    X,
}

// 4: A.X: of an enum that is tagged internally, only variants with no values and with a struct, or values by name, are covered: hold a struct of them
#[derive(Serialize)]
#[serde(tag = "sort")]
enum A {
    X(u8, u8),
}

// 4: A.X: what stands beside a tag is covered where it is a struct of this file with named fields and without `deny_unknown_fields` and `flatten`: hold such a struct
#[derive(Serialize)]
#[serde(tag = "sort")]
enum A {
    X(u8),
}

// 5: A.x: what is flattened is covered where it is a struct or an enum of this file, without parameters, a BTreeMap, a HashMap, or one of these in an Option or a Box: hold one, or delete `flatten`
// 6: A.y: what is flattened is covered where it is a struct or an enum of this file, without parameters, a BTreeMap, a HashMap, or one of these in an Option or a Box: hold one, or delete `flatten`
// 7: A.z: what is flattened is covered where it is a struct or an enum of this file, without parameters, a BTreeMap, a HashMap, or one of these in an Option or a Box: hold one, or delete `flatten`
// 8: A.u: what is flattened is covered so where it has up to 8 fields: hold some in a struct that is not flattened
// 9: A.v: what is flattened is not covered where a function of yours leaves it out: hold an Option
// 10: A.w: such attributes don't go together: `flatten` and `rename`: delete one of them
// 11: A.e: what is flattened is covered so where it has up to 7 fields: hold some in a struct that is not flattened
#[derive(Serialize)]
struct B<T> { x: Vec<T> }
#[derive(Serialize)]
struct A {
    #[serde(flatten)] x: Vec<u8>,
    #[serde(flatten)] y: Option<B<u8>>,
    #[serde(flatten)] z: C,
    #[serde(flatten)] u: Option<D>,
    #[serde(flatten, skip_serializing_if = "crate::rules::none")] v: BTreeMap<String, u8>,
    #[serde(flatten, rename = "o")] w: BTreeMap<String, u8>,
    #[serde(flatten)] e: E,
}
#[derive(Serialize)]
#[serde(tag = "t")]
enum E { B, D(D) }
#[derive(Serialize)]
struct C;
#[derive(Serialize)]
struct D { f0: u8, f1: u8, f2: u8, f3: u8, f4: u8, f5: u8, f6: u8, f7: u8, f8: u8 }

// 3: A.x: what is flattened is not covered where it is an enum with a variant as `B::Two`: hold a struct there, or give the enum a `tag`
// 4: A.y: what is flattened is not covered where it is an enum with a variant as `C::Text`: hold a struct there, or give the enum a `tag`
// 5: A.z: what is flattened is not covered where it is an enum with a variant that isn't sent, as `D::Off`: delete that
#[derive(Serialize)]
struct A {
    #[serde(flatten)] x: B,
    #[serde(flatten)] y: Box<C>,
    #[serde(flatten)] z: D,
}
#[derive(Serialize)]
enum B { One(u8), Two(u8, u8) }
#[derive(Serialize)]
#[serde(untagged)]
enum C { Map(BTreeMap<String, u8>), Text(String) }
#[derive(Serialize)]
#[serde(tag = "t")]
enum D { On, #[serde(skip)] Off }

// 3: A: serde's `flatten` is covered in structs with named fields and without `deny_unknown_fields`: delete one of them
#[derive(Serialize)]
#[serde(deny_unknown_fields)]
struct A {
    #[serde(flatten)]
    x: B,
}
#[derive(Serialize)]
struct B {
    y: u8,
}

// 2: A: two fields are called `y`: give one another name by `rename`
#[derive(Serialize)]
struct A {
    y: u8,
    #[serde(flatten)]
    x: B,
}
#[derive(Serialize)]
struct B {
    y: u8,
}

// 3: A: serde's `rename` by direction is covered on fields and variants: give one name
#[derive(Serialize)]
#[serde(rename(serialize = "B"))]
struct A(u8);

// 2: A: serde's `rename_all` knows no case `Title Case`: it has lowercase, UPPERCASE, PascalCase, camelCase, snake_case, SCREAMING_SNAKE_CASE, kebab-case, SCREAMING-KEBAB-CASE
#[derive(Serialize)]
#[serde(rename_all = "Title Case")]
struct A(u8);

// 2: Call: the name `Call` is one that the module uses itself: give the type another name, and this one by `#[serde(rename = "Call")]`
#[derive(Serialize)]
struct Call(u8);

// 5: A.y: two are called `x`: give one another name by `rename`
#[derive(Serialize)]
struct A {
    x: u8,
    #[serde(rename = "x")]
    y: u8,
}

// 2: A.0: the type `B` is not covered: declare it in this file, or name it by its full path
#[derive(Serialize)]
struct A(B);

// 4: B.0: `A` does not derive Eq, PartialEq, as what holds it does: derive that too
#[derive(Serialize, Deserialize)]
struct A(u8);
#[derive(Serialize, Deserialize, PartialEq, Eq)]
struct B(A);

// 2: A.0: a map with keys of type `Vec<u8>` is not covered: hold a Vec of pairs, or put the key into a struct that derives Ord
#[derive(Serialize)]
struct A(BTreeMap<Vec<u8>, u8>);

// 2: A.0: a LinkedList is not covered: hold a VecDeque
#[derive(Serialize)]
struct A(LinkedList<u8>);

// 2: A: what has no fields is covered without brackets alone: delete them, and it is sent as a unit
#[derive(Serialize)]
struct A {}

// 4: A.x: its default is not covered: hold a number, bool, char, String, PathBuf, Duration, Option, Vec, map, set, an array or a tuple of these, or a type of your own that derives Default
#[derive(Deserialize)]
struct A {
    #[serde(default)]
    x: Box<u8>,
}

// 3: A: the name `\xe9` is not covered: printable ASCII but " and \ is: write such a name, or the impls by hand
#[derive(Serialize)]
#[serde(rename = "é")]
struct A(u8);

// 3: written as `type_`: the name `r#type`
// 4: A.type_: two are written as `type_`: give one another name
#[derive(Serialize)]
struct A {
    r#type: u8,
    type_: u8,
}

// 1: not copied: `struct A`, which derives neither Serialize nor Deserialize: write it in another module, if code needs it
// 1: no struct or enum here derives Serialize or Deserialize: derive one of them
struct A(u8);

// 3: A.x: floats are not covered: hold a whole number of a smaller unit, or a String
// 4: A.y: serde's `getter` on a field is not covered: only your own types are sent: declare one like it, and convert it by hand
// 6: A.z: `#[cfg(unix)]` is not covered, as the module is written once for all: delete it, or move what it is about to a file of its own
// 7: A.z: a map with keys of type `&'static str` is not covered: hold a Vec of pairs, or put the key into a struct that derives Ord
// 9: A.größe: the name `größe` is not covered, as Rattle takes names in ASCII alone: give it another
// 13: B.X.0: floats are not covered: hold a whole number of a smaller unit, or a String
// 13: B.X.2: an array of more than 32 values is not covered, as in Serde: hold a Vec
// 14: B.Y.a: the lifetime `'a` is not declared here: hold the value itself, as String for &str
// 14: B.Y.b: a type that begins with `dyn` is not covered: write an enum of the types that it may be
// 15: B.Z.0: the type `Instant` is not covered: declare it in this file, or name it by its full path
#[derive(Serialize)]
struct A {
    x: f32,
    #[serde(getter = "x")]
    y: u8,
    #[cfg(unix)]
    z: BTreeMap<&'static str, u8>,
    ok: u8,
    größe: u8,
}
#[derive(Serialize)]
enum B {
    X(f64, u8, [u8; 33]),
    Y { a: Foo<'a, T>, b: Box<dyn Fn(u8) -> u8> },
    Z(Instant),
    W,
}
#[derive(Serialize)]
struct C(A, B);

// 4: A.x: the type `std::time::Instant` is not covered: hold what it is made of, as a number or a String
// 4: A.y: the type `std::path::Path` is not covered: hold what it is made of, as a number or a String
// 4: A.z: the type `serde::Value` is not covered: hold what it is made of, as a number or a String
// 4: A.w: a LinkedList is not covered: hold a VecDeque
use std::time::Instant;
use serde::Value;
#[derive(Serialize)]
struct A { x: Instant, y: std::path::Path, z: Option<Value>, w: std::collections::LinkedList<u8> }

// 3: A.x: `serde_content::Value` is not covered: write in another file a struct around it, with its impls by hand, and hold that
// 3: A.y: `serde_content::Value` is not covered: write in another file a struct around it, with its impls by hand, and hold that
// 3: A.z: `serde_content::Number` is not covered: write in another file a struct around it, with its impls by hand, and hold that
// 5: B.X.1: `serde_content::Value` is not covered: write in another file a struct around it, with its impls by hand, and hold that
// 5: B.Y.0: `content_tree::Struct` is not covered: write in another file a struct around it, with its impls by hand, and hold that
// 8: C: serde's `from`: `serde_content::Number` is not covered: write in another file a struct around it, with its impls by hand, and hold that
use serde_content::{Number, Value as Tree};
#[derive(Serialize, Deserialize)]
struct A { x: Tree, y: Vec<serde_content::Value<'static>>, z: Option<Number> }
#[derive(Serialize)]
enum B<'a> { X(u8, &'a Tree<'a>), Y(content_tree::Struct<'a>) }
#[derive(Serialize, Deserialize)]
#[serde(from = "Number")]
struct C(u8);

// 3: A.0: `Vec` is `indexmap::Vec` here, which is not covered: import it by another name
use indexmap::Vec;
#[derive(Serialize)]
struct A(Vec<u8>);

// 3: A.0: the name `Error` is one that the module uses itself: import that type by another name
use crate::errors::Error;
#[derive(Serialize)]
struct A(Error);

// 1: not copied: `struct Plain`, which derives neither Serialize nor Deserialize: write it in another module, if code needs it
// 4: A.x: `Plain` derives neither Serialize nor Deserialize (line 1): derive what is derived here, or move it to a file that has its impls
struct Plain(u8);
#[derive(Serialize)]
struct A {
    x: Option<Plain>,
}

// 1: not copied: `type List<T> = Vec<T>`: write it in another module, if code needs it
// 2: not copied: `type Loop = Option<Loop>`, whose type is written in its place
// 5: A.x: `List` is an alias that is not covered (line 1): write the type that it stands for
// 6: A.y: the alias `Loop` stands for itself: write the type that it should stand for
type List<T> = Vec<T>;
type Loop = Option<Loop>;
#[derive(Serialize)]
struct A {
    x: List<u8>,
    y: Loop,
}

// 1: not copied: `type A1 = (u8, u8, u8, u8)`, whose type is written in its place
// 2: not copied: `type A2 = (A1, A1, A1, A1)`, whose type is written in its place
// 3: not copied: `type A3 = (A2, A2, A2, A2)`, whose type is written in its place
// 4: not copied: `type A4 = (A3, A3, A3, A3)`, whose type is written in its place
// 5: not copied: `type A5 = (A4, A4, A4, A4)`, whose type is written in its place
// 7: A.0: a type of more than 48 levels or 500 parts is not covered: divide it into structs
type A1 = (u8, u8, u8, u8);
type A2 = (A1, A1, A1, A1);
type A3 = (A2, A2, A2, A2);
type A4 = (A3, A3, A3, A3);
type A5 = (A4, A4, A4, A4);
#[derive(Serialize)]
struct A(A5);

// 2: A.X.0: `A` contains itself, which is not covered in `Vec<BTreeMap<String, A>>`: hold it in Box, Vec or Option<Box>
// 2: A.Y.0: `A` contains itself, which is not covered in `Rc<A>`: hold it in Box, Vec or Option<Box>
// 2: A.Z.0: `A` contains itself, which is not covered in `(Box<A>, u8)`: hold it in Box, Vec or Option<Box>
// 5: B: `B` contains itself, which is not covered beside `untagged`: write its impls by hand
// 7: D: `D` contains itself, which is not covered where it derives Default: delete that
// 9: E: `E` contains itself, which is not covered where a variant has `alias`, `other` or `skip`: write its impls by hand
// 11: F.x: `alias`, `default`, `skip` and `skip_serializing_if` are not covered in a type that contains itself: delete it, or write the impls by hand
// 13: G.X: more than 4 values are not covered in a variant of a type that contains itself: hold some in another struct
// 13: G.Y: more than 4 values are not covered in a variant of a type that contains itself: hold some in another struct
// 15: Inner: the name `Inner` is one that the module uses itself where a type contains itself: give the type another name, and this one by `#[serde(rename = "Inner")]`
// 15: Inner: `Inner` contains itself, which is not covered in a struct without named fields: name them
// 17: J: `J` contains itself, which is not covered in a type with parameters or lifetimes: write its impls by hand
// 19: K: `K` contains itself, which is not covered in a struct without named fields: name them
// 22: L: `L` contains itself, which is not covered beside `content`: write its impls by hand
// 24: M: `M` contains itself, which is not covered through `N`: write its impls by hand
// 26: N: `N` contains itself, which is not covered through `M`: write its impls by hand
#[derive(Serialize)]
enum A { X(Vec<BTreeMap<String, A>>), Y(std::rc::Rc<A>), Z((Box<A>, u8)) }
#[derive(Serialize)]
#[serde(untagged)]
enum B { X { x: Box<B> }, Y }
#[derive(Serialize, Default)]
struct D { x: Option<Box<D>> }
#[derive(Serialize, Deserialize)]
enum E { #[serde(alias = "y")] X(Box<E>), Y }
#[derive(Serialize, Deserialize)]
struct F { #[serde(default, skip_serializing_if = "Vec::is_empty")] x: Vec<F>, y: u8 }
#[derive(Serialize)]
enum G { X(Box<G>, u8, u8, u8, u8), Y(u8, u8, u8, u8, u8), Z(i8) }
#[derive(Serialize)]
struct Inner(Vec<Inner>);
#[derive(Serialize)]
enum J<'a> { X(&'a str), Y(Box<J<'a>>) }
#[derive(Serialize)]
struct K(u8, Vec<K>);
#[derive(Serialize)]
#[serde(tag = "t", content = "c")]
enum L { X { x: Vec<L> }, Y }
#[derive(Serialize)]
struct M { x: Vec<N> }
#[derive(Serialize)]
enum N { X(M), Y }

// 1: A: `derive(JsonSchema)` is not covered, as no rule of Rattle writes it: delete it here, and write its impl by hand where you need it
// 1: A: `derive(strum::Display)` is not covered, as no rule of Rattle writes it: delete it here, and write its impl by hand where you need it
// 2: A: the attribute `strum` is not covered, as no derive of Rattle reads it: delete it
// 3: A.x: the attribute `arg` is not covered, as no derive of Rattle reads it: delete it
#[derive(Serialize, JsonSchema, strum::Display)]
#[strum(serialize_all = "x")]
struct A { #[arg(short)] x: u8 }

// 1: A: `derive(rkyv::Deserialize)` is not covered, as no rule of Rattle writes it: delete it here, and write its impl by hand where you need it
#[derive(Serialize, rkyv::Deserialize)]
struct A(u8);

// 2: A.x: `derive(Copy)` is not covered beside `String`, which has memory of its own: delete Copy
// 2: A.y: `derive(Copy)` is not covered beside `Vec<u8>`, which has memory of its own: delete Copy
// 2: A.z: `B` does not derive Copy, as what holds it does: derive it there too
#[derive(Serialize, Clone, Copy)]
struct A { x: Option<String>, y: (u8, Vec<u8>), z: B }
#[derive(Serialize, Clone)]
struct B(u8);

// 2: A: `derive(Copy)` needs Clone: derive that too
// 4: B: `derive(Eq)` needs PartialEq: derive that too
// 6: C: `derive(Hash)` needs Eq: derive that too
// 6: C: `derive(Ord)` needs Eq and PartialOrd: derive that too
#[derive(Serialize, Copy)]
struct A(u8);
#[derive(Serialize, Eq)]
struct B(u8);
#[derive(Serialize, Hash, Ord)]
struct C(u8);

// 2: A: `derive(Default)` on an enum needs `#[default]` before one variant with no values
// 4: B.X: `#[default]` is for enums that derive Default: delete it
// 6: C: `derive(Default)` on an enum needs `#[default]` before one variant with no values
#[derive(Serialize, Default)]
enum A { X, Y }
#[derive(Serialize)]
enum B { #[default] X, Y }
#[derive(Serialize, Default)]
enum C { #[default] X(u8), Y }

// 2: A.ghost: `ghost` is a word of Rattle's: give the field another name, and this one by `#[serde(rename = "ghost")]`
// 2: A.requires: `requires` is a word of Rattle's: give the field another name, and this one by `#[serde(rename = "requires")]`
// 2: A.ensures: `ensures` is a word of Rattle's: give the field another name, and this one by `#[serde(rename = "ensures")]`
// 2: A.deriving: `deriving` is a word of Rattle's: give the field another name, and this one by `#[serde(rename = "deriving")]`
// 2: A.gen: `gen` is a word of Rattle's: give the field another name, and this one by `#[serde(rename = "gen")]`
// 4: B.X.ensures: `ensures` is a word of Rattle's: give the field another name, and this one by `#[serde(rename = "ensures")]`
// 4: B.ghost: `ghost` is a word of Rattle's: give the variant another name, and this one by `#[serde(rename = "ghost")]`
#[derive(Serialize)]
struct A { ghost: u8, requires: u8, ensures: u8, deriving: u8, gen: u8 }
#[derive(Serialize)]
enum B { ghost, X { ensures: u8 } }

// 4: FOO: Rattle does not tell it from `Foo` (line 2), as it writes a file for each: give the type another name, and this one by `#[serde(rename = "FOO")]`
#[derive(Serialize)]
struct Foo(u8);
#[derive(Serialize)]
struct FOO(u8);

// 2: S: the name `S` is one that the module uses itself: give the type another name, and this one by `#[serde(rename = "S")]`
// 4: tuple: the name `tuple` is one that the module uses itself: give the type another name, and this one by `#[serde(rename = "tuple")]`
// 6: Vec: the name `Vec` is one that the module uses itself: give the type another name, and this one by `#[serde(rename = "Vec")]`
#[derive(Serialize)]
enum S { X }
#[derive(Serialize)]
struct tuple(u8);
#[derive(Serialize)]
struct Vec(u8);

// 3: A.0: the name `Bool` is one that contracts use themselves: declare that type by another name
use crate::other::Bool as Other;
#[derive(Serialize)]
struct A(Other);

// 5: not copied: `struct B`, which derives neither Serialize nor Deserialize: write it in another module, if code needs it
// 2: A: `#[cfg(feature = "x")]` is not covered, as the module is written once for all: delete it, or move what it is about to a file of its own
#[derive(Serialize)]
#[cfg(feature = "x")]
struct A(u8);
#[cfg(feature = "x")]
struct B(u8);

// 3: passed over: `bound = "x"`, as each impl has the bounds that it needs
// 2: A: serde's `remote` on a container is not covered: only your own types are sent: declare one like it, and convert it by hand
#[derive(Serialize)]
#[serde(remote = "B")]
#[serde(bound = "x")]
struct A(u8);

// 2: A.1: the name `Größe` is not covered, as Rattle takes names in ASCII alone: give it another
// 2: A.2: a type that begins with `<` is not covered: write the type itself
// 2: A.3: a type that begins with `*` is not covered: hold the value itself
// 2: A.4: a type that begins with `impl` is not covered: write the type itself
// 2: A.5: a type that begins with `!` is not covered: delete what holds it, as no value does
// 2: A.6: a type with `::` in it is not covered: write the type itself
// 2: A.7: a type with `!` in it is not covered: write the type itself
// 2: A.8: values as arguments of a type are not covered: write a type for each that you use
// 2: A.9: values as arguments of a type are not covered: write a type for each that you use
// 2: A.10: the lifetime `'a` is not declared here: hold the value itself, as String for &str
#[derive(Serialize)]
struct A(u8, Größe, <u8 as X>::Y, *const u8, impl X, !, Vec<u8>::Item, m!(x), A<3>, A<{ 3 }>, Vec<'a>);

// 3: A.X: of an enum that is tagged adjacently, only variants with no values, with values by name, and with one to four by place, are covered: hold a struct of them
// 6: B.X: of an untagged enum, only variants with no values, with values by name, and with one to four by place, are covered: hold a struct of them
#[derive(Serialize, Deserialize)]
#[serde(tag = "t", content = "c")]
enum A { X(u8, u8, u8, u8, u8), Y { x: u8 } }
#[derive(Serialize, Deserialize)]
#[serde(untagged)]
enum B { X(u8, u8, u8, u8, u8), Y { x: u8 } }

// 3: A: the name `a"b` is not covered: printable ASCII but " and \ is: write such a name, or the impls by hand
// 6: B: the name `\x00` is not covered: printable ASCII but " and \ is: write such a name, or the impls by hand
#[derive(Serialize)]
#[serde(tag = "a\"b")]
enum A { X }
#[derive(Serialize)]
#[serde(tag = "a", content = "\0")]
enum B { X }

// 7: not copied: `impl std::fmt::Debug for C`: write it in another module, if code needs it
// 4: B.0: `A` does not derive Hash, as what holds it does: derive it there too
// 4: B.0: `A` does not derive Debug, as what holds it does: derive it there too
#[derive(Serialize, Deserialize, PartialEq, Eq)]
struct A(u8);
#[derive(Hash, Deserialize, PartialEq, Eq, Debug)]
struct B(Vec<(A, Option<C>)>);
#[derive(Deserialize, PartialEq, Eq, Hash)]
struct C(u8);
impl std::fmt::Debug for C {}

// 2: alloc: values are called `alloc` too, which Rust does not tell from this struct: give the type another name, and this one by `#[serde(rename = "alloc")]`
// 6: x1: values are called `x1` too, which Rust does not tell from this struct: give the type another name, and this one by `#[serde(rename = "x1")]`
// 8: y: values are called `y` too, which Rust does not tell from this struct: give the type another name, and this one by `#[serde(rename = "y")]`
#[derive(Serialize)]
struct alloc;
#[derive(Serialize)]
struct small(u8);
#[derive(Serialize)]
struct x1(u8);
#[derive(Serialize)]
struct y(u8);
#[derive(Serialize)]
struct A { y: y, z: z }
#[derive(Serialize)]
struct z { x: u8 }

// 3: not copied: `mod inner`: write it in another module, if code needs it
// 2: A.0: `inner` is a module that is not copied (line 3): import the type by its path from `crate`
// 2: A.1: `inner` is a module that is not copied (line 3): import the type by its path from `crate`
#[derive(Serialize)]
struct A(inner::B, Option<inner::deep::C>);
mod inner { #[derive(Serialize)] pub struct B(u8); }

// 2: A: `pub(in crate::other)` names no module around this one: name one, or write `pub(crate)`
// 2: A.0: `pub(in super::super)` names no module around this one: name one, or write `pub(crate)`
// 2: A.1: `pub(in crate::types::inner)` names no module around this one: name one, or write `pub(crate)`
// 4: B.x: `pub(in other)` names no module around this one: name one, or write `pub(crate)`
#[derive(Serialize)]
pub(in crate::other) struct A(pub(in super::super) u8, pub(in crate::types::inner) u8, pub(in crate::types) u8);
#[derive(Serialize)]
struct B { pub(in other) x: u8 }

// 2: std: the name `std` is one that the module uses itself: give the type another name, and this one by `#[serde(rename = "std")]`
// 4: serde_content: the name `serde_content` is one that the module uses itself: give the type another name, and this one by `#[serde(rename = "serde_content")]`
// 6: S: the name `S` is one that the module uses itself: give the type another name, and this one by `#[serde(rename = "S")]`
#[derive(Serialize)]
struct std { x: u8 }
#[derive(Serialize)]
enum serde_content { X }
#[derive(Serialize)]
struct S { x: u8 }
#[derive(Serialize)]
enum A { X(S, u8, u8) }

// 3: A.X.0: the name `S` is one that the module uses itself: import that type by another name
use crate::other::S;
#[derive(Serialize)]
enum A { X(S, u8, u8) }

// 1: not copied: `struct String`, which derives neither Serialize nor Deserialize: write it in another module, if code needs it
// 2: not copied: `type Vec<T> = other::Vec<T>`: write it in another module, if code needs it
// 4: A.x: `String` derives neither Serialize nor Deserialize (line 1): derive what is derived here, or move it to a file that has its impls
// 4: A.y: `Vec` is an alias that is not covered (line 2): write the type that it stands for
struct String(u64);
type Vec<T> = other::Vec<T>;
#[derive(Serialize)]
struct A { x: String, y: Vec<u8>, z: ::std::string::String }

// 4: A: `derive(derive_more::Debug)` is not covered, as no rule of Rattle writes it: delete it here, and write its impl by hand where you need it
// 4: A: `derive(rkyv::Serialize)` is not covered, as no rule of Rattle writes it: delete it here, and write its impl by hand where you need it
use derive_more::Debug;
use rkyv::Serialize;
#[derive(Debug, Serialize, Deserialize)]
struct A(u8);

// 3: A.0: the name `r#type` is not covered: give it a plain one
use crate::r#type::B;
#[derive(Serialize)]
struct A(B);

// 2: ghost: the name `ghost` is one that the module uses itself: give the type another name, and this one by `#[serde(rename = "ghost")]`
// 4: gen: the name `gen` is one that the module uses itself: give the type another name, and this one by `#[serde(rename = "gen")]`
#[derive(Serialize)]
struct ghost { x: u8 }
#[derive(Serialize)]
enum gen { X }

// 2: A.0: `Vec` has 0 arguments here, and needs 1: write what it holds
// 2: A.3: `Option` has 0 arguments here, and needs 1: write what it holds
// 2: A.1: the type `std::list::Vec<u8>` is not covered: the types that are stand in docs/OWN_TYPES.md
// 2: A.2: the type `core::u8` is not covered: hold what it is made of, as a number or a String
#[derive(Serialize)]
struct A(std::vec::Vec, std::list::Vec<u8>, core::u8, Option);

// 2: Ord: the name `Ord` is one that the module uses itself: give the type another name, and this one by `#[serde(rename = "Ord")]`
// 4: PartialEq: the name `PartialEq` is one that the module uses itself: give the type another name, and this one by `#[serde(rename = "PartialEq")]`
#[derive(Serialize)]
struct Ord { x: u8 }
#[derive(Serialize)]
enum PartialEq { X }

// 3: A: serde's `default` on a container is covered where it derives Default: derive that, or write `default` on each field
#[derive(Deserialize)]
#[serde(default)]
struct A { x: u8 }

// 3: A: serde's `default` on a container is covered on structs with named fields: give its fields names, or delete it
#[derive(Default, Deserialize)]
#[serde(default)]
struct A(u8, u8);

// 2: A.b: its default is not covered: `B` derives no Default, or holds what has none here: hold an Option
// 6: C.x: its default is not covered: hold a number, bool, char, String, PathBuf, Duration, Option, Vec, map, set, an array or a tuple of these, or a type of your own that derives Default
#[derive(Deserialize)]
struct A { #[serde(default)] b: B }
#[derive(Deserialize)]
struct B { x: u8 }
#[derive(Deserialize)]
struct C { #[serde(default)] x: (u8, Box<u8>) }

// 3: A: such attributes don't go together: `transparent` and `rename`: delete one of them
#[derive(Serialize)]
#[serde(transparent, rename = "B")]
struct A(u8);

// 3: A: serde's `transparent` is for structs of one field beside skipped ones: delete it, or skip all fields but one
#[derive(Serialize)]
#[serde(transparent)]
struct A(u8, u8);

// 3: A.x: serde's `default` on a field is not covered where its struct is `transparent`: delete it
#[derive(Serialize)]
#[serde(transparent)]
struct A { #[serde(default)] x: u8 }

// 3: A: serde's `transparent` is for structs of one field beside skipped ones: delete it, or skip all fields but one
// 6: B.x: serde's `skip_serializing_if` on a field is not covered where its struct is `transparent`: delete it
// 6: B.y: its default is not covered: hold a number, bool, char, String, PathBuf, Duration, Option, Vec, map, set, an array or a tuple of these, or a type of your own that derives Default
// 9: C: serde's `transparent` is for structs of one field beside skipped ones: delete it
#[derive(Serialize, Deserialize)]
#[serde(transparent)]
struct A { x: u8, #[serde(skip_deserializing)] y: u8 }
#[derive(Deserialize)]
#[serde(transparent)]
struct B { #[serde(skip_serializing_if = "Option::is_none")] x: Option<u8>, #[serde(skip)] y: Box<u8> }
#[derive(Deserialize)]
#[serde(transparent)]
struct C { #[serde(skip)] x: u8 }

// 5: A.b: what is flattened is not covered where a function of yours sends it: hold the value itself
// 10: C.d: what is flattened is not covered where a function of yours reads it: hold the value itself
// 12: E.f: what is flattened is not covered where a function of yours sends a value by place, as in `F::X`: give it a name
#[derive(Serialize)]
#[serde(transparent)]
struct B(#[serde(serialize_with = "crate::rules::f")] BTreeMap<String, u8>);
#[derive(Serialize)]
struct A { #[serde(flatten)] b: B }
#[derive(Deserialize)]
#[serde(transparent)]
struct D { #[serde(deserialize_with = "crate::rules::f")] x: BTreeMap<String, u8>, #[serde(skip)] y: u8 }
#[derive(Deserialize)]
struct C { #[serde(flatten)] d: D }
#[derive(Serialize)]
struct E { #[serde(flatten)] f: F }
#[derive(Serialize)]
enum F { X(#[serde(serialize_with = "crate::rules::f")] u8) }

// 5: A.b: what is flattened is covered where it is a struct or an enum of this file, without parameters, a BTreeMap, a HashMap, or one of these in an Option or a Box: hold one, or delete `flatten`
#[derive(Serialize)]
#[serde(transparent)]
struct B { x: u8 }
#[derive(Serialize)]
struct A { #[serde(flatten)] b: B }

// 2: A.b: its default is not covered: `B` derives no Default, or holds what has none here: hold an Option
#[derive(Deserialize)]
struct A { #[serde(default)] b: B }
#[derive(Default, Deserialize)]
struct B { x: char, y: (u8, Box<u8>) }

// 5: C.A: what stands beside a tag is covered where it is a struct of this file with named fields and without `deny_unknown_fields` and `flatten`: hold such a struct
#[derive(Serialize)]
#[serde(transparent)]
struct A { b: B }
#[derive(Serialize)]
#[serde(tag = "t")] enum C { A(A) }
#[derive(Serialize)]
struct B { x: u8 }

// 3: A: serde's `transparent` is for structs of one field beside skipped ones: delete it
#[derive(Serialize)]
#[serde(transparent)]
enum A { B(u8) }

// 3: A: `derive(Copy)` needs Clone: derive that too
// 5: A.X: what has no fields is covered without brackets alone: delete them, and it is sent as a unit
// 6: A.Y: of an untagged enum, only variants with no values, with values by name, and with one to four by place, are covered: hold a struct of them
// 7: A.Z.0: floats are not covered: hold a whole number of a smaller unit, or a String
// 11: B: the tag and the content are both called `t`: give one of them another name
// 13: B.X: of an enum that is tagged adjacently, only variants with no values, with values by name, and with one to four by place, are covered: hold a struct of them
// 16: C.U.0: a LinkedList is not covered: hold a VecDeque
// 16: C.Z: what stands beside a tag is covered where it is a struct of this file with named fields and without `deny_unknown_fields` and `flatten`: hold such a struct
// 16: C.V: what stands beside a tag is covered where it is a struct of this file with named fields and without `deny_unknown_fields` and `flatten`: hold such a struct
// 16: C.X: a field is called as the tag, `t`: give one of them another name
// 16: C.Y: a field is called as the tag, `t`: give one of them another name
// 16: C.W: of an enum that is tagged internally, only variants with no values and with a struct, or values by name, are covered: hold a struct of them
// 18: D.T.x: its default is not covered: hold a number, bool, char, String, PathBuf, Duration, Option, Vec, map, set, an array or a tuple of these, or a type of your own that derives Default
#[derive(Serialize, Copy)]
#[serde(untagged)]
enum A {
    W(u8),
    X(),
    Y(u8, u8, u8, u8, u8),
    Z(f64),
}
#[derive(Serialize)]
#[serde(tag = "t", content = "t")]
enum B {
    W(u8),
    X(u8, u8, u8, u8, u8),
    Y { x: u8 },
}
#[derive(Serialize)] #[serde(tag = "t")] enum C { X { t: u8 }, Y(E), Z(u8), V(A), U(LinkedList<u8>), W(u8, u8) }
#[derive(Deserialize)]
enum D { T { #[serde(default)] x: Box<u8> } }
#[derive(Serialize)]
struct E { t: u8 }

// 3: A.x: the name `\xfc` is not covered: printable ASCII but " and \ is: write such a name, or the impls by hand
// 4: A.y: serde's `skip_serializing_if` so is not covered: Option::is_none is, Duration::is_zero, `is_empty` of String, Vec, VecDeque, slices, maps and sets, each on a field of its type, a function of this file that compares with one value, as `*n == 0`, and one of another module that is named from `crate` on
// 5: A.z: two are called `y`: give one another name by `rename`
// 6: A.u: two are called `y`: give one another name by `rename`
// 7: A.v: an array of `LENGTH` values is not covered: write how many as a number
// 10: B: two fields are called `p`: give one another name by `rename`
// 10: B: two fields are called `q`: give one another name by `rename`
// 14: D.t: what is flattened is covered where it is a struct or an enum of this file, without parameters, a BTreeMap, a HashMap, or one of these in an Option or a Box: hold one, or delete `flatten`
// 16: E.X: two are called `Y`: give one another name by `rename`
// 16: E.X.1: serde's `default` is covered in fields with names: give them names
// 16: E.Z.a: two are called `b`: give one another name by `rename`
// 16: E.U.0: serde's `skip_serializing_if` is covered in fields with names: give them names
#[derive(Serialize)]
struct A {
    #[serde(rename = "ü")] x: u8,
    #[serde(skip_serializing_if = "is_zero")] y: u8,
    #[serde(rename = "y")] z: u8,
    #[serde(rename = "y")] u: u8,
    #[serde(skip_serializing_if = "is_zero")] v: [u8; LENGTH],
}
#[derive(Serialize)]
struct B { #[serde(flatten)] c: C, p: u8, q: u8 }
#[derive(Serialize)]
struct C { p: u8, q: u8 }
#[derive(Serialize)]
struct D { #[serde(flatten)] c: Option<C>, #[serde(flatten)] a: A, #[serde(flatten)] t: (u8, u8) }
#[derive(Serialize)]
enum E { Y, #[serde(rename = "Y")] X(u8, #[serde(default)] u8), Z { b: u8, #[serde(rename = "b")] a: u8 }, U(#[serde(skip_serializing_if = "f")] u8) }

// 4: passed over: `crate = "serde"`, as what is written uses `serde_content`
// 5: passed over: `expecting = "an A"`, as refusals have a text of their own
// 10: passed over: `borrow`, as what is read is owned
// 6: A: serde's `rename_all` so is not covered: write `rename_all = ".."`
// 7: A: serde's `deny_unknown_fields` so is not covered: write `deny_unknown_fields` alone
// 9: A.x: `f` is no function of another module: move it there, and name it from `crate` on
// 10: A.y: serde's `rename_all` on a field is not covered: it is for a container or a variant
// 11: A.z: serde's `renam` on a field is not covered: delete it, or write the impls by hand
// 12: A.u: a type that begins with `fn` is not covered: write an enum of the functions that it may be
// 13: A.v: a type that begins with `for` is not covered: write an enum of the functions that it may be
// 14: A.w: `K` does not derive PartialOrd and Ord, as the keys of a map do: derive them too
// 18: B: an enum of no variants is not covered, as no value of it is sent or read: delete it
#[derive(Serialize, Deserialize)]
#[rustfmt::skip]
#[serde(rename = "B")]
#[serde(crate = "serde")]
#[serde(expecting = "an A")]
#[serde(rename_all)]
#[serde(deny_unknown_fields = "x")]
struct A {
    #[serde(deserialize_with = "f")] x: u8,
    #[serde(borrow)] #[serde(rename_all = "lowercase")] y: String,
    #[serde(renam = "x")] z: u8,
    u: fn(u8) -> u8,
    v: Option<for<'a> fn(&'a u8)>,
    w: BTreeMap<K, u8>,
}
#[derive(Serialize, Deserialize)]
struct K(u8);
#[derive(Serialize, Deserialize)] enum B {}

// 2: A: serde's `flatten` is covered in structs with named fields and without `deny_unknown_fields`: give the fields of this one names, or delete `flatten`
// 4: C.X.b: serde's `flatten` is covered in structs with named fields and without `deny_unknown_fields`: hold such a struct in the variant
#[derive(Serialize)]
struct A(u8, u8, #[serde(flatten)] B);
#[derive(Serialize)]
enum C { X { #[serde(flatten)] b: u8 } }
#[derive(Serialize)]
struct B { x: u8 }

// 2: A: `#[cfg(x)]` is not covered, as the module is written once for all: delete it, or move what it is about to a file of its own
// 3: A.0: floats are not covered: hold a whole number of a smaller unit, or a String
// 5: A: `#[cfg(not(x))]` is not covered, as the module is written once for all: delete it, or move what it is about to a file of its own
// 6: A.x: a LinkedList is not covered: hold a VecDeque
#[derive(Serialize)]
#[cfg(x)]
struct A(f32);
#[derive(Serialize)]
#[cfg(not(x))]
struct A { x: LinkedList<u8> }
#[derive(Serialize)]
struct B(A);

// 5: not copied: `struct A`, which derives neither Serialize nor Deserialize: write it in another module, if code needs it
// 2: A: `#[cfg(x)]` is not covered, as the module is written once for all: delete it, or move what it is about to a file of its own
#[derive(Serialize)]
#[cfg(x)]
struct A(u8);
#[cfg(not(x))]
struct A(f64);

// 2: not copied: `type A = u8`, whose type is written in its place
// 4: not copied: `type A = u16`, whose type is written in its place
// 12: not copied: `type C = u8`, whose type is written in its place
// 14: D.0: `A` stands for two things here (lines 2 and 4): keep one
// 14: D.1: `B` stands for two things here (lines 6 and 8): keep one
// 14: D.2: `C` stands for two things here (lines 10 and 12): keep one
#[cfg(x)]
type A = u8;
#[cfg(not(x))]
type A = u16;
#[cfg(x)]
use crate::x::B;
#[cfg(not(x))]
use crate::y::B;
#[cfg(x)]
use crate::x::C;
#[cfg(not(x))]
type C = u8;
#[derive(Serialize)]
struct D(A, B, C);

// 5: not copied: `mod inner`: write it in another module, if code needs it
// 7: A.3: a type that begins with `Self::` is not covered: write the type itself
// 7: A.0: `super::super::B` is outside of this crate: name the type from `crate` on
// 7: A.1: `other` is no module that this file has: name the type from `crate` on
// 7: A.2: `other` is no module that this file has: name the type from `crate` on
// 7: A.4: `inner` is a module that is not copied (line 5): import the type by its path from `crate`
// 7: A.5: `D` stands for itself: name the type from `crate` on
use super::types::other::B;
use inner::C;
use E as D;
use D as E;
mod inner;
#[derive(Serialize)]
struct A(super::super::B, self::other::B, B, Self::B, C, D);

// 3: not copied: `fn f`: write it in another module, if code needs it
// 4: not copied: `fn f`: write it in another module, if code needs it
// 2: A.x: its default is not covered: write in this file one function `f` that gives one value, such as `8080`, `"text".to_owned()`, `Vec::new()` or a variant of an enum of this file, or name one of another module from `crate` on
// 2: A.y: two are called `x`: give one another name
#[derive(Serialize, Deserialize)]
struct A { #[serde(default = "f")] x: u8, #[serde(alias = "x")] y: u8 }
#[cfg(unix)] fn f() -> u8 { 1 }
#[cfg(windows)] fn f() -> u8 { 2 }

// 2: B.Y: two are called `X`: give one another name
// 2: B.Z: serde's `other` is for one variant that holds nothing, and is read: delete it
#[derive(Serialize, Deserialize)]
enum B { X, #[serde(alias = "X")] Y, #[serde(other)] Z(u8) }

// 2: B.Z: serde's `other` is for one variant that holds nothing, and is read: delete it
#[derive(Serialize, Deserialize)]
enum B { X, #[serde(other)] Z(u8) }

// 3: A.X: a field is called as the tag, `t`: give one of them another name
// 5: B: two fields are called `x`: give one another name by `rename`
// 9: D.x: serde's `default` so is not covered: write `default` alone
// 9: D.y: serde's `rename` stands twice: delete one of them
#[derive(Serialize, Deserialize)]
#[serde(tag = "t")]
enum A { X { #[serde(alias = "t")] a: u8 }, Y { #[serde(skip)] t: u8, b: u8 }, #[serde(alias = "z")] Z, #[serde(skip)] W(u8, u8), V { #[serde(skip_deserializing)] a: u8 } }
#[derive(Serialize, Deserialize)]
struct B { #[serde(flatten)] c: C, #[serde(rename(deserialize = "x"))] y: u8 }
#[derive(Serialize, Deserialize)]
struct C { x: u8 }
#[derive(Serialize, Deserialize)]
struct D { #[serde(default(x))] x: u8, #[serde(rename = "a", rename(serialize = "b"))] y: u8 }

// 3: B.Z: serde's `other` is for one variant that holds nothing, and is read: delete it
#[derive(Serialize, Deserialize)]
#[serde(tag = "t", content = "c")]
enum B { X, #[serde(other)] Z(u8) }

// 2: A.0: serde's `skip` is not covered on a value that stands alone: delete it, or what holds the value
// 4: B.X.0: serde's `skip` is not covered on a value that stands alone: delete it, or what holds the value
#[derive(Serialize, Deserialize)]
struct A(#[serde(skip)] u8);
#[derive(Serialize, Deserialize)]
enum B { X(#[serde(skip_serializing)] u8), Y }

// 2: A.a: its default is not covered: hold a number, bool, char, String, PathBuf, Duration, Option, Vec, map, set, an array or a tuple of these, or a type of your own that derives Default
// 2: A.b: its default is not covered: `B` derives no Default, or holds what has none here: hold an Option
// 2: A.c: its default is not covered: `B` derives no Default, or holds what has none here: hold an Option
#[derive(Serialize, Deserialize)]
struct A { #[serde(skip)] a: Box<u8>, #[serde(skip)] b: B, #[serde(skip)] c: (u8, B), d: u8 }
#[derive(Serialize, Deserialize)]
struct B;

// 2: A.x: serde's `rename` knows `serialize` and `deserialize`, each once
#[derive(Serialize, Deserialize)]
struct A { #[serde(rename(serialize = "a", serialize = "b"))] x: u8 }

// 2: A.b: what is flattened is not covered where a field of it has an `alias`, which Serde doesn't read there: delete that
#[derive(Serialize, Deserialize)]
struct A { #[serde(flatten)] b: B }
#[derive(Serialize, Deserialize)]
struct B { #[serde(alias = "y")] x: u8 }

// 3: A.X.x: of an enum that is tagged adjacently, a parameter is covered in a variant of one value: hold a struct of them
// 3: A.Y.1: of an enum that is tagged adjacently, a parameter is covered in a variant of one value: hold a struct of them
// 3: A.W.x: of an enum that is tagged adjacently, a parameter is covered in a variant of one value: hold a struct of them
#[derive(Deserialize)]
#[serde(tag = "t", content = "c")]
enum A<T> { X { x: T }, Y(u8, T), Z(T), W { x: Box<T>, y: u8 } }

// 3: A.X.0: serde's `with` in an enum with `tag` or `untagged` is covered in fields with names: give them names
// 4: B.Y: serde's `with` on a variant is not covered: write it on the one field of the variant, and hold a struct there in place of several
// 6: C.x: serde's `serialize_with` is not covered in a type with parameters: hold the field in another struct
// 9: D.x: serde's `with` is not covered in a type with parameters: hold the field in another struct
// 11: E.x: serde's `with` beside `flatten` is not covered, as its function would have to send or read entries among others: delete one of them, or hold a map or a struct that the value is made of
// 13: F.y: serde's `with` so is not covered: write `with = ".."`
// 13: F.z: serde's `deserialize_with` so is not covered: write `deserialize_with = ".."`
// 13: F.x: such attributes don't go together: `with` and `serialize_with`: delete one of them
// 15: G.y: a function of your own is not covered in a type that contains itself: write the impls by hand
#[derive(Serialize, Deserialize)]
#[serde(tag = "t", content = "c")]
enum A { X(#[serde(with = "crate::rules")] u8), Y(u8, u8), #[serde(skip)] Z(#[serde(with = "crate::rules")] u8) }
#[derive(Serialize, Deserialize)] enum B { #[serde(with = "crate::rules")] Y(u8) }
#[derive(Serialize, Deserialize)]
struct C<T> { #[serde(serialize_with = "crate::rules::f")] x: Vec<T>, y: T }
#[derive(Serialize, Deserialize)]
#[serde(transparent)]
struct D<T> { #[serde(with = "crate::rules")] x: T }
#[derive(Serialize, Deserialize)]
struct E { #[serde(flatten, with = "crate::rules")] x: BTreeMap<String, u8> }
#[derive(Serialize, Deserialize)]
struct F { #[serde(with = "crate::rules", serialize_with = "crate::rules::f")] x: u8, #[serde(with)] y: u8, #[serde(deserialize_with("f"))] z: u8 }
#[derive(Serialize, Deserialize)]
struct G { x: Option<Box<G>>, #[serde(serialize_with = "crate::rules::f")] y: u8 }

// 1: passed over: `use crate::rules::*`
// 7: not copied: `fn here`: write it in another module, if code needs it
// 4: A.x: `any` is no function of another module: move it there, and name it from `crate` on
// 4: A.y: `here` is no function of another module: move it there, and name it from `crate` on
// 4: A.z: `String::from` so is not covered: name a function of another module, from `crate` on
// 5: A.u: `taken` so is not covered: name a function of another module, from `crate` on
// 5: A.v: `crate::types::here` is no function of another module: move it there, and name it from `crate` on
// 5: A.w: `As::<Text>::deserialize` so is not covered: name a function of another module, from `crate` on
// 6: A.t: the type `Thing` of `Thing::read` is not in this file: name it by its full path
use crate::rules::*;
use std::mem::take as taken;
#[derive(Deserialize)]
struct A { #[serde(deserialize_with = "any")] x: u8, #[serde(deserialize_with = "here")] y: u8, #[serde(deserialize_with = "String::from")] z: u8,
    #[serde(deserialize_with = "taken")] u: u8, #[serde(deserialize_with = "crate::types::here")] v: u8, #[serde(with = "As::<Text>")] w: u8,
    #[serde(deserialize_with = "Thing::read")] t: u8 }
fn here() {}

// 3: not copied: `mod rules`: write it in another module, if code needs it
// 6: not copied: `fn small`: write it in another module, if code needs it
// 2: A.z: its default is not covered: write in this file a function `any` that gives one value, such as `8080`, `"text".to_owned()`, `Vec::new()` or a variant of an enum of this file, or name one of another module from `crate` on
// 2: A.x: `rules` is a module that is not copied (line 3): move the function to another module, and name it from `crate` on
// 2: A.y: `crate::types::small` is no function of another module: move it there, and name it from `crate` on
#[derive(Serialize, Deserialize)]
struct A { #[serde(default = "rules::one")] x: u8, #[serde(skip_serializing_if = "crate::types::small")] y: u8, #[serde(default = "any")] z: u8 }
mod rules {
    pub fn one() -> u8 { u8::MAX }
}
fn small(x: &u8) -> bool { *x < 5 }

// 2: A.x: what is borrowed is covered where it is only sent: hold the value itself, as String for &str
// 4: B.a: `A` has 0 lifetimes here, and is declared with 1
// 6: C.c: a reference to an array is not covered: write one to a slice, without the length
// 8: D.x: what is borrowed is covered where it is only sent: hold the value itself, as String for &str
// 10: E.x: serde's `skip_serializing_if` so is not covered: Option::is_none is, Duration::is_zero, `is_empty` of String, Vec, VecDeque, slices, maps and sets, each on a field of its type, a function of this file that compares with one value, as `*n == 0`, and one of another module that is named from `crate` on
#[derive(Serialize, Deserialize)]
struct A<'a> { x: &'a str }
#[derive(Serialize)]
struct B { a: A }
#[derive(Serialize)]
struct C<'a> { b: Option<&'a str>, c: &'a [u8; 4] }
#[derive(Deserialize)]
struct D<'a> { x: &'a [u8] }
#[derive(Serialize)]
struct E<'a> { #[serde(skip_serializing_if = "Vec::is_empty")] x: &'a [u8] }

// 2: A.b: what is borrowed is covered where it is only sent: hold the value itself, as String for &str
// 5: B.Y: of an untagged enum no value by place is skipped: give the values names
// 8: C.Y: of an enum that is tagged adjacently no value by place is skipped: give the values names
#[derive(Serialize, Deserialize)]
struct A<'a> { a: u8, #[serde(skip)] b: Option<&'a u8> }
#[derive(Serialize, Deserialize)]
#[serde(untagged)]
enum B { X(u8), Y(String, #[serde(skip)] u8) }
#[derive(Serialize, Deserialize)]
#[serde(tag = "t", content = "c")]
enum C { X(u8), Y(u8, #[serde(skip_deserializing)] u8), #[serde(skip)] Z(u8, #[serde(skip)] u8) }

// 5: B.x: a set of `Vec<u8>` is not covered: hold a Vec, or put the item into a struct that derives Ord
// 6: B.y: `A` does not derive Eq and Hash, as the items of a set do: derive them too
// 7: B.z: a map with keys of type `()` is not covered: hold a Vec of pairs, or put the key into a struct that derives Hash
// 8: B.w: `A` does not derive PartialOrd and Ord, as the items of a set do: derive them too
#[derive(Serialize)]
struct A(u8);
#[derive(Serialize)]
struct B {
    x: BTreeSet<Vec<u8>>,
    y: HashSet<A>,
    z: HashMap<(), u8>,
    w: BTreeSet<A>,
}

// 3: A.x: a set of `T` is not covered, as their equality is not known: hold a Vec
#[derive(Serialize)]
struct A<T> {
    x: HashSet<T>,
}

// 2: A.x: what is flattened is covered where it is a struct of this file with named fields, an enum of it with `untagged` or `tag`, a map, or an Option of one of these: hold one of them, or delete `flatten`
// 4: B.x: what is flattened is covered where it is a struct of this file with named fields, an enum of it with `untagged` or `tag`, a map, or an Option of one of these: hold one of them, or delete `flatten`
// 6: C.x: what is flattened is covered where it is a struct of this file with named fields, an enum of it with `untagged` or `tag`, a map, or an Option of one of these: hold one of them, or delete `flatten`
// 8: D.x: what is flattened is covered where it is a struct of this file with named fields, an enum of it with `untagged` or `tag`, a map, or an Option of one of these: hold one of them, or delete `flatten`
// 12: F.x: what is flattened is covered where it is a struct of this file with named fields, an enum of it with `untagged` or `tag`, a map, or an Option of one of these: hold one of them, or delete `flatten`
// 14: G.x: what is flattened is not covered where its type is of another file: declare `crate::other::Thing` in this one
#[derive(Deserialize)]
struct A { #[serde(flatten)] x: Vec<u8> }
#[derive(Deserialize)]
struct B { #[serde(flatten)] x: () }
#[derive(Deserialize)]
struct C { #[serde(flatten)] x: Option<Option<BTreeMap<String, u8>>> }
#[derive(Deserialize)]
struct D { #[serde(flatten)] x: E }
#[derive(Deserialize)]
struct E(Option<BTreeMap<String, u8>>);
#[derive(Deserialize)]
struct F { #[serde(flatten)] x: Box<Unit> }
#[derive(Deserialize)]
struct G { #[serde(flatten)] x: crate::other::Thing }
#[derive(Deserialize)]
struct Unit;

// 2: A.x: what is flattened is an enum that is tagged externally, which is not covered: give it a `tag`, or `untagged`
// 7: C.x: what is flattened is not covered with `deny_unknown_fields`, which Serde passes over there: delete that
// 12: E.x: what is flattened is not covered with `deny_unknown_fields`, which Serde passes over there: delete that
// 17: G.x: what is flattened is not covered where a field of it has an `alias`, which Serde doesn't read there: delete that
#[derive(Deserialize)]
struct A { #[serde(flatten)] x: Option<B> }
#[derive(Deserialize)]
enum B { X(u8), Y { z: u8 } }
#[derive(Deserialize)]
#[serde(rename_all = "camelCase")]
struct C { #[serde(flatten)] x: D }
#[derive(Deserialize)]
#[serde(deny_unknown_fields)]
struct D { y: u8 }
#[derive(Deserialize)]
struct E { #[serde(flatten)] x: Box<F> }
#[derive(Deserialize)]
#[serde(tag = "t", content = "c", deny_unknown_fields)]
enum F { X(u8) }
#[derive(Deserialize)]
struct G { #[serde(flatten)] x: Option<H> }
#[derive(Deserialize)]
struct H { #[serde(alias = "z")] y: u8 }

// 4: A.y: one field of a struct takes what is left over, here `x`: hold what both take in one struct or enum
// 10: B.x: what is flattened is covered behind other flattened structs, since Serde gives it their entries too: move it there
// 14: C.x: beside what takes the rest a struct is flattened that itself has `flatten`, whose entries Serde leaves in the rest: name its fields
// 22: F.x: what is flattened is not covered where its size depends on `T`: hold `Box<G<T>>`
#[derive(Deserialize)]
struct A {
    #[serde(flatten)] x: Option<D>,
    #[serde(flatten)] y: BTreeMap<String, u8>,
    z: u8,
}
#[derive(Deserialize)]
struct B {
    y: u8,
    #[serde(flatten)] x: BTreeMap<String, u8>,
    #[serde(flatten)] d: D,
}
#[derive(Deserialize)]
struct C { #[serde(flatten)] e: E, #[serde(flatten)] x: BTreeMap<String, u8> }
#[derive(Deserialize)]
struct D { d: u8 }
#[derive(Deserialize)]
struct E { e: u8, #[serde(flatten)] d: D }
#[derive(Deserialize)]
struct F<T> {
    a: u8,
    #[serde(flatten)] x: G<T>,
}
#[derive(Deserialize)]
#[serde(untagged)]
enum G<T> { X(T), Y { y: u8 } }

// 2: A: `A` contains itself, which is not covered in an enum of more than 10 variants: hold some in another enum
#[derive(Serialize)]
enum A { A(Vec<A>), B, C, D, E, F, G, H, I, J, K }

// 3: A: `A` contains itself, which is not covered in an enum with a tag of more than 4 variants: hold some in another enum
// 6: B.X: more than 2 values are not covered in a variant next to its tag of a type that contains itself: hold some in another struct
// 6: B.Z.x: `B` contains itself, which is not covered in an Option next to a tag: hold it in a Vec
#[derive(Serialize)]
#[serde(tag = "t")]
enum A { A { x: Box<A> }, B, C, D, E }
#[derive(Serialize)]
#[serde(tag = "t")]
enum B { X { x: Box<B>, y: u8, z: bool }, Y { x: u8, y: u8, z: u8 }, Z { x: Option<Box<B>> } }

// 3: A.Y: `A` contains itself, which is not covered in a struct beside its tag: write its fields in the variant
#[derive(Serialize)]
#[serde(tag = "t")]
enum A { X { x: Vec<A> }, Y(B) }
#[derive(Serialize)]
struct B { x: u8 }

// 2: B.x: a LinkedList is not covered: hold a VecDeque
// 2: B: `B` contains itself, which is not covered through `C`: write its impls by hand
#[derive(Serialize)]
struct B { x: LinkedList<C> }
#[derive(Serialize)]
struct C { x: B, y: Vec<C> }

// 4: A.a: a RangeInclusive is not covered: hold a struct of its ends
// 5: A.b: a Cow is not covered: hold a String or a Vec
// 6: A.c: a Result is not covered: hold an enum of both
// 7: A.d: a tuple of more than 4 values is not covered: hold a struct of them
// 8: A.e: `str` is covered in `Box<str>` and `&'a str` alone: hold a String
// 9: A.f: a PhantomData is covered where it is neither sent nor read: write `#[serde(skip)]` above it
// 10: A.g: a RefCell is not covered: hold the value in it
use std::ops::RangeInclusive as R;
#[derive(Serialize)]
struct A {
    a: R<u8>,
    b: std::borrow::Cow<'static, str>,
    c: std::result::Result<u8, f32>,
    d: Vec<(u8, u8, u8, u8, u8)>,
    e: std::sync::Arc<str>,
    f: std::marker::PhantomData<u8>,
    g: std::cell::RefCell<u8>,
}

// 2: passed over: `bound(serialize = "", deserialize = "")`, as each impl has the bounds that it needs
// 2: passed over: `crate = "serde"`, as what is written uses `serde_content`
// 4: passed over: `borrow`, as what is read is owned
// 2: A: serde's `rename_all` knows no case `Camel`: it has lowercase, UPPERCASE, PascalCase, camelCase, snake_case, SCREAMING_SNAKE_CASE, kebab-case, SCREAMING-KEBAB-CASE
// 3: A: a default of a parameter is not covered: delete that of `T`, and write it where you use the type
// 4: A.a: serde's `getter` on a field is not covered: only your own types are sent: declare one like it, and convert it by hand
// 5: A.b: a type that begins with `dyn` is not covered: write an enum of the types that it may be
#[derive(Serialize)]
#[serde(bound(serialize = "", deserialize = ""), crate = "serde", rename_all = "Camel")]
struct A<T = Vec<u8>> {
    #[serde(getter = "x", default, borrow)] a: T,
    b: dyn X,
}

// 2: A.a: `derive(Hash)` is not covered beside `HashMap<String, u8>`, which has none: hold a BTreeMap or BTreeSet, or delete the derive
// 4: B.b: `derive(PartialOrd)` is not covered beside `HashSet<u8>`, which has none: hold a BTreeMap or BTreeSet, or delete the derive
#[derive(PartialEq, Eq, Hash, Serialize)]
struct A { a: HashMap<String, u8> }
#[derive(PartialEq, PartialOrd, Serialize)]
struct B { b: Vec<HashSet<u8>> }

// 5: A.a: a type that begins with `T::` is not covered: write the type itself
// 6: A.b: a type that begins with `U::` is not covered: write the type itself
// 7: A.c: a type that begins with `u8::` is not covered: write the type itself
// 9: A.e: what is borrowed to be changed is not covered: write `&` without `mut`
// 10: A.f: values as arguments of a type are not covered: write a type for each that you use
// 11: A.g: a type with `(` in it is not covered: write the type itself
#[derive(Serialize)]
struct U { x: u8 }
#[derive(Serialize)]
struct A<T> {
    a: Vec<T::Item>,
    b: U::X,
    c: u8::X,
    d: Vec<T>,
    e: &'static mut u8,
    f: Data<-1>,
    g: Box<FnOnce(u8) -> u8>,
}

// 3: A.a: `crate::type::deserialize` so is not covered: name a function of another module, from `crate` on
// 4: A.b: `crate::_` so is not covered: name a function of another module, from `crate` on
// 5: A.c: its default is not covered: write in this file a function `crate::hex::fn` that gives one value, such as `8080`, `"text".to_owned()`, `Vec::new()` or a variant of an enum of this file, or name one of another module from `crate` on
// 6: A.d: `crate::types::hex::deserialize` is no function of another module: move it there, and name it from `crate` on
// 7: A.e: `self::hex` is no function of another module: move it there, and name it from `crate` on
#[derive(Serialize, Deserialize)]
struct A {
    #[serde(with = "crate::type")] a: u8,
    #[serde(serialize_with = "crate::_")] b: u8,
    #[serde(default = "crate::hex::fn")] c: u8,
    #[serde(with = "crate::types::hex")] d: u8,
    #[serde(deserialize_with = "self::hex")] e: u8,
}

// 14: not copied: `struct Plain`, which derives neither Serialize nor Deserialize: write it in another module, if code needs it
// 17: not copied: `type Alias = Plain`, whose type is written in its place
// 3: A.a: `Plain` derives neither Serialize nor Deserialize (line 14), so that the module doesn't have it: move it to another file, and name it by its path, as `crate::other::Plain`, or import it by `use`
// 4: A.b: `Plain` derives neither Serialize nor Deserialize (line 14): derive what is derived here, or move it to a file that has its impls
// 5: A.c: the type `Unknown` is not known here: name it by its path, as `crate::other::Unknown`, or import it by `use`
// 6: A.d: the type `std::backtrace::Backtrace` is not covered, as Rattle's std has none: hold a type of your own of another file
// 7: A.e: a Cow is not covered: hold a String or a Vec
// 8: A.f: its default is not covered, as nothing makes a `std::time::Instant` here: hold an Option, or write `default = ".."` with the path of a function of another module that does
// 9: A.g: its default is not covered, as nothing makes a `std::cell::RefCell<String>` here: hold an Option, or write `default = ".."` with the path of a function of another module that does
// 10: A.h: an array of more than 32 values is not covered, as in Serde: hold a Vec
// 11: A.i: what is borrowed is covered where it is only sent: hold the value itself, as String for &str
// 12: A.j: an array of `LENGTH` values is not covered: write how many as a number
// 16: B.b: `Plain` derives neither Serialize nor Deserialize (line 14), so that the module doesn't have it: move it to another file, and name it by its path, as `crate::other::Plain`, or import it by `use`
// 16: B.c: `Plain` derives neither Serialize nor Deserialize (line 14): derive what is derived here, or move it to a file that has its impls
// 16: B.a: the type `std::time::Instant` is not covered: hold what it is made of, as a number or a String
#[derive(Serialize, Deserialize)]
struct A<'a> {
    #[serde(skip)] a: Option<Plain>,
    b: Plain,
    #[serde(skip)] c: Unknown,
    #[serde(skip)] d: std::backtrace::Backtrace,
    #[serde(skip)] e: std::borrow::Cow<'static, str>,
    #[serde(skip)] f: std::time::Instant,
    #[serde(skip)] g: std::cell::RefCell<String>,
    #[serde(skip_serializing)] h: [u8; 40],
    #[serde(skip)] i: Option<&'a str>,
    #[serde(skip)] j: [u8; LENGTH],
}
struct Plain;
#[derive(Serialize)]
struct B { #[serde(skip_deserializing)] a: std::time::Instant, #[serde(serialize_with = "crate::rules::f")] b: self::Plain, c: Alias }
type Alias = Plain;

// 2: A.b: what is flattened is not covered where a parameter is its type, as it may be no struct or map: name the type itself
// 4: B.b: what is flattened is not covered where a parameter is its type, as it may be no struct or map: name the type itself
// 6: C.b: what is flattened is not covered where a parameter is its type, as it may be no struct or map: name the type itself
// 8: D.b: what is flattened is covered where it is a struct or an enum of this file, without parameters, a BTreeMap, a HashMap, or one of these in an Option or a Box: hold one, or delete `flatten`
#[derive(Serialize)]
struct A<T> { a: u8, #[serde(flatten)] b: Option<T> }
#[derive(Deserialize)]
struct B<T> { a: u8, #[serde(flatten)] b: Box<T> }
#[derive(Deserialize)]
struct C<T> { a: u8, #[serde(flatten)] b: Option<W<T>> }
#[derive(Serialize)]
struct D<T> { a: u8, #[serde(flatten)] b: W<T> }
#[derive(Serialize, Deserialize)]
struct W<T>(T);

// 3: A.a: an array of `2*N` values is not covered: write how many as a number
// 4: A.b: an array of more than 32 values is not covered, as in Serde: hold a Vec
// 5: A.c: `[u8]` is covered behind a reference alone: write a Vec
// 6: A.d: a map with keys of type `[u8; 2]` is not covered: hold a Vec of pairs, or put the key into a struct that derives Ord
// 7: A.e: floats are not covered: hold a whole number of a smaller unit, or a String
// 8: A.f: its default is not covered: hold a number, bool, char, String, PathBuf, Duration, Option, Vec, map, set, an array or a tuple of these, or a type of your own that derives Default
// 9: A.g: its default is not covered, as nothing makes a `[String; 40]` here: hold an Option, or write `default = ".."` with the path of a function of another module that does
// 10: A.h: serde's `skip_serializing_if` so is not covered: Option::is_none is, Duration::is_zero, `is_empty` of String, Vec, VecDeque, slices, maps and sets, each on a field of its type, a function of this file that compares with one value, as `*n == 0`, and one of another module that is named from `crate` on
// 13: B.Y.0: `B` contains itself, which is not covered in `[Option<Box<B>>; 2]`: hold it in Box, Vec or Option<Box>
// 15: C.0: the size of `[T; 2]` depends on `T`, which is not covered: hold `Box<T>` there for `T`
// 17: D.0: an array of `123456789` values is not covered: write a Vec
#[derive(Serialize, Deserialize)]
struct A {
    a: [u8; 2 * N],
    b: [u8; 0xff_usize],
    c: Vec<Box<[u8]>>,
    d: BTreeMap<[u8; 2], u8>,
    e: [f32; 3],
    #[serde(default)] f: [Box<u8>; 3],
    #[serde(skip)] g: [String; 40],
    #[serde(skip_serializing_if = "<[_]>::is_empty")] h: [u8; 0],
}
#[derive(Serialize, Deserialize)]
enum B { X, Y([Option<Box<B>>; 2]) }
#[derive(Deserialize)]
struct C<T>([T; 2], u8);
#[derive(Serialize)]
struct D([u8; 123456789]);

// 3: A.a: the type `std::time::Instant` is not covered: hold what it is made of, as a number or a String
// 4: A.b: `crate::other::Cache<u8>` is not covered: a type with arguments is where this file declares it, or std's is: write in another file a struct around it, with its impls by hand, and hold that
// 5: A.c: a tuple of more than 4 values is not covered: hold a struct of them
// 6: A.d: a PhantomData is covered where it is neither sent nor read: write `#[serde(skip)]` above it
// 7: A.e: a map with keys of type `Vec<u8>` is not covered: hold a Vec of pairs, or put the key into a struct that derives Hash
// 8: A.f: what is borrowed is covered where it is only sent: hold the value itself, as String for &str
// 9: A.g: the type `std::time::Instant` is not covered: hold what it is made of, as a number or a String
// 10: A.h: a RefCell is not covered: hold the value in it
// 13: B.X.x: the type `std::time::Instant` is not covered: hold what it is made of, as a number or a String
// 16: C.0: the type `std::time::Instant` is not covered: hold what it is made of, as a number or a String
// 20: D.0: its default is not covered, as nothing makes a `[std::time::Instant; 2]` here: hold an Option, or write `default = ".."` with the path of a function of another module that does
// 20: D.1: its default is not covered: `E` derives no Default, or holds what has none here: hold an Option
#[derive(Serialize, Deserialize)]
struct A {
    #[serde(with = "crate::rules")] a: std::time::Instant,
    #[serde(with = "crate::rules")] b: crate::other::Cache<u8>,
    #[serde(with = "crate::rules")] c: (u8, u8, u8, u8, u8),
    #[serde(with = "crate::rules")] d: std::marker::PhantomData<u8>,
    #[serde(with = "crate::rules")] e: HashMap<Vec<u8>, u8>,
    #[serde(with = "crate::rules")] f: &'static str,
    #[serde(serialize_with = "crate::rules::s", deserialize_with = "crate::rules::d")] g: [std::time::Instant; 2],
    #[serde(with = "crate::rules")] h: Option<std::cell::RefCell<u8>>,
}
#[derive(Serialize)]
enum B { X { #[serde(serialize_with = "crate::rules::t")] x: std::time::Instant } }
#[derive(Deserialize)]
#[serde(transparent)]
struct C(#[serde(deserialize_with = "crate::rules::t")] std::time::Instant);
#[derive(Serialize, Deserialize)]
struct E(u8);
#[derive(Serialize, Deserialize)]
struct D(#[serde(skip)] [std::time::Instant; 2], #[serde(skip)] [E; 2], u8);

// 3: A: such attributes don't go together: `from` and `try_from`: delete one of them
// 6: B: such attributes don't go together: `transparent` and `from`: delete one of them
// 9: C: serde's `into` is not covered on a type with parameters or lifetimes: write the impls by hand
// 12: D: serde's `into` is not covered with a type that borrows: name one that holds the value itself, as String for &str
// 15: E: serde's `into`: floats are not covered: hold a whole number of a smaller unit, or a String
// 18: F: serde's `into`: `H` does not derive Serialize, as what holds it does: derive that too
// 20: H: `H` contains itself, which is not covered through `I`: write its impls by hand
// 23: I: `I` contains itself, which is not covered through `H`: write its impls by hand
// 26: J: serde's `try_from`: the type `Missing` is not covered: declare it in this file, or name it by its full path
// 28: K: serde's `from` so is not covered: write `from = ".."`
// 29: K.0: serde's `into` on a field is not covered: it is for a container
// 32: L: serde's `try_from` is covered with a bool, a char or a whole number, of which contracts know which one is read, not with `O`: convert it in a function, and name that by `deserialize_with` on the fields that hold it
// 37: P.o: what is flattened is not covered where its type has serde's `from`: hold it under a name
// 39: Q.o: what is flattened is not covered where its type has serde's `from`: hold it under a name
// 41: R.o: what is flattened is not covered where its type has serde's `from`: hold it under a name
// 44: T.X: what stands beside a tag is not covered where its type has serde's `from`: hold it under a name
// 47: U.x: the type `LinkedList` is not known here: name it by its path, as `std::collections::LinkedList`, or import it by `use`
// 50: V: `V` contains itself, which is not covered beside `from`: write its impls by hand
// 53: read: values are called `read` too, which Rust does not tell from this struct: give the type another name, and this one by `#[serde(rename = "read")]`
#[derive(Serialize, Deserialize)]
#[serde(from = "u8", try_from = "u8")]
struct A(u8);
#[derive(Serialize, Deserialize)]
#[serde(transparent, from = "u8")]
struct B(u8);
#[derive(Serialize, Deserialize)]
#[serde(into = "T")]
struct C<T>(T);
#[derive(Serialize)]
#[serde(into = "&'static str")]
struct D(u8);
#[derive(Serialize)]
#[serde(into = "f64")]
struct E(u8);
#[derive(Serialize)]
#[serde(into = "H")]
struct F(u8);
#[derive(Deserialize)]
pub struct H { b: Vec<I> }
#[derive(Deserialize)]
#[serde(from = "H")]
pub struct I(pub u8);
#[derive(Deserialize)]
#[serde(try_from = "Missing")]
struct J(u8);
#[derive(Deserialize)]
#[serde(from)]
struct K(#[serde(into = "u8")] u8);
#[derive(Deserialize)]
#[serde(try_from = "O")]
struct L(u8);
#[derive(Serialize, Deserialize)]
#[serde(from = "u8", into = "u8")]
pub struct O { pub a: u8 }
#[derive(Serialize, Deserialize)]
struct P { #[serde(flatten)] o: O }
#[derive(Serialize)]
struct Q { #[serde(flatten)] o: Option<O> }
#[derive(Deserialize)]
struct R { x: u8, #[serde(flatten)] o: Box<O> }
#[derive(Serialize, Deserialize)]
#[serde(tag = "t")]
enum T { X(O), Y }
#[derive(Deserialize)]
#[serde(from = "u8")]
struct U { x: LinkedList<u8> }
#[derive(Serialize, Deserialize)]
#[serde(from = "u8", into = "u8")]
pub struct V { pub x: Option<Box<V>> }
#[derive(Deserialize)]
#[serde(from = "u8")]
struct read(u8);

// 3: A: serde's `into` is covered with a text, or a type that holds no memory, of which contracts know which one is sent, not with `Raw`: write the impl of Serialize by hand
// 8: B: serde's `into` is covered with a text, or a type that holds no memory, of which contracts know which one is sent, not with `Vec<u8>`: write the impl of Serialize by hand
// 11: C: serde's `into` is covered with a text, or a type that holds no memory, of which contracts know which one is sent, not with `crate::raw::Whole`: write the impl of Serialize by hand
// 14: D: serde's `into` is covered with a text, or a type that holds no memory, of which contracts know which one is sent, not with `Option<[String; 2]>`: write the impl of Serialize by hand
#[derive(PartialEq, Eq, Serialize, Deserialize)]
#[serde(from = "Vec<u8>", into = "Raw")]
struct A { #[serde(skip_serializing_if = "h")] x: f64, b: u8 }
#[derive(Serialize)]
struct Raw(u8, (bool, String));
#[derive(Clone, Copy, Serialize)]
#[serde(into = "Vec<u8>")]
enum B { X, Y }
#[derive(Default, Serialize, Deserialize)]
#[serde(into = "crate::raw::Whole", default)]
struct C { x: Option<u8>, y: String }
#[derive(Serialize)]
#[serde(into = "Option<[String; 2]>")]
struct D { #[serde(with = "crate::rules")] x: std::time::Instant }

// 4: A.a: the name `Result` is one that the module uses itself: import that type by another name
// 5: A.b: the type `Mutex` is not known here: name it by its path, as `std::sync::Mutex`, or import it by `use`
// 6: A.c: the type `PhantomData` is not known here: name it by its path, as `std::marker::PhantomData`, or import it by `use`
// 7: A.d: a Result is not covered: hold an enum of both
use crate::errors::Result;
#[derive(Serialize, Deserialize)]
struct A {
    #[serde(skip)] a: Option<Result<u8>>,
    #[serde(skip)] b: Option<Mutex<u8>>,
    #[serde(skip)] c: PhantomData<u8>,
    #[serde(skip)] d: Option<std::io::Result<u8>>,
}

// 3: A.a: a PhantomData of what begins with `fn` is not covered: write the parameter alone, as in `PhantomData<T>`
// 4: A.b: a PhantomData of what begins with `*` is not covered: write the parameter alone, as in `PhantomData<T>`
// 7: B.b: what is borrowed is covered where it is only sent: write the parameter alone, as in `PhantomData<T>`
#[derive(Serialize, Deserialize)]
struct A<T> {
    #[serde(skip)] a: std::marker::PhantomData<fn() -> T>,
    #[serde(skip)] b: std::marker::PhantomData<*const T>,
}
#[derive(Serialize, Deserialize)]
struct B<'a, T> { x: u8, #[serde(skip)] b: std::marker::PhantomData<&'a T> }

// 4: Node.id: `Node` leads to itself by a name in `Id<Node>`, which is not covered: name another type there, such as a struct without fields
// 4: Node.parent: `Node` leads to itself by a name in `Id<Node>`, which is not covered: name another type there, such as a struct without fields
// 6: A.of: `A` leads to itself by a name in `std::marker::PhantomData<A>`, which is not covered: name another type there, such as a struct without fields
// 8: B: `B` contains itself, which is not covered through `C`: write its impls by hand
// 10: C.of: `C` leads to itself by a name in `std::marker::PhantomData<B>`, which is not covered: name another type there, such as a struct without fields
// 14: E.x: `E` contains itself, which is not covered in `D<E>`: hold it in Box, Vec or Option<Box>
#[derive(Serialize, Deserialize)]
struct Id<T> { raw: u32, #[serde(skip)] of: std::marker::PhantomData<T> }
#[derive(Serialize, Deserialize)]
struct Node { id: Id<Node>, parent: Option<Id<Node>>, next: Vec<Node> }
#[derive(Serialize, Deserialize)]
struct A { x: u8, #[serde(skip)] of: std::marker::PhantomData<A> }
#[derive(Serialize, Deserialize)]
struct B { c: C }
#[derive(Serialize, Deserialize)]
struct C { x: u8, #[serde(skip)] of: std::marker::PhantomData<B> }
#[derive(Serialize, Deserialize)]
struct D<T> { x: Vec<T> }
#[derive(Serialize, Deserialize)]
struct E { x: D<E> }

// 3: A: its conversions stand in another module, which can't name `A`: write `pub(crate)` before that
// 6: B: its conversions stand in another module, which can't name `Raw`: write `pub(crate)` before that
// 11: C: its conversions stand in another module, which can't make `C`, as it doesn't see its field `y`: write `pub(crate)` before that
#[derive(Serialize, Deserialize)]
#[serde(from = "u8", into = "u8")]
struct A(pub u8);
#[derive(Serialize)]
#[serde(into = "Raw")]
pub struct B { x: u8 }
#[derive(Serialize)]
struct Raw(u8);
#[derive(Deserialize)]
#[serde(from = "u8")]
pub struct C { pub x: u8, y: u8 }

// 2: A: `A` contains itself, which is not covered in a type with parameters or lifetimes: write its impls by hand
// 6: C: `C` contains itself, which is not covered in a type with parameters or lifetimes: write its impls by hand
#[derive(Serialize, Deserialize)]
enum A<T> { X(T), Y(Vec<A<T>>) }
#[derive(Serialize, Deserialize)]
struct B { a: A<u8>, c: Option<C<String>> }
#[derive(Serialize, Deserialize)]
struct C<T> { x: T, #[serde(skip)] y: Option<Box<C<T>>> }

// 3: A.x: a SocketAddr is not covered: hold its text as a String
// 3: A.y: a SystemTime is not covered: hold a struct of `secs_since_epoch: u64` and `nanos_since_epoch: u32`, as Serde sends it
use std::{net::SocketAddr, time::SystemTime};
#[derive(Serialize)]
struct A { x: Vec<SocketAddr>, y: SystemTime }

// 3: A.y: a map with keys of type `Ipv4Addr` is not covered: hold a Vec of pairs, or put the key into a struct that derives Ord
// 3: A.z: a set of `IpAddr` is not covered: hold a Vec, or put the item into a struct that derives Hash
// 3: A.w: the type `Ipv6Addr<u8>` is not covered: the types that are stand in docs/OWN_TYPES.md
// 3: A.x: its default is not covered: hold a number, bool, char, String, PathBuf, Duration, Option, Vec, map, set, an array or a tuple of these, or a type of your own that derives Default
use std::{collections::*, net::{IpAddr, Ipv4Addr, Ipv6Addr}};
#[derive(Deserialize)]
struct A { #[serde(default)] x: IpAddr, y: BTreeMap<Ipv4Addr, u8>, z: HashSet<IpAddr>, w: Ipv6Addr<u8> }

// 2: A.b: what is borrowed is covered where it is only sent: hold the value itself, as String for &str
// 7: B.X.b: `[f64; 4]` is not covered on a skipped field of a variant: hold it in a struct, and that in the variant
// 8: B.X.c: `HashMap<String, std::time::Instant>` is not covered on a skipped field of a variant: hold it in a struct, and that in the variant
#[derive(Serialize, Deserialize)]
struct A { x: u8, #[serde(skip)] b: Option<&'static str> }
#[derive(Serialize, Deserialize)]
enum B {
    X {
        x: u8,
        #[serde(skip)] b: Vec<[f64; 4]>,
        #[serde(skip)] c: std::collections::HashMap<String, std::time::Instant>,
        #[serde(skip)] d: f64,
        #[serde(skip)] e: Option<std::time::Instant>,
    },
}

// 3: A: serde's `try_from` is covered with a bool, a char or a whole number, of which contracts know which one is read, not with `String`: convert it in a function, and name that by `deserialize_with` on the fields that hold it
#[derive(Deserialize)]
#[serde(try_from = "String")]
pub struct A(pub String);

// 2: A.h: a field of a parameter's type is covered among the first 7 of up to 8: hold `Box<T>`
// 4: B.h: a field of a parameter's type is covered among the first 7 that are sent: hold `Box<T>`
// 6: D.e: a field of a parameter's type is covered among the first 5 of up to 7: hold `Box<T>`
// 11: E.X.g: a field of a parameter's type is covered among the first 6 that are sent: hold `Box<T>`
// 13: F.X.g: a field of a parameter's type is covered among the first 6 that are sent: hold `Box<T>`
#[derive(Deserialize)]
struct A<T> { a: u8, b: u8, c: u8, d: u8, e: u8, f: u8, g: u8, h: T }
#[derive(Serialize)]
struct B<T> { a: u8, b: u8, c: u8, d: u8, e: u8, f: u8, g: u8, h: T, #[serde(skip)] i: T }
#[derive(Deserialize)]
struct D<T> { a: u8, b: u8, c: u8, #[serde(flatten)] d: C, e: T }
#[derive(Deserialize)]
struct C { x: u8, y: u8 }
#[derive(Serialize)]
#[serde(tag = "t")]
enum E<T> { X { a: u8, b: u8, c: u8, d: u8, e: u8, f: T, g: T } }
#[derive(Serialize)]
enum F<T> { X { a: u8, b: u8, c: u8, d: u8, e: u8, f: T, g: T } }

// 2: A.b: `[[Option<u8>; 3]; 2]` is not covered beside `[String; 2]`, which may hold memory: hold a Vec in place of one of them
// 4: B.X.0: `[[(u8, u8); 2]; 2]` is not covered beside `[A; 2]`, which may hold memory: hold a Vec in place of one of them
#[derive(Serialize, Deserialize)]
struct A { a: [String; 2], b: [[Option<u8>; 3]; 2], c: [[u8; 3]; 2], d: [Option<u8>; 3], e: Vec<[[Option<u8>; 3]; 2]> }
#[derive(Serialize, Deserialize)]
enum B { X([[(u8, u8); 2]; 2], [A; 2]), Y([[Option<u8>; 2]; 2], [u8; 2]) }

// 4: A.x: a map with keys of type `Duration` is not covered: hold a Vec of pairs, or put the key into a struct that derives Ord
// 5: A.y: a set of `Duration` is not covered: hold a Vec, or put the item into a struct that derives Hash
use std::time::Duration;
#[derive(Serialize, Deserialize)]
struct A {
    x: BTreeMap<Duration, u8>,
    y: HashSet<Duration>,
}

// 7: not copied: `fn long`: write it in another module, if code needs it
// 8: not copied: `fn big`: write it in another module, if code needs it
// 4: A.x: its default is not covered, as `long` has `Duration::from_secs_f64(1.5)`: write there one value, such as `8080`, `"text".to_owned()`, `Vec::new()` or a variant of an enum of this file, or name one of another module from `crate` on
// 5: A.y: its default is not covered, as `big` has `Duration::from_secs(18446744073709551616)`: write there one value, such as `8080`, `"text".to_owned()`, `Vec::new()` or a variant of an enum of this file, or name one of another module from `crate` on
use std::time::Duration;
#[derive(Serialize, Deserialize)]
struct A {
    #[serde(default = "long")] x: Duration,
    #[serde(default = "big")] y: Duration,
}
fn long() -> Duration { Duration::from_secs_f64(1.5) }
fn big() -> Duration { Duration::from_secs(18446744073709551616) }

// 2: A.X.0: a field of a parameter's type is not covered beside `BTreeMap<u8, BTreeMap<u8, T>>` in a variant: hold `Box<T>`
// 2: A.Z.x: a field of a parameter's type is not covered beside `HashMap<u8, T>` in a variant: hold `Box<T>`
// 2: A.Z.y: `HashMap<u8, T>` is or holds a HashMap, which is not covered beside a field of a parameter's type in a variant: hold a BTreeMap
// 4: B.Y.0: `BTreeSet<PathBuf>` is not covered in a type that contains itself: hold it in another struct
// 6: C.0: a field of a parameter's type is not covered beside `Option<PathBuf>` by place: hold `Box<T>`
#[derive(Deserialize)]
enum A<T> { X(T, BTreeMap<u8, BTreeMap<u8, T>>), Y(T, BTreeMap<u8, T>), Z { x: T, #[serde(default)] y: HashMap<u8, T> } }
#[derive(Serialize)]
enum B { X(Box<B>), Y(BTreeSet<PathBuf>, u8) }
#[derive(Deserialize)]
struct C<T>(T, Option<PathBuf>);

// 2: A.x: `&'a [&'a str]` is covered alone or in an Option: hold the values themselves, as String for &str
// 4: B.X.0: `&'a [&'a u8]` is covered alone or in an Option: hold the values themselves, as String for &str
#[derive(Serialize)]
struct A<'a> { x: BTreeMap<u8, &'a [&'a str]>, y: Option<&'a [&'a str]>, z: &'a [&'a str], w: Vec<&'a [u8]> }
#[derive(Serialize)]
enum B<'a> { X(&'a [&'a [&'a u8]]), Y(Vec<&'a str>) }

// 2: A.X.0: `[&'a str; 2]` holds an array of what is borrowed, which is not covered in a variant, as the borrow checker has no rule for it: hold a Vec, or a reference to a slice
// 4: B.X.x: `Option<[&'static u8; 2]>` holds an array of what is borrowed, which is not covered in a variant, as the borrow checker has no rule for it: hold a Vec, or a reference to a slice
// 8: D.X.0: `C<'a>` holds an array of what is borrowed, which is not covered in a variant, as the borrow checker has no rule for it: hold a Vec, or a reference to a slice
#[derive(Serialize)]
enum A<'a> { X([&'a str; 2], u8), Y(&'a [[&'a str; 2]]), Z(Vec<[&'a str; 2]>, [u8; 2]) }
#[derive(Serialize)]
enum B { X { x: Option<[&'static u8; 2]>, y: u8 }, Y }
#[derive(Serialize)]
struct C<'a> { x: [&'a str; 2], y: u8 }
#[derive(Serialize)]
enum D<'a> { X(C<'a>), Y { x: u8 } }

// 2: A.x: `[(); 2]` is not covered, as the borrow checker has no rule for it: hold a Vec
// 2: A.y: `[[char; 2]; 3]` is not covered, as the borrow checker has no rule for it: hold a Vec
// 4: B.X.0: `[[(); 2]; 3]` is not covered, as the borrow checker has no rule for it: hold a Vec
#[derive(Deserialize)]
struct A { x: [(); 2], y: [[char; 2]; 3], z: [char; 2], w: [[u8; 2]; 2], v: Vec<[(); 2]> }
#[derive(Serialize, Deserialize)]
enum B { X([[(); 2]; 3], u8), Y([Option<()>; 2]) }

// 2: A.x: an empty name is not covered: give one of at least a letter
// 4: B.X: an empty name is not covered: give one of at least a letter
#[derive(Serialize, Deserialize)]
struct A { #[serde(rename = "")] x: u8 }
#[derive(Serialize, Deserialize)]
enum B { #[serde(rename(serialize = ""))] X, Y }

// 4: not copied: `const N`: write it in another module, if code needs it
// 6: not copied: `const N`: write it in another module, if code needs it
// 7: not copied: `fn f`: write it in another module, if code needs it
// 2: A.x: its default is not covered, as `f` has `N`: write there one value, such as `8080`, `"text".to_owned()`, `Vec::new()` or a variant of an enum of this file, or name one of another module from `crate` on
#[derive(Deserialize)]
struct A { #[serde(default = "f")] x: u8 }
#[cfg(unix)]
const N: u8 = 1;
#[cfg(windows)]
const N: u8 = 2;
fn f() -> u8 { N }

// 5: not copied: `fn is_off`, but what it gives is written where an attribute asks for it
// 4: A.x: `is_off` compares a `Mode`, which does not derive PartialEq: derive it there
#[derive(Serialize)]
enum Mode { Off, On }
#[derive(Serialize)]
struct A { #[serde(skip_serializing_if = "is_off")] x: Mode }
fn is_off(m: &Mode) -> bool { matches!(m, Mode::Off) }

// 5: C: `C` contains itself, which is not covered beside `transparent`: write its impls by hand
#[derive(Deserialize)]
struct A { a: u8, #[serde(flatten)] c: Box<C> }
#[derive(Deserialize)]
#[serde(transparent)]
struct C { d: Box<C> }

// 4: C: `C` contains itself, which is not covered in a struct without named fields: name them
#[derive(Serialize, Deserialize)]
struct A { a: u8, #[serde(flatten)] c: Box<C> }
#[derive(Serialize, Deserialize)]
struct C(Option<Box<C>>);

// 5: C: `C` contains itself, which is not covered beside `untagged`: write its impls by hand
#[derive(Serialize)]
struct A { a: u8, #[serde(flatten)] c: C }
#[derive(Serialize)]
#[serde(untagged)]
enum C { Map(BTreeMap<String, u8>), More(Box<C>) }

// 4: W: `W` contains itself, which is not covered in a struct without named fields: name them
#[derive(Deserialize)]
struct A<T> { a: T, #[serde(flatten)] b: Option<W<T>> }
#[derive(Deserialize)]
struct W<T>(Box<W<Vec<T>>>);

// 2: C.d: `D` has 0 arguments here, and its parameters are: T
// 2: C: `C` contains itself, which is not covered through `D`: write its impls by hand
// 4: D: `D` contains itself, which is not covered through `C`: write its impls by hand
#[derive(Deserialize)]
struct C { a: i64, #[serde(flatten)] d: Option<Box<D>> }
#[derive(Deserialize)]
enum D<T> { X { c: C }, Y { t: T } }

// 1: Port: `#[cfg(unix)]` is not covered, as the module is written once for all: delete it, or move what it is about to a file of its own
// 5: Port.handle: the type `Handle` is not covered: declare it in this file, or name it by its full path
#[cfg(unix)]
#[derive(Serialize)]
struct Port { fd: u8 }
#[derive(PartialEq, Eq, Serialize, Deserialize)]
struct Port { handle: Handle }
#[derive(Deserialize)]
struct Holder { p: Vec<Port> }

// 5: Unit: serde's `transparent` is for structs of one field beside skipped ones: delete it
#[derive(Deserialize)]
struct F { #[serde(flatten)] x: Box<Unit> }
#[derive(Deserialize)]
#[serde(transparent)]
struct Unit;

// 3: not copied: `fn some`: write it in another module, if code needs it
// 2: A.d: `Option` has 0 arguments here, and needs 1: write what it holds
// 2: A.e: `HashMap<u8>` has 1 arguments here, and needs 2: write what it holds
#[derive(Deserialize)]
struct A { #[serde(default = "some")] d: Option, e: HashMap<u8> }
fn some() -> Option { Some(1) }

// 2: A.A.x: serde's `"u8"` on a field is not covered: delete it, or write the impls by hand
// 4: A.1: `Option` has 0 arguments here, and needs 1: write what it holds
#[derive(Deserialize)]
enum A { A { #[serde("u8")] x: Box<A> } }
#[derive(Deserialize)]
struct A(u8, Option);

// 2: A.x: `HashMap<String, u8, ahash::RandomState>` is not covered, as there is one hasher alone: delete `ahash::RandomState`
// 2: A.y: `HashSet<u8, S>` is not covered, as there is one hasher alone: delete `S`
// 2: A.z: `Vec<u8, Global>` is not covered, as there is one allocator alone: delete `Global`
#[derive(Deserialize)]
struct A { x: HashMap<String, u8, ahash::RandomState>, y: HashSet<u8, S>, z: Vec<u8, Global> }

// 3: not copied: `mod date_format`: write it in another module, if code needs it
// 4: not copied: `mod defaults`: write it in another module, if code needs it
// 2: A.v: `date_format` is a module that is not copied (line 3): import the type by its path from `crate`
// 2: A.x: `date_format` is a module that is not copied (line 3): move the function to another module, and name it from `crate` on
// 2: A.y: `defaults` is a module that is not copied (line 4): move the function to another module, and name it from `crate` on
// 2: A.z: `defaults` is a module that is not copied (line 4): move the function to another module, and name it from `crate` on
#[derive(Serialize, Deserialize)]
struct A { #[serde(with = "date_format")] x: u8, #[serde(default = "defaults::port")] y: u8, #[serde(skip_serializing_if = "defaults::none")] z: u8, v: date_format::T }
mod date_format { pub fn deserialize() {} }
mod defaults;

// 4: not copied: `impl Default for A`, but what it gives is written where an attribute asks for it
// 9: not copied: `fn default_port`: write it in another module, if code needs it
// 17: not copied: `impl Default for B`: write it in another module, if code needs it
// 21: not copied: `impl Default for C`: write it in another module, if code needs it
// 31: not copied: `fn two`: write it in another module, if code needs it
// 35: not copied: `fn one`, but what it gives is written where an attribute asks for it
// 3: A.port: its default is not covered, as `A::default` has `default_port()`: write there one value, such as `8080`, `"text".to_owned()`, `Vec::new()` or a variant of an enum of this file, or above the field `default = ".."` with the path of a function of another module
// 3: A.level: its default is not covered, as `A::default` has `Level::default()`: write there one value, such as `8080`, `"text".to_owned()`, `Vec::new()` or a variant of an enum of this file, or above the field `default = ".."` with the path of a function of another module
// 3: A.n: its default is not covered, as `A::default` has `N{x: 1}`: write there one value, such as `8080`, `"text".to_owned()`, `Vec::new()` or a variant of an enum of this file, or above the field `default = ".."` with the path of a function of another module
// 3: A.x: its default is not covered, as `A::default` has `vec![1]`: write there one value, such as `8080`, `"text".to_owned()`, `Vec::new()` or a variant of an enum of this file, or above the field `default = ".."` with the path of a function of another module
// 16: B: its default is not covered, as `B::default` has `..Default::default()`: write each field there as `name: value`
// 20: C: its default is not covered, as `C::default` has `Self::new()`: write there `C { .. }` with one value for each field, such as `8080`, `"text".to_owned()`, `Vec::new()` or a variant of an enum of this file
// 24: D: its default is not covered: write in this file one function `make` whose body is `D { .. }` with one value for each field, such as `8080`, `"text".to_owned()`, `Vec::new()` or a variant of an enum of this file
// 27: E: its default is not covered: write in this file one function whose body is `E { .. }` with one value for each field, such as `8080`, `"text".to_owned()`, `Vec::new()` or a variant of an enum of this file
// 30: F: its default is not covered, as `two` has `let x = 1; F{x, y: 2}`: write there `F { .. }` with one value for each field, such as `8080`, `"text".to_owned()`, `Vec::new()` or a variant of an enum of this file
// 34: G.y: its default is not covered, as `one` has none: write there one value, such as `8080`, `"text".to_owned()`, `Vec::new()` or a variant of an enum of this file, or above the field `default = ".."` with the path of a function of another module
#[derive(Deserialize)]
#[serde(default)]
struct A { port: u16, level: Level, n: N, #[serde(skip_deserializing)] x: Vec<u8>, name: String }
impl Default for A {
    fn default() -> Self {
        Self { port: default_port(), level: Level::default(), n: N { x: 1 }, x: vec![1], name: String::new() }
    }
}
fn default_port() -> u16 { 80 }
#[derive(Deserialize, Default)]
enum Level { #[default] Low, High }
#[derive(Deserialize, Default)]
struct N { x: u8 }
#[derive(Deserialize)]
#[serde(default)]
struct B { x: u16, y: u8 }
impl Default for B { fn default() -> Self { Self { x: 80, ..Default::default() } } }
#[derive(Deserialize)]
#[serde(default)]
struct C { x: u16, y: u8 }
impl Default for C { fn default() -> Self { Self::new() } }
#[derive(Deserialize)]
#[serde(default = "make")]
struct D { x: u16, y: u8 }
#[derive(Deserialize)]
#[serde(default = "crate::other::make")]
struct E { x: u16 }
#[derive(Deserialize)]
#[serde(default = "two")]
struct F { x: u16, y: u8 }
fn two() -> F { let x = 1; F { x, y: 2 } }
#[derive(Deserialize)]
#[serde(default = "one")]
struct G { x: u16, y: u8 }
fn one() -> G { G { x: 1 } }

// 7: C: serde's `default` by `Default::default` is not covered: write `default` alone
#[derive(Deserialize)]
struct A { #[serde(default = "Default::default")] x: B, #[serde(default = "std::default::Default::default")] y: B, #[serde(default = "Default::default")] z: u8 }
#[derive(Deserialize, Default)]
enum B { #[default] X, Y }
#[derive(Deserialize)]
#[serde(default = "Default::default")]
struct C { x: u8 }

// 3: not copied: `fn three`: write it in another module, if code needs it
// 2: A.x: `std::vec::Vec::with` is not covered as a default of `Vec<u8>`: write in this file a function that gives one value, such as `8080`, `"text".to_owned()`, `Vec::new()` or a variant of an enum of this file, or name one of another module from `crate` on
// 2: A.y: `std::collections::BTreeMap::new` is not covered as a default of `HashMap<u8, u8>`: write in this file a function that gives one value, such as `8080`, `"text".to_owned()`, `Vec::new()` or a variant of an enum of this file, or name one of another module from `crate` on
// 2: A.z: its default is not covered, as `three` has `return 1; return 2;`: write there one value, such as `8080`, `"text".to_owned()`, `Vec::new()` or a variant of an enum of this file, or name one of another module from `crate` on
#[derive(Deserialize)]
struct A { #[serde(default = "std::vec::Vec::with")] x: Vec<u8>, #[serde(default = "std::collections::BTreeMap::new")] y: HashMap<u8, u8>, #[serde(default = "three")] z: u8 }
fn three() -> u8 { return 1; return 2; }

// 2: A.x: it is read by the name `x` already: delete the alias
// 2: A.y: it is read by the name `b` already: delete the alias
// 2: A.z: two are called `y`: give one another name
// 4: B.X: it is read by the name `X` already: delete the alias
// 4: B.Y: it is read by the name `b` already: delete the alias
// 4: B.Z: two are called `Y`: give one another name
#[derive(Deserialize)]
struct A { #[serde(alias = "x")] x: u8, #[serde(alias = "b", alias = "b")] y: u8, #[serde(alias = "y")] z: u8 }
#[derive(Deserialize)]
enum B { #[serde(alias = "X")] X, #[serde(alias = "b", alias = "b")] Y, #[serde(alias = "Y")] Z }

// 3: A: serde's `flatten` is covered in structs with named fields and without `deny_unknown_fields`: delete one of them
// 7: C: serde's `flatten` is covered in structs with named fields and without `deny_unknown_fields`: give the fields of this one names, or delete `flatten`
// 10: D: serde's `transparent` is for structs of one field beside skipped ones: delete it, or skip all fields but one
// 13: E: serde's `default` on a container is covered on structs with named fields: delete it
// 16: F: serde's `default` on a container is covered on structs with named fields: delete it
// 18: G.x: the name `a\nb` is not covered: printable ASCII but " and \ is: write such a name, or the impls by hand
// 18: G.y: an empty name is not covered: give one of at least a letter
// 18: G.z: serde's `default` stands twice: delete one of them
#[derive(Deserialize)]
#[serde(deny_unknown_fields)]
struct A { #[serde(flatten)] x: B }
#[derive(Deserialize)]
struct B { x: u8 }
#[derive(Deserialize)]
struct C(#[serde(flatten)] B);
#[derive(Deserialize)]
#[serde(transparent)]
struct D { x: u8, y: u8, #[serde(skip)] z: u8 }
#[derive(Deserialize)]
#[serde(default)]
enum E { X }
#[derive(Deserialize, Default)]
#[serde(default)]
struct F;
#[derive(Deserialize)]
struct G { #[serde(rename = "a\nb")] x: u8, #[serde(rename = "")] y: u8, #[serde(default, default)] z: u8 }

// 4: not copied: `impl<T> Default for A<T>`: write it in another module, if code needs it
// 3: A: serde's `default` on a container is covered where it derives Default, as an impl on a type with parameters is not read: derive that, or write `default` on each field
#[derive(Deserialize)]
#[serde(default)]
struct A<T> { x: Vec<T>, y: u8 }
impl<T> Default for A<T> { fn default() -> Self { A { x: Vec::new(), y: 1 } } }

// 3: A: its conversions stand in another module, which can't name `A`: write `pub(crate)` before that
// 3: A: its conversions stand in another module, which can't make `A`, as it doesn't see its field `0`: write `pub(crate)` before that
// 6: B: its conversions stand in another module, which can't name `D`: write `pub(crate)` before that
// 6: B: its conversions stand in another module, which can't make `B`, as it doesn't see its fields `x`, `z`: write `pub(crate)` before each of them
// 9: C: its conversions stand in another module, which can't name `C`, `D`: write `pub(crate)` before each of them
// 9: C: its conversions stand in another module, which can't make `C`, as it doesn't see its field `x`: write `pub(crate)` before that
#[derive(Serialize, Deserialize)]
#[serde(from = "u8")]
struct A(u8);
#[derive(Serialize, Deserialize)]
#[serde(from = "D", into = "u8")]
pub struct B { x: u8, pub y: u8, z: u8 }
#[derive(Serialize, Deserialize)]
#[serde(from = "D")]
struct C { x: u8 }
#[derive(Serialize, Deserialize)]
struct D(u8);

// 2: A.x: a map with keys of type `Box<str>` is not covered: hold a Vec of pairs, or put the key into a struct that derives Ord
// 2: A.y: `derive(Copy)` is not covered beside `Vec<Box<str>>`, which has memory of its own: delete Copy
#[derive(Serialize, Clone, Copy)]
struct A { x: BTreeMap<Box<str>, u8>, y: Vec<Box<str>> }

// 3: not copied: `fn f`: write it in another module, if code needs it
// 4: not copied: `fn g`: write it in another module, if code needs it
// 8: not copied: `fn h`: write it in another module, if code needs it
// 2: A.x: its default is not covered, as `f` has parameters: write there one value, such as `8080`, `"text".to_owned()`, `Vec::new()` or a variant of an enum of this file, or name one of another module from `crate` on
// 2: A.y: its default is not covered: write in this file one function `g` that gives one value, such as `8080`, `"text".to_owned()`, `Vec::new()` or a variant of an enum of this file, or name one of another module from `crate` on
// 7: B: its default is not covered, as `h` has parameters: write there `B { .. }` with one value for each field, such as `8080`, `"text".to_owned()`, `Vec::new()` or a variant of an enum of this file
#[derive(Deserialize)]
struct A { #[serde(default = "f")] x: u8, #[serde(default = "g")] y: u8 }
fn f(x: u8) -> u8 { 1 }
fn g() -> u8 {}
#[derive(Deserialize)]
#[serde(default = "h")]
struct B { x: u8 }
fn h(x: u8) -> B { B { x: 1 } }

// 4: A.e: `i32` is not covered among more than 10 fields of which some are not read: hold some in another struct
#[derive(Deserialize)]
struct A {
    a: u8, b: u8, c: u8, d: u8,
    e: i32, f: i8, g: u8, h: u8,
    #[serde(skip)] i: u8, #[serde(skip)] j: u8, #[serde(skip)] k: u8,
}

// 3: A.X.0: of an enum that is tagged adjacently, `(u8, bool)` is not covered beside a signed number: hold a struct of them
// 3: A.Z.a: of an enum that is tagged adjacently, `HashMap<u8, u8>` is not covered beside a signed number: hold a struct of them
#[derive(Serialize, Deserialize)]
#[serde(tag = "t", content = "c")]
enum A { X((u8, bool), i32), Y { a: (u8, bool), b: i32 }, Z { a: HashMap<u8, u8>, b: i64 } }

// 2: A.Y.b: `HashSet<u8>` is not covered beside an Option of `A`: hold `Box<HashSet<u8>>`
#[derive(Serialize, Deserialize)]
enum A { X { a: Option<Box<A>>, b: Box<HashSet<u8>> }, Y { b: HashSet<u8>, a: Option<Box<A>> } }

// 3: A.Y.a: `Option<HashSet<u8>>` is not covered next to the tag of a type that contains itself: hold it in another struct
// 3: A.W.a: `HashMap<u8, u8>` is not covered next to the tag of a type that contains itself: hold it in another struct
#[derive(Serialize, Deserialize)]
#[serde(tag = "t")]
enum A { X { x: Vec<A> }, Y { a: Option<HashSet<u8>>, b: HashSet<u8> }, W { a: HashMap<u8, u8>, b: String } }

// 3: passed over: `borrow`, as what is read is owned
// 2: A: serde's `borrow` on a container is not covered: it is for a variant or a field
// 3: A.x: what is borrowed is covered where it is only sent: hold the value itself, as String for &str
// 6: B.X.x: serde's `crate` on a field is not covered: it is for a container
// 6: B.X: serde's `expecting` on a variant is not covered: it is for a container
#[derive(Deserialize)]
#[serde(borrow)]
struct A<'a> { #[serde(borrow)] x: &'a str }
#[derive(Serialize)]
#[serde(untagged)]
enum B { #[serde(expecting = "an X")] X { #[serde(crate = "serde")] x: u8 } }
