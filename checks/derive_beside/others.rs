//! Sorts of types that `crates/check_derive` and `checks/serde_texts` leave out.

use crate::choices::{Color, Command, Setting};
use crate::sorts::{Marker, Message};
use crate::{boards, rules};
use serde::{Deserialize, Serialize};
use std::collections::BTreeMap;
use std::marker::PhantomData;
use std::net::{IpAddr, Ipv4Addr, Ipv6Addr};
use std::time::{Duration, Instant};

/// Numbers of every kind.
#[derive(Serialize, Deserialize)]
pub struct Numbers {
    pub a: i8,
    pub b: i16,
    pub c: i32,
    pub d: i64,
    pub e: i128,
    pub f: u8,
    pub g: u16,
    pub h: u32,
    pub i: u64,
    pub j: u128,
}

/// What is no number.
#[derive(Serialize, Deserialize)]
#[serde(rename = "leaf")]
pub struct Leaf {
    pub flag: bool,
    pub letter: char,
    pub nothing: (),
    pub text: String,
}

/// Holders in holders.
#[derive(Serialize, Deserialize)]
pub struct Nested {
    pub twice: Option<Option<u8>>,
    pub boxed: Box<Option<u8>>,
    pub lists: Vec<Vec<i16>>,
    pub pair: (char, Option<()>),
    pub alone: (u8,),
    pub four: (u8, bool, String, Vec<()>),
}

/// Fields that may be missing.
#[derive(Serialize, Deserialize)]
pub struct Defaults {
    #[serde(default)]
    pub count: u32,
    #[serde(default)]
    pub flag: bool,
    #[serde(default)]
    pub text: String,
    #[serde(default, rename = "list of")]
    pub list: Vec<u8>,
    #[serde(default)]
    pub map: BTreeMap<String, u8>,
    pub maybe: Option<char>,
    pub wanted: u8,
}

/// Around a key.
#[derive(PartialEq, Eq, PartialOrd, Ord, Serialize, Deserialize)]
pub struct Id(pub i32);

/// Maps by all sorts of keys.
#[derive(Serialize, Deserialize)]
pub struct Keys {
    pub letters: BTreeMap<char, u8>,
    pub numbers: BTreeMap<u64, String>,
    pub own: BTreeMap<Id, Kind>,
}

/// Every sort of variant.
#[derive(Serialize, Deserialize)]
#[serde(rename = "kind")]
pub enum Kind {
    Unit,
    #[serde(rename = "one")]
    One(u8),
    Two(i16, String),
    #[serde(rename_all = "UPPERCASE")]
    Named { a: u8, b: Option<char> },
    Boxed(Box<Leaf>),
}

/// A struct of values by place.
#[derive(Serialize, Deserialize)]
pub struct Pair(pub u8, pub Option<String>);

/// Fields in no order of letters.
#[derive(Serialize, Deserialize)]
#[serde(deny_unknown_fields)]
pub struct Plain {
    pub y: i16,
    pub x: u8,
    pub maybe: Option<u8>,
}

/// Characters before texts.
#[derive(Serialize, Deserialize)]
#[serde(untagged)]
pub enum Written {
    Letter(char),
    Text(String),
    Nothing(()),
}

/// Structs and enums of one's own.
#[derive(Serialize, Deserialize)]
#[serde(untagged)]
pub enum Found {
    Plain(Plain),
    Kind(Kind),
    Marker(Marker),
    Pair(Pair),
    Command(Command),
    Message(Message),
    Table(BTreeMap<String, u8>),
}

/// Numbers of 128 bits.
#[derive(Serialize, Deserialize)]
#[serde(untagged)]
pub enum Wide {
    Signed(i128),
    Many(Vec<u128>),
    Both(u8, u128),
}

/// What holds others.
#[derive(Serialize, Deserialize)]
#[serde(untagged)]
pub enum Held {
    Setting(Setting),
    Maybe(Option<Color>),
    Id(Id),
    Table(BTreeMap<u16, bool>),
    Line(Bill),
}

/// A tag next to fields of every sort.
#[derive(Serialize, Deserialize)]
#[serde(tag = "type", rename_all = "snake_case")]
pub enum Event {
    Started,
    #[serde(rename_all = "camelCase")]
    PutThere { row_key: String, at_place: (u8, char), kind: Kind },
    Seen { letter: char, maybe: Option<String>, list: Vec<u8>, nothing: (), marker: Marker, pair: Pair },
    Wide { n: i128, boxed: Box<Option<u8>> },
    Inside { command: Command, setting: Setting, message: Message },
    Whole(Leaf),
    Table { by: BTreeMap<String, Plain>, id: Id },
}

/// A tag next to a value of every sort.
#[derive(Serialize, Deserialize)]
#[serde(tag = "type", content = "value", rename_all = "lowercase")]
pub enum Reply {
    Empty,
    Text(String),
    Kind(Kind),
    Maybe(Option<u8>),
    Many(Vec<u8>),
    Whole(Plain),
    Wide(u128),
    Nested(Command),
    Both((u8, char)),
    Two(u8, Option<String>),
    Four(i16, char, Vec<u8>, Kind),
    Named {
        row: u8,
        maybe: Option<char>,
        #[serde(default, skip_serializing_if = "String::is_empty")]
        text: String,
    },
    Alone { whole: Plain },
}

/// The same with no other fields.
#[derive(Serialize, Deserialize)]
#[serde(tag = "t", content = "c", deny_unknown_fields)]
pub enum Confined {
    Empty,
    Pair(bool, u16),
    Named { x: u8, y: Option<i32> },
}

/// Flattened into `Middle`.
#[derive(Serialize, Deserialize)]
pub struct Inner {
    pub x: u8,
    pub letter: Option<char>,
    pub wide: Option<i128>,
}

/// Flattened into `Bill`.
#[derive(Serialize, Deserialize)]
pub struct Middle {
    #[serde(flatten)]
    pub inner: Inner,
    pub y: i16,
}

/// Fields of others between its own.
#[derive(Serialize, Deserialize)]
pub struct Bill {
    pub first: String,
    #[serde(flatten)]
    pub middle: Middle,
    pub kind: Option<Kind>,
    #[serde(flatten)]
    pub tail: Tail,
}

/// Flattened after `Middle`.
#[derive(Serialize, Deserialize)]
pub struct Tail {
    #[serde(default)]
    pub list: Vec<u8>,
    pub unit: (),
    pub kind_of: Kind,
}

/// Fields that are left out where they are empty, between others.
#[derive(Serialize, Deserialize)]
pub struct Sparse {
    pub id: u16,
    #[serde(default, skip_serializing_if = "String::is_empty")]
    pub text: String,
    #[serde(skip_serializing_if = "Option::is_none")]
    pub maybe: Option<char>,
    pub flag: bool,
    #[serde(default, skip_serializing_if = "Vec::is_empty", rename = "list of")]
    pub list: Vec<u8>,
    #[serde(default, skip_serializing_if = "BTreeMap::is_empty")]
    pub map: BTreeMap<String, u8>,
    pub last: i16,
}

/// No other field; one that is left out isn't read where it is missing.
#[derive(Serialize, Deserialize)]
#[serde(deny_unknown_fields, rename_all = "camelCase")]
pub struct Lossy {
    #[serde(skip_serializing_if = "Vec::is_empty")]
    pub row_list: Vec<u8>,
    #[serde(default, skip_serializing_if = "std::string::String::is_empty")]
    pub some_text: String,
    pub x: u8,
    #[serde(skip_serializing_if = "Option::is_none")]
    pub maybe: Option<Leaf>,
}

/// Nothing but fields that may be left out.
#[derive(Serialize, Deserialize)]
pub struct Hollow {
    #[serde(default, skip_serializing_if = "str::is_empty")]
    pub text: String,
    #[serde(default, skip_serializing_if = "std::collections::BTreeMap::is_empty")]
    pub map: BTreeMap<u8, Sparse>,
}

/// Fields that are left out in variants.
#[derive(Serialize, Deserialize)]
pub enum Report {
    Nothing,
    #[serde(rename_all = "camelCase")]
    Told {
        row_key: u8,
        #[serde(skip_serializing_if = "Option::is_none")]
        maybe: Option<u8>,
        #[serde(default, skip_serializing_if = "String::is_empty")]
        text: String,
        #[serde(skip_serializing_if = "Vec::is_empty")]
        list: Vec<u8>,
    },
    Only {
        #[serde(default, skip_serializing_if = "BTreeMap::is_empty")]
        map: BTreeMap<u8, u8>,
    },
    Held(Sparse),
}

/// The same next to a tag, and defaults.
#[derive(Serialize, Deserialize)]
#[serde(tag = "type")]
pub enum Signal {
    Off,
    On {
        level: u8,
        #[serde(default, skip_serializing_if = "Vec::is_empty")]
        list: Vec<u8>,
        #[serde(skip_serializing_if = "Option::is_none", rename = "wide")]
        maybe: Option<i128>,
        #[serde(skip_serializing_if = "String::is_empty")]
        text: String,
        #[serde(default)]
        size: Size,
    },
    Plain {
        number: Number64,
        perhaps: Perhaps,
        couple: Couple,
        choice: Choice,
    },
    Whole(Sparse),
    Config(Config),
}

/// The same with no other fields.
#[derive(Serialize, Deserialize)]
#[serde(tag = "t", deny_unknown_fields)]
pub enum Strict {
    Off,
    On {
        #[serde(skip_serializing_if = "Option::is_none")]
        maybe: Option<u8>,
        #[serde(default, skip_serializing_if = "Vec::is_empty")]
        list: Vec<Level>,
    },
}

/// Read of nothing at all.
#[derive(Default, Serialize, Deserialize)]
#[serde(default)]
pub struct Config {
    pub text: String,
    pub list: Vec<i16>,
    pub count: u32,
    pub level: Level,
    pub size: Size,
    #[serde(default, skip_serializing_if = "Option::is_none")]
    pub maybe: Option<bool>,
    #[serde(skip_serializing_if = "BTreeMap::is_empty")]
    pub table: BTreeMap<String, u8>,
    pub mode: Mode,
    #[serde(rename = "also")]
    pub flat: Merged,
}

/// The same with no other fields.
#[derive(Default, Serialize, Deserialize)]
#[serde(default, deny_unknown_fields)]
pub struct Exact {
    pub count: i8,
    #[serde(default)]
    pub config: Config,
    pub code: Number64,
}

/// A default of fields.
#[derive(Default, Serialize, Deserialize)]
pub struct Size {
    pub width: u8,
    pub height: Option<u8>,
    #[serde(default)]
    pub text: String,
}

/// A default that isn't the first.
#[derive(Default, Serialize, Deserialize)]
pub enum Level {
    High(u8),
    #[default]
    Low,
    Named { text: String },
}

/// A default next to a tag.
#[derive(Default, Serialize, Deserialize)]
#[serde(tag = "mode", rename_all = "kebab-case")]
pub enum Mode {
    Fast { level: u8 },
    #[default]
    AsItIs,
}

/// A default of flattened fields, of which one has no default of its own.
#[derive(Default, Serialize, Deserialize)]
#[serde(default)]
pub struct Merged {
    pub head: u8,
    #[serde(flatten)]
    pub size: Size,
}

/// Fields that may be missing, of types of one's own.
#[derive(Serialize, Deserialize)]
pub struct Page {
    pub title: String,
    #[serde(default)]
    pub size: Size,
    #[serde(default)]
    pub level: Level,
    #[serde(default)]
    pub mode: Mode,
    #[serde(default)]
    pub config: Config,
    #[serde(default)]
    pub number: Number64,
    #[serde(default)]
    pub both: Both,
}

/// A default of values by place.
#[derive(Default, Serialize, Deserialize)]
pub struct Both(pub u8, pub String);

/// Sent as a number.
#[derive(Default, PartialEq, Eq, PartialOrd, Ord, Serialize, Deserialize)]
#[serde(transparent)]
pub struct Number64(pub u64);

/// Sent as a text.
#[derive(PartialEq, Eq, PartialOrd, Ord, Serialize, Deserialize)]
#[serde(transparent)]
pub struct Label {
    pub text: String,
}

/// Sent as an option.
#[derive(Serialize, Deserialize)]
#[serde(transparent)]
pub struct Perhaps(pub Option<u8>);

/// Sent as a sequence.
#[derive(Serialize, Deserialize)]
#[serde(transparent)]
pub struct Rows(pub Vec<i16>);

/// Sent as a struct.
#[derive(Serialize, Deserialize)]
#[serde(transparent)]
pub struct Around {
    pub leaf: Leaf,
}

/// Sent as a tuple.
#[derive(Serialize, Deserialize)]
#[serde(transparent)]
pub struct Couple((u8, String));

/// Sent as a variant.
#[derive(Serialize, Deserialize)]
#[serde(transparent)]
pub struct Choice(pub Level);

/// Sent as what is in what is sent as that.
#[derive(Serialize, Deserialize)]
#[serde(transparent)]
pub struct Twice {
    pub inside: Box<Perhaps>,
}

/// Structs that are sent as what is in them.
#[derive(Serialize, Deserialize)]
pub struct Wrapped {
    pub number: Number64,
    pub label: Label,
    pub perhaps: Perhaps,
    pub twice: Twice,
    pub maybe: Option<Perhaps>,
    pub rows: Rows,
    pub couple: Couple,
    pub choice: Choice,
    pub by_label: BTreeMap<Label, Around>,
    pub by_number: BTreeMap<Number64, u8>,
}

/// The same as variants without tags.
#[derive(Serialize, Deserialize)]
#[serde(untagged)]
pub enum Bare {
    Number(Number64),
    Label(Label),
    Rows(Rows),
    Couple(Couple),
    Around(Around),
    Sparse(Sparse),
    Perhaps(Perhaps),
    Two(Number64, Label),
}

/// The same with a tag and next to it.
#[derive(Serialize, Deserialize)]
#[serde(tag = "type", content = "value")]
pub enum Packed {
    Number(Number64),
    Perhaps(Perhaps),
    Twice(Twice),
    Choice(Choice),
    Sparse(Sparse),
    Config(Config),
}

/// Values without a tag, of which two hold nothing.
#[derive(Serialize, Deserialize)]
#[serde(untagged)]
pub enum Handle {
    Number(i64),
    Null,
    Text(String),
    Pair(u8, Option<bool>),
    Never,
}

/// What is listed, a page at a time.
#[derive(Serialize, Deserialize)]
pub struct Listed<T> {
    pub items: Vec<T>,
    #[serde(default)]
    pub more: bool,
    #[serde(skip_serializing_if = "Option::is_none")]
    pub next: Option<Box<T>>,
}

/// Of two sorts.
#[derive(Serialize, Deserialize)]
#[serde(rename_all = "lowercase")]
pub enum Sorted<L, R> {
    Left(L),
    Right(R, u8),
    Both { left: L, right: R },
    Neither,
}

/// Where a value is.
#[derive(Serialize, Deserialize)]
pub struct Reference {
    #[serde(rename = "$ref")]
    pub path: String,
}

/// A reference or the value.
#[derive(Serialize, Deserialize)]
#[serde(untagged)]
pub enum Referred<T> {
    Reference(Reference),
    Item(T),
}

/// What happened to a value.
#[derive(Serialize, Deserialize)]
#[serde(tag = "type", content = "object")]
pub enum Watched<K> {
    Added(K),
    Changed(Vec<K>),
    Reset,
}

/// One value in a box of its own.
#[derive(Serialize, Deserialize)]
#[serde(transparent)]
pub struct Sealed<T>(pub T);

/// A value by its sort.
#[derive(Serialize, Deserialize)]
#[serde(tag = "sort")]
pub enum Named<T>
where
    T: Clone,
{
    Listed(Listed<T>),
    One { value: T, count: Option<u8> },
}

/// Types with arguments.
#[derive(Serialize, Deserialize)]
pub struct Given {
    pub numbers: Listed<u16>,
    pub pairs: Listed<(String, Sealed<bool>)>,
    pub sorted: Sorted<u8, Listed<String>>,
    pub referred: Vec<Referred<Leaf>>,
    pub watched: Option<Watched<Sealed<Option<i8>>>>,
    pub named: Named<char>,
}

/// Two values of a type.
#[derive(Serialize, Deserialize)]
pub struct Twin<T> {
    pub first: T,
    pub second: Option<Box<T>>,
}

/// The fields of such a type next to others.
#[derive(Serialize, Deserialize)]
pub struct Beside {
    pub before: u8,
    #[serde(flatten)]
    pub twin: Twin<i16>,
}

fn five() -> u8 {
    5
}

/// Fields that are sent alone, read alone, or neither.
#[derive(Serialize, Deserialize)]
pub struct Account {
    pub id: u16,
    #[serde(skip)]
    pub cached: Vec<u8>,
    #[serde(skip_serializing)]
    pub secret: String,
    #[serde(skip_deserializing)]
    pub version: Option<u8>,
    #[serde(skip_deserializing, default = "five")]
    pub uses: u8,
    #[serde(skip_serializing, default)]
    pub level: Level,
    #[serde(skip_deserializing)]
    pub size: Size,
}

/// The same with no other fields, and names that stand twice but for what is skipped.
#[derive(Serialize, Deserialize)]
#[serde(deny_unknown_fields, rename_all = "camelCase")]
pub struct Narrow {
    #[serde(skip)]
    pub row_key: u8,
    #[serde(rename = "rowKey")]
    pub other_key: u8,
    #[serde(skip_serializing, rename = "both")]
    pub read: i16,
    #[serde(skip_deserializing, rename = "both")]
    pub told: String,
}

/// The same among flattened fields.
#[derive(Serialize, Deserialize)]
pub struct Enclosing {
    pub first: u8,
    #[serde(flatten)]
    pub account: Account,
    #[serde(skip)]
    pub last: String,
}

/// The same by place.
#[derive(Serialize, Deserialize)]
pub struct OneWay(pub u8, #[serde(skip_serializing)] pub String, pub i16);

/// Variants that are sent alone, read alone, or neither, and such fields in variants.
#[derive(Serialize, Deserialize)]
pub enum Notice {
    Opened(u8),
    #[serde(skip)]
    Line(String),
    #[serde(skip_serializing)]
    Old {
        id: u8,
    },
    #[serde(skip_deserializing)]
    Closed,
    Held {
        x: u8,
        #[serde(skip)]
        y: String,
        #[serde(skip_serializing)]
        z: i16,
        #[serde(skip_deserializing, default = "five")]
        w: u8,
    },
    Pair(u8, #[serde(skip_serializing)] String),
}

/// The same next to a tag.
#[derive(Serialize, Deserialize)]
#[serde(tag = "type", rename_all = "snake_case")]
pub enum Alert {
    Opened {
        x: u8,
        #[serde(skip_deserializing)]
        y: i16,
        #[serde(skip)]
        z: Vec<u8>,
    },
    #[serde(skip)]
    Line(String),
    #[serde(skip_serializing)]
    Old,
    #[serde(skip_deserializing)]
    Closed {
        id: u8,
    },
    Whole(Account),
}

/// The same next to a value.
#[derive(Serialize, Deserialize)]
#[serde(tag = "type", content = "value")]
pub enum Remark {
    #[serde(skip_deserializing)]
    Closed(u8),
    Opened(u8),
    #[serde(skip_serializing)]
    Old(String),
    #[serde(skip)]
    Line(u8, u8),
    Nothing,
}

/// What no field takes, as a map between fields.
#[derive(Serialize, Deserialize)]
pub struct Extra {
    pub id: u16,
    #[serde(flatten)]
    pub others: BTreeMap<String, u8>,
    pub note: Option<String>,
}

/// A map around which a struct stands, behind a flattened struct.
#[derive(Serialize, Deserialize)]
pub struct Open(pub BTreeMap<String, Option<Kind>>);

/// What two structs leave over.
#[derive(Serialize, Deserialize)]
pub struct Opened {
    #[serde(flatten)]
    pub tail: Tail,
    pub id: u16,
    #[serde(flatten)]
    pub open: Open,
}

/// A variant that is told by a field among others.
#[derive(Serialize, Deserialize)]
pub struct Logged {
    pub id: u16,
    #[serde(flatten)]
    pub event: Event,
    pub y: Option<u8>,
}

/// A tag and a content among others.
#[derive(Serialize, Deserialize)]
pub struct Replied {
    #[serde(flatten)]
    pub reply: Reply,
    pub id: u16,
}

/// One of several structs and maps among others.
#[derive(Serialize, Deserialize)]
#[serde(untagged)]
pub enum Shape {
    Whole(Tail),
    Part(Inner),
    Rest(BTreeMap<String, i16>),
}

/// The fields of one of these.
#[derive(Serialize, Deserialize)]
pub struct Shaped {
    pub id: u16,
    #[serde(flatten)]
    pub shape: Shape,
}

/// A struct that may be there.
#[derive(Serialize, Deserialize)]
pub struct Tailed {
    pub id: u16,
    #[serde(flatten)]
    pub tail: Option<Tail>,
}

/// A variant that may be there, behind a flattened struct.
#[derive(Serialize, Deserialize)]
pub struct Signalled {
    #[serde(flatten)]
    pub inner: Inner,
    #[serde(flatten)]
    pub event: Option<Box<Event>>,
}

/// A struct that itself takes what is left over.
#[derive(Serialize, Deserialize)]
pub struct Outer {
    pub first: bool,
    #[serde(flatten)]
    pub extra: Extra,
}

/// Sent as its text alone.
#[derive(Serialize, Deserialize)]
#[serde(transparent)]
pub struct Kept {
    #[serde(rename = "other", alias = "more")]
    pub text: String,
    #[serde(skip)]
    pub times: u8,
    #[serde(skip)]
    pub since: Option<Instant>,
}

/// Sent as its option alone.
#[derive(Serialize, Deserialize)]
#[serde(transparent)]
pub struct Second(#[serde(skip)] pub u8, pub Option<i16>);

/// Sent as a word.
#[derive(Serialize, Deserialize)]
#[serde(transparent)]
pub struct Flag(#[serde(with = "rules")] pub bool, #[serde(skip)] pub Vec<u8>);

/// Read as a number, sent as a text.
#[derive(Serialize, Deserialize)]
#[serde(transparent)]
pub struct Across(
    #[serde(skip_serializing)] pub u8,
    #[serde(skip_deserializing)] pub String,
);

/// Structs that are sent as one field of theirs.
#[derive(Serialize, Deserialize)]
pub struct Alone {
    pub kept: Kept,
    pub second: Second,
    pub flag: Flag,
    pub across: Vec<Across>,
}

/// A number that stands for a value of a type.
#[derive(Serialize, Deserialize)]
pub struct IdOf<T> {
    pub raw: u64,
    #[serde(skip)]
    pub of: PhantomData<T>,
}

/// Numbers that stand for values.
#[derive(Serialize, Deserialize)]
pub struct Marks {
    pub first: IdOf<String>,
    pub others: Vec<IdOf<Instant>>,
}

/// A number, and a flag that functions read and send.
#[derive(Serialize, Deserialize)]
pub struct Turned(pub u8, #[serde(with = "rules")] pub bool);

/// A flag that functions read and send.
#[derive(Serialize, Deserialize)]
pub struct Lit(#[serde(with = "rules")] pub bool);

/// Flags that functions read and send.
#[derive(Serialize, Deserialize)]
pub enum Turn {
    Never,
    Once(#[serde(with = "rules")] bool),
    Twice(#[serde(with = "rules")] bool, i8),
    #[serde(skip)]
    Late(Duration),
}

/// What a board shows.
#[derive(Serialize, Deserialize)]
#[serde(rename = "Board")]
pub struct Counts {
    pub names: Vec<String>,
    #[serde(default, skip_serializing_if = "Vec::is_empty")]
    pub turns: Vec<u32>,
}

/// The same, sent as a board that borrows it.
#[derive(Serialize, Deserialize)]
#[serde(transparent)]
pub struct Shown(#[serde(serialize_with = "boards::send")] pub Counts);

/// Times and addresses.
#[derive(Serialize, Deserialize)]
pub struct Contact {
    pub wait: Duration,
    pub from: IpAddr,
    pub four: Option<Ipv4Addr>,
    pub six: Vec<Ipv6Addr>,
}

/// The same in a buffer.
#[derive(Serialize, Deserialize)]
#[serde(untagged)]
pub enum Whereabouts {
    At(IpAddr),
    After(Duration),
    Near(Ipv4Addr, u8),
    Named(String),
}

/// The same next to a tag.
#[derive(Serialize, Deserialize)]
#[serde(tag = "kind")]
pub enum Visit {
    Short { wait: Duration, by: Ipv4Addr },
    Long { by: IpAddr },
}
