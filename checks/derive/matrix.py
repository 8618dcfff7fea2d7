"""Types of every sort and size that `tools/derive` covers, as files of Rust declarations: one file a
type, of which the last item is the one that is tried.

  python3 checks/derive/matrix.py        prints the names of all types
  python3 checks/derive/matrix.py NAME   prints the declarations of one
"""
import re
import sys
from itertools import cycle, islice
from typing import Dict, List

ALL, BOTH, SENT, READ = (f"#[derive({d})]" for d in (
    "PartialEq, Eq, Serialize, Deserialize", "Serialize, Deserialize", "Serialize", "Deserialize"))
LEAVES = "bool char () String u8 u16 u32 u64 u128 usize i8 i16 i32 i64 i128 isize".split()
MIXED = ["String", "u8", "Option<u8>", "bool", "i32", "Vec<u8>", "char", "u64"]
HELD = ["Option<u8>", "Option<String>", "Option<Vec<u8>>", "Vec<String>", "Vec<i32>", "Vec<Option<bool>>", "Vec<Vec<u8>>",
        "Box<u8>", "Box<String>", "Option<Box<i32>>", "BTreeMap<String, u8>", "BTreeMap<u8, String>", "BTreeMap<i32, bool>",
        "BTreeMap<char, u8>", "BTreeMap<String, Vec<u8>>", "(u8,)", "(u8, String)", "(u8, i32, bool)", "(u8, u8, u8, u8)",
        "Vec<(i32, i32)>", "BTreeMap<String, (u8, bool)>", "((u8, u8), (u8, String))", "Option<(u8, u8)>", "Box<(u8, u8)>",
        "Vec<Own>", "Option<Own>", "Box<Own>", "BTreeMap<String, Own>", "(Own, u8)", "Deep", "Vec<Deep>", "Option<Vec<Deeper>>"]
KEY = f"{ALL.replace('derive(', 'derive(PartialOrd, Ord, Hash, ')}\npub enum Key {{ A, B(u8) }}\n\n"
LENGTHS, BORROWED_TEXT = [1, 9, 10, 20, 40], "&'a str"
WORDS = ["name", "codes", "data", "record", "variants", "tree", "kind", "gives", "refusal", "result", "now", "entry", "open",
         "module", "elim", "tag", "fields", "alloc", "names", "refl", "script", "value", "parts", "serializer", "variant"]
COLLECTED = ["BTreeSet<String>", "BTreeSet<u8>", "BTreeSet<Key>", "HashMap<String, u8>", "HashMap<Key, Vec<u8>>", "HashSet<i32>",
             "HashSet<String>", "VecDeque<u8>", "PathBuf", "BTreeMap<PathBuf, u8>", "HashSet<PathBuf>", "Rc<String>", "Arc<Option<u8>>",
             "Option<BTreeSet<char>>", "HashMap<u64, HashMap<char, (u8, i8)>>", "Vec<HashSet<Key>>", "Box<str>"]
OWN = (f"{ALL}\npub struct Own {{ pub a: u8, pub b: String }}\n\n{ALL}\npub enum Deeper {{ A, B(Own) }}\n\n"
       f"{ALL}\npub struct Deep {{ pub own: Own, pub deeper: Vec<Deeper> }}\n\n")
CASES = ["lowercase", "UPPERCASE", "PascalCase", "camelCase", "snake_case", "SCREAMING_SNAKE_CASE", "kebab-case",
         "SCREAMING-KEBAB-CASE"]


def word(length: int, number: int = 0) -> str:
    """A name of so many letters, another for each number."""
    letters = "abcdefghijklmnopqrstuvwxyz"
    return (letters[number % 26] + letters[number // 26] * (length > 1) + letters * 2)[:length]


def named(types: List[str], length: int = 0) -> str:
    """Fields by name; where a length is given, with names of so many letters."""
    return "{ " + ", ".join(f"pub {word(length, i) if length else f'f{i}'}: {t}" for i, t in enumerate(types)) + " }"


def held(types: List[str], style: str) -> str:
    """What a variant holds, by name or by place."""
    if not types:
        return ""
    return " " + named(types).replace("pub ", "") if style == "named" else f"({', '.join(types)})"


def structs() -> Dict[str, str]:
    """Structs by count of fields, by name and by place."""
    made = {}
    for count in (1, 2, 3, 6, 8, 9, 12, 20, 40):
        for sort, kinds in (("mixed", MIXED), ("text", ["String"]), ("byte", ["u8"])):
            types = list(islice(cycle(kinds), count))
            made[f"struct_{sort}_{count}"] = f"{ALL}\npub struct Tried {named(types)}"
            made[f"place_{sort}_{count}"] = f"{ALL}\npub struct Tried({', '.join('pub ' + t for t in types)});"
        types = list(islice(cycle(MIXED), count))
        made[f"closed_{count}"] = f"{BOTH}\n#[serde(deny_unknown_fields)]\npub struct Tried {named(types)}"
        made[f"sent_{count}"] = f"{SENT}\npub struct Tried {named(types)}"
        made[f"read_{count}"] = f"{READ}\npub struct Tried {named(types)}"
    made["unit"] = f"{ALL}\npub struct Tried;"
    return made


def enums() -> Dict[str, str]:
    """Enums by count of variants, by how they are tagged and by what the variants hold."""
    tags = {"external": "", "internal": '#[serde(tag = "kind")]\n', "adjacent": '#[serde(tag = "kind", content = "of")]\n'}
    holds = {"units": [([], "named")], "one": [(["u8"], "place")], "two": [(["u8", "String"], "place")],
             "fields": [(["i32", "u8", "String"], "named")],
             "mixed": [([], "named"), (["String"], "place"), (["u8", "bool"], "place"), (["i32", "u8", "String"], "named")]}
    made = {}
    for count in (1, 2, 4, 8, 20):
        for tag, line in tags.items():
            for sort, kinds in holds.items():
                kinds = [([], style) if tag == "internal" and style == "place" else (types, style) for types, style in kinds]
                if not any(types for types, _ in kinds) and sort != "units":
                    continue
                body = ", ".join(f"V{i}{held(*kinds[i % len(kinds)])}" for i in range(count))
                made[f"{tag}_{sort}_{count}"] = f"{ALL}\n{line}pub enum Tried {{ {body} }}"
    for count in (3, 6, 8, 9, 12, 20):
        types = list(islice(cycle(MIXED), count))
        made[f"external_big_{count}"] = f"{ALL}\npub enum Tried {{ A, B{held(types, 'named')}, C{held(types[:8], 'place')} }}"
        made[f"adjacent_big_{count}"] = (f'{ALL}\n#[serde(tag = "kind", content = "of")]\npub enum Tried {{ A, B{held(types, "named")},'
                                         f' C{held(types[:4], "place")} }}')
        made[f"internal_big_{count}"] = f'{ALL}\n#[serde(tag = "kind")]\npub enum Tried {{ A, B{held(types, "named")} }}'
    adjacent = f'{ALL}\n#[serde(tag = "t", content = "c")]\npub enum Tried'
    made["adjacent_held_9"] = (f"{ALL}\npub enum Other {{ A(u8), B {{ x: bool }} }}\n\n{adjacent} {{ V0(Other, u8),"
                               " V1 { x: Vec<Other>, y: u8 }, V2(Other), V3, V4, V5, V6, V7, V8(u8, bool) }")
    made["adjacent_wide_7"] = (f"{adjacent} {{ V0(Option<u8>, u8, Rc<isize>, BTreeSet<u8>), V1 {{ f0: (BTreeMap<char, String>,"
                               " HashMap<char, String>, i16, Option<isize>), f1: u64, f2: u32, f3: [Vec<u8>; 1], f4: (BTreeSet<PathBuf>,"
                               " u8, Rc<i64>) }, V2, V3 { x: bool }, V4, V5(usize), V6 { x: Box<HashMap<u64, i8>> } }")
    untagged = ["bool", "i64", "String", "Vec<u8>", "()", "BTreeMap<String, u8>"]
    for count in (1, 2, 4, 6):
        body = ", ".join(f"V{i}({t})" for i, t in enumerate(untagged[:count]))
        made[f"untagged_{count}"] = f"{ALL}\n#[serde(untagged)]\npub enum Tried {{ {body} }}"
    for sort, body in (("alone", "Null"), ("first", "Null, Number(i64), Text(String)"), ("last", "Pair(u8, String), Null"),
                       ("among", "A(u8), B(bool), C(char), Null, D(String), E(i32, u8)")):
        made[f"untagged_unit_{sort}"] = f"{ALL}\n#[serde(untagged)]\npub enum Tried {{ {body} }}"
    made["untagged_unit_named"] = f"{BOTH}\n#[serde(untagged)]\npub enum Tried {{ A {{ x: u8 }}, Null, B(String) }}"
    for count in (5, 9):
        made[f"untagged_named_{count}"] = f"{BOTH}\n#[serde(untagged)]\npub enum Tried {{ A{held(list(islice(cycle(MIXED), count)), 'named')}, B(String) }}"
    made["untagged_places"] = f"{BOTH}\n#[serde(untagged)]\npub enum Tried {{ A(u8, String), B(bool, i32, u8), C(String) }}"
    return made


def names() -> Dict[str, str]:
    """Types, variants, fields and tags with names of each length, and with words of the prover."""
    made = {}
    for length in LENGTHS:
        long = word(length).capitalize()
        variants = ", ".join(word(length, i).capitalize() + hold for i, hold in enumerate(
            ["", "(u8)", "(String, u8)", " { x: i32, y: u8, z: String }"]))
        fields = named(MIXED[:6], length)
        made[f"name_of_struct_{length}"] = f"{ALL}\npub struct {long} {named(MIXED[:3])}"
        made[f"name_of_enum_{length}"] = f"{ALL}\npub enum {long} {{ A, B(u8), C {{ x: u8, y: i32, z: String }} }}"
        made[f"names_of_fields_{length}"] = f"{ALL}\npub struct Tried {fields}"
        made[f"names_of_variants_{length}"] = f"{ALL}\npub enum Tried {{ {variants} }}"
        made[f"names_of_units_{length}"] = f"{ALL}\npub enum Tried {{ {', '.join(word(length, i).capitalize() for i in range(4))} }}"
        made[f"name_of_tag_{length}"] = (f'{ALL}\n#[serde(tag = "{word(length)}")]\npub enum Tried'
                                         f" {{ A, B {{ f0: u8, f1: i32, f2: String }} }}")
        made[f"name_of_content_{length}"] = (f'{ALL}\n#[serde(tag = "t", content = "{word(length)}")]\npub enum Tried'
                                             " { A, B(u8), C(String) }")
        made[f"untagged_name_{length}"] = f"{ALL}\n#[serde(untagged)]\npub enum {long} {{ A(u8), B(String) }}"
    for one in WORDS:
        made[f"word_{one}"] = (f"{ALL}\npub struct Tried {{ pub {one}: u8, pub other: i32 }}\n")
        made[f"word_in_variant_{one}"] = f"{ALL}\npub enum Tried {{ A {{ {one}: i32, other: u8 }}, B({'u8'}) }}"
    for case in CASES:
        made[f"case_{case.replace('-', '_')}_of_{'low' if case[0].islower() else 'up'}"] = (
            f'{ALL}\n#[serde(rename_all = "{case}")]\npub struct Tried {{ pub first_name: u8, pub second_long_name: String }}')
        made[f"case_of_variants_{case.replace('-', '_')}_{'low' if case[0].islower() else 'up'}"] = (
            f'{ALL}\n#[serde(rename_all = "{case}")]\npub enum Tried {{ FirstName, SecondLongName(u8), Third }}')
    return made


def types() -> Dict[str, str]:
    """Fields of each type that is covered, alone and beside others, sent alone, and own types three deep."""
    made = {}
    for place, one in enumerate(LEAVES + HELD):
        made[f"type_{place}"] = f"{ALL}\npub struct Tried {{ pub only: {one} }}"
        made[f"type_in_variant_{place}"] = f"{ALL}\npub enum Tried {{ A({one}), B {{ x: {one}, y: u8 }} }}"
        if place >= len(LEAVES):
            made[f"type_by_place_{place}"] = f"{ALL}\npub struct Tried(pub {one}, pub u8);"
    made["flat"] = f"{ALL}\npub struct Tried {{ pub x: u8, #[serde(flatten)] pub own: Own, pub y: Option<u8> }}"
    made["flat_twice"] = (f"{ALL}\npub struct More {named(['u8', 'String', 'bool', 'i32', 'u64'])}\n\n"
                          f"{ALL}\npub struct Tried {{ #[serde(flatten)] pub own: Own, pub x: u8, #[serde(flatten)] pub more: More }}")
    made["beside_tag"] = f'{ALL}\n#[serde(tag = "kind")]\npub enum Tried {{ A(Own), B {{ x: i32 }}, C }}'
    span = "pub struct Span { pub lo: u32, pub hi: u32 }\n\n"
    for sort, derives in (("sent", SENT), ("copied", SENT.replace("(", "(Clone, Copy, Debug, Eq, PartialEq, ")), ("all", ALL)):
        made[f"struct_in_variant_{sort}"] = f"{derives}\n{span}{ALL if sort == 'all' else SENT}\npub enum Tried {{ A(String, Span), B }}"
    made["defaults"] = (f"{ALL}\npub struct Tried {{ #[serde(default)] pub a: u8, #[serde(default)] pub b: String,"
                        " #[serde(default)] pub c: Vec<u8>, #[serde(default)] pub d: BTreeMap<String, u8> }")
    made["renamed"] = (f'{ALL}\npub struct Tried {{ #[serde(rename = "a b-c")] pub a: u8, #[serde(rename = "\'{{}}")] pub b: i32 }}')
    return made


def collections() -> Dict[str, str]:
    """Fields of the other collections, of paths and of what several own, also left out, missing and among alternatives."""
    made = {}
    for place, one in enumerate(COLLECTED):
        made[f"collected_{place}"] = f"{KEY * ('Key' in one)}{ALL}\npub struct Tried {{ pub only: {one}, pub y: u8 }}"
        made[f"collected_in_variant_{place}"] = f"{KEY * ('Key' in one)}{ALL}\npub enum Tried {{ A({one}), B {{ x: {one}, y: u8 }} }}"
    for place, one in enumerate(["HashMap<String, u8>", "Arc<HashMap<PathBuf, HashSet<String>>>"]):
        made[f"collected_alone_{place}"] = f"{ALL}\npub enum Tried {{ A({one}) }}"
    for place, one in enumerate(["Vec<HashMap<u8, i8>>", "BTreeMap<u8, HashSet<u8>>"]):
        made[f"collected_default_{place}"] = f"{ALL}\npub struct Tried {{ #[serde(default)] pub x: {one}, pub y: u8 }}"
    for place, held_in in enumerate(["x: u8, #[serde(default)] y: HashMap<u8, HashSet<u8>>",
                                     "x: u8, #[serde(skip_deserializing)] z: HashSet<u8>, #[serde(default)] y: HashMap<u8, u8>"]):
        made[f"collected_default_in_variant_{place}"] = f"{READ}\npub enum Tried {{ A {{ {held_in} }}, B(u8) }}"
    for place, held_in in enumerate(["u8, char, i64, PathBuf, BTreeSet<String>", "(String, isize), char, i64, PathBuf"]):
        made[f"collected_by_place_{place}"] = f"{READ}\npub struct Tried({held_in});"
    made["collected_paths_by_place"] = f"{ALL}\npub struct Tried(pub PathBuf, pub Option<PathBuf>, pub u8);"
    for place, (one, empty) in enumerate([("BTreeSet<String>", "BTreeSet"), ("HashMap<String, u8>", "HashMap"), ("HashSet<u8>", "HashSet"),
                                          ("VecDeque<u8>", "VecDeque")]):
        made[f"collected_skipped_{place}"] = (f'{ALL}\npub struct Tried {{ #[serde(default, skip_serializing_if = "{empty}::is_empty")]'
                                              f" pub x: {one}, #[serde(default)] pub y: PathBuf }}")
        made[f"collected_untagged_{place}"] = f"{ALL}\n#[serde(untagged)]\npub enum Tried {{ A({one}), B(PathBuf), C(u8) }}"
    return made


def attributes() -> Dict[str, str]:
    """Fields that are left out where they are empty, or are read as a default; structs that are sent as their one field."""
    made = {}
    empty = [(name, f'#[serde(default, skip_serializing_if = "{name.split("<")[0]}::is_empty")] ')
             for name in ("Vec<u8>", "String", "BTreeSet<String>")]
    kinds = [("Option<String>", '#[serde(skip_serializing_if = "Option::is_none")] '), *empty, ("i32", ""), ("u8", "")]
    for count in (1, 2, 4, 6, 9, 12, 24):
        public, inner = (", ".join(f"{attribute}{visible}f{i}: {one}" for i, (one, attribute) in enumerate(islice(cycle(kinds), count)))
                         for visible in ("pub ", ""))
        made[f"skipped_{count}"] = f"{ALL}\npub struct Tried {{ {public} }}"
        made[f"skipped_closed_{count}"] = f"{BOTH}\n#[serde(deny_unknown_fields)]\npub struct Tried {{ {public} }}"
        made[f"skipped_in_variant_{count}"] = f"{ALL}\npub enum Tried {{ A {{ {inner} }}, B(u8) }}"
        made[f"skipped_in_content_{count}"] = (f'{ALL}\n#[serde(tag = "kind", content = "of", deny_unknown_fields)]\npub enum Tried'
                                               f" {{ A {{ {inner} }}, B }}")
        made[f"skipped_beside_tag_{count}"] = f'{ALL}\n#[serde(tag = "kind")]\npub enum Tried {{ A {{ {inner} }}, B }}'
    made["skipped_lost"] = f'{ALL}\npub struct Tried {{ pub x: u8, #[serde(skip_serializing_if = "Vec::is_empty")] pub y: Vec<u8> }}'
    default = ALL.replace("derive(", "derive(Default, ")
    inside = f"{default}\npub struct Inside {{ pub x: u8, pub y: Option<i32> }}\n\n{default}\npub enum Level {{ #[default] Low, High(u8) }}\n\n"
    kinds = ["u8", "String", "Inside", "Level", "Vec<u8>", "i32", "BTreeMap<String, u8>", "Option<bool>"]
    for count in (1, 3, 4, 8, 12):
        made[f"default_whole_{count}"] = (f"{inside}{default}\n#[serde(default)]\npub struct Tried"
                                          f" {named(list(islice(cycle(kinds), count)))}")
    made["default_own"] = f"{inside}{ALL}\npub struct Tried {{ #[serde(default)] pub a: Inside, #[serde(default)] pub b: Level }}"
    made["default_alone"] = (f"{inside}{default}\npub struct Tried {{ pub a: char, pub b: (u8, String), pub c: (), pub d: Inside,"
                             " pub e: Option<Box<u8>>, pub f: (Level,) }")
    made["default_left_out"] = f"{default}\npub struct Tried {{ pub a: String, pub b: Box<u8> }}"
    made["default_of_one_value"] = (f"{ALL}\npub enum Listed {{ List(Vec<String>), Map(BTreeMap<String, u8>), Off }}\n\n"
                                    "impl Default for Listed { fn default() -> Self { Self::List(Vec::new()) } }\n\n"
                                    f"{ALL}\npub struct Kept {{ pub x: i32, pub y: Option<String> }}\n\n"
                                    "impl Default for Kept { fn default() -> Self { Kept { x: -5, y: None } } }\n\n"
                                    f"{default}\npub struct Tried {{ #[serde(default)] pub listed: Listed, pub kept: Kept }}")
    made["default_of_kinds"] = (f"{ALL}\npub struct Tried {{ #[serde(default)] pub a: char, #[serde(default)] pub b: (u8, String),"
                                " #[serde(default)] pub c: ((), Vec<u8>, i8) }")
    for place, one in enumerate(["u64", "String", "Option<i32>", "Vec<String>", "(u8, String)", "BTreeMap<String, u8>", "Own"]):
        made[f"transparent_{place}"] = f"{ALL}\n#[serde(transparent)]\npub struct Tried(pub {one});"
    made["transparent_named"] = f"{ALL}\n#[serde(transparent)]\npub struct Tried {{ pub only: Box<Own> }}"
    skipped = 'pub x: String, #[serde(skip)] pub y: f64, #[serde(skip, default = "five")] pub z: i32, #[serde(skip)] pub w: PathBuf'
    made["transparent_skipped"] = f"{BOTH}\n#[serde(transparent)]\npub struct Tried {{ {skipped} }}\n\nfn five() -> i32 {{ 5 }}"
    made["transparent_skipped_place"] = f"{ALL}\n#[serde(transparent)]\npub struct Tried(#[serde(skip)] pub Option<u8>, pub Vec<Own>);"
    made["transparent_two_ways"] = (f"{ALL}\n#[serde(transparent)]\npub struct Tried(#[serde(skip_deserializing)] pub String,"
                                    " #[serde(skip_serializing)] pub (u8, bool));")
    made["transparent_with"] = (f'{ALL}\n#[serde(transparent)]\npub struct Tried(#[serde(with = "crate::rules")] pub bool,'
                                " #[serde(skip)] pub Vec<u8>);")
    made["transparent_with_one"] = (f'{ALL}\n#[serde(transparent)]\npub struct Tried {{ #[serde(serialize_with ='
                                    ' "crate::rules::serialize")] pub only: bool }')
    return made


def own_rules() -> Dict[str, str]:
    """Fields with values and tests of the user's functions, and those with other names, also of variants."""
    made = {}
    functions = ("\n\nfn yes() -> bool { true }\n\nfn five() -> i32 { -5 }\n\nfn port() -> u16 { 8_080 }\n\nfn text() -> String {"
                 " \"plain\".to_owned() }\n\nfn is_port(n: &u16) -> bool { *n == port() }\n\nfn is_on(on: &bool) -> bool { *on }")
    values = [('default = "yes"', "bool"), ('default = "port", skip_serializing_if = "is_port"', "u16"), ('default = "text"', "String"),
              ('default = "five"', "i32"), ('default = "yes", skip_serializing_if = "is_on"', "bool")]
    for count in (1, 2, 5, 9, 12):
        fields = ", ".join(f"#[serde({said})] pub f{i}: {one}" for i, (said, one) in enumerate(islice(cycle(values), count)))
        made[f"own_defaults_{count}"] = f"{ALL}\npub struct Tried {{ {fields} }}{functions}"
        made[f"own_defaults_in_variant_{count}"] = f"{ALL}\npub enum Tried {{ A {{ {fields.replace('pub ', '')} }}, B }}{functions}"
    for count in (1, 2, 4, 8):
        variants = ", ".join(f'#[serde(alias = "a{i}", alias = "b{i}")] V{i}{held(types, style)}' for i, (types, style) in enumerate(
            islice(cycle([([], ""), (["u8"], "place"), (["i32", "u8"], "named")]), count)))
        made[f"aliases_{count}"] = f"{ALL}\npub enum Tried {{ {variants} }}"
        made[f"other_{count}"] = f"{ALL}\npub enum Tried {{ {variants}, #[serde(other)] Other }}"
        for sort, tagged in (("adjacent", 'tag = "t", content = "c"'), ("internal", 'tag = "t"')):
            kept = variants if sort == "adjacent" else variants.replace("(u8)", "")
            made[f"aliases_{sort}_{count}"] = f"{ALL}\n#[serde({tagged})]\npub enum Tried {{ {kept} }}"
            made[f"other_{sort}_{count}"] = f"{ALL}\n#[serde({tagged})]\npub enum Tried {{ {kept}, #[serde(other)] Other }}"
        fields = ", ".join(f'#[serde(alias = "a{i}", alias = "b{i}"{said})] pub f{i}: {one}' for i, (said, one) in enumerate(
            islice(cycle([("", "u8"), (", default", "String"), (', default = "five"', "i32"), ("", "Option<u8>")]), count)))
        made[f"aliased_{count}"] = f"{ALL}\npub struct Tried {{ {fields} }}{functions}"
    made["default_by_hand"] = (f"{ALL}\n#[serde(default)]\npub struct Tried {{ pub a: u8, pub b: String }}\n\nimpl Default for Tried {{"
                               " fn default() -> Self { Self { a: 5, b: String::new() } } }")
    made["two_ways"] = (f'{ALL}\n#[serde(rename_all(serialize = "camelCase", deserialize = "kebab-case"))]\npub struct Tried {{ pub first_name:'
                        ' u8, #[serde(rename(deserialize = "other"))] pub second_name: String }')
    made["two_ways_of_variants"] = (f'{ALL}\npub enum Tried {{ #[serde(rename(serialize = "a", deserialize = "b"))] A(u8),'
                                    ' #[serde(rename(serialize = "c"))] B { x: u8, y: i32 }, C }')
    made["own_variants"] = (f'{ALL}\npub enum Level {{ Low, High }}\n\n{ALL}\npub struct Tried {{ #[serde(default = "Level::usual",'
                            ' skip_serializing_if = "Level::is_usual")] pub level: Level, pub x: u8 }\n\nimpl Level { fn usual() -> Level {'
                            " Self::High } fn is_usual(&self) -> bool { *self == Level::High } }")
    made["called"] = (f'{ALL}\npub struct Tried {{ #[serde(default = "crate::rules::port", skip_serializing_if = "crate::rules::is_port")]'
                      ' pub port: u16, #[serde(default = "crate::rules::name")] pub name: String, #[serde(default, skip_serializing_if ='
                      ' "crate::rules::is_plain")] pub text: String }')
    made["called_in_variant"] = (f'{ALL}\npub enum Tried {{ A {{ #[serde(default = "crate::rules::port", skip_serializing_if ='
                                 ' "crate::rules::is_port")] port: u16, x: i8 }, B }')
    made["raw"] = f"{ALL}\npub struct Tried {{ pub r#type: u8, pub r#match: i32 }}"
    return made


def with_functions() -> Dict[str, str]:
    """Fields that functions of the user's send or read, beside each attribute, and wherever a field may be."""
    reads, sends, both = 'deserialize_with = "crate::rules::deserialize"', 'serialize_with = "crate::rules::serialize"', 'with = "crate::rules"'
    text = 'deserialize_with = "crate::rules::read_text", serialize_with = "crate::rules::send_text"'
    some = f'{text}, default, skip_serializing_if = "Option::is_none"'
    places = ', default, skip_serializing_if = "Option::is_none"'
    inside = f"{ALL}\npub struct Inside {{ #[serde({both})] pub a: bool, pub b: i32 }}\n\n"
    made = {}
    for sort, said, one in (
            ("read", reads, "bool"), ("sent", sends, "bool"), ("both", both, "bool"), ("optional", text, "Option<String>"),
            ("default", f"{both}, default", "bool"), ("default_text", f"{text}, default", "Option<String>"), ("skipped", some, "Option<String>"),
            ("default_own", f'{both}, default = "yes"', "bool"), ("test", f'{both}, skip_serializing_if = "std::ops::Not::not"', "bool"),
            ("alias", f'{both}, alias = "a", alias = "b"', "bool"), ("alias_default", f'{both}, alias = "a", default', "bool"),
            ("unread", f"{sends}, skip_deserializing", "bool"), ("unsent", f"{reads}, skip_serializing", "bool")):
        functions = "\n\nfn yes() -> bool { true }" * ("yes" in said)
        made[f"with_{sort}"] = f"{ALL}\npub struct Tried {{ pub x: u8, #[serde({said})] pub y: {one}, pub z: i32 }}{functions}"
    kinds = [("", "u8"), (both, "bool"), ("", "String"), ("", "i32"), (some, "Option<String>"), ("", "Vec<u8>"), ("", "char")]
    for count in (2, 5, 9, 12, 24):
        public, inner = (", ".join(f"{f'#[serde({said})] ' * bool(said)}{visible}f{i}: {one}" for i, (said, one) in enumerate(
            islice(cycle(kinds), count))) for visible in ("pub ", ""))
        made[f"with_{count}"] = f"{ALL}\npub struct Tried {{ {public} }}"
        for sort, tag in (("variant", ""), ("internal", 'tag = "kind"'), ("adjacent", 'tag = "kind", content = "of"')):
            made[f"with_in_{sort}_{count}"] = f"{ALL}\n{f'#[serde({tag})]{chr(10)}' * bool(tag)}pub enum Tried {{ A {{ {inner} }}, B }}"
        by_place = ", ".join(f"{f'#[serde({said})] '.replace(places, '') * bool(said)}{one}" for said, one in islice(cycle(kinds), count))
        made[f"with_place_{count}"] = f"{ALL}\npub struct Tried({by_place});"
        made[f"with_place_in_variant_{count}"] = f"{ALL}\npub enum Tried {{ A({by_place}), B }}"
    made["with_place"] = f"{ALL}\npub struct Tried(#[serde({both})] pub bool);"
    made["with_place_in_variant"] = (f"{ALL}\npub enum Tried {{ A(#[serde({both})] bool), B(#[serde({reads})] bool, i32), C(#[serde({sends})] bool),"
                                     f" D(#[serde(skip)] String, #[serde({both})] bool, #[serde(skip, {both})] u8) }}")
    made["with_in_untagged"] = f"{ALL}\n#[serde(untagged)]\npub enum Tried {{ A {{ x: u8, #[serde({both})] y: bool }}, B }}"
    made["with_closed"] = f"{BOTH}\n#[serde(deny_unknown_fields)]\npub struct Tried {{ pub x: u8, #[serde({both})] pub y: bool }}"
    made["with_flat"] = f"{inside}{ALL}\npub struct Tried {{ pub x: u8, #[serde(flatten)] pub inside: Inside, #[serde({some})] pub y: Option<String> }}"
    made["with_spread"] = f"{inside}{SENT}\npub struct Tried {{ pub x: u8, #[serde(flatten)] pub inside: Option<Inside> }}"
    made["with_rest"] = f"{BOTH}\npub struct Tried {{ #[serde({both})] pub x: bool, #[serde(flatten)] pub more: BTreeMap<String, u8> }}"
    made["with_beside"] = f'{inside}{ALL}\n#[serde(tag = "kind")]\npub enum Tried {{ A(Inside), B }}'
    made["with_held"] = f"{inside}{ALL}\npub struct Tried {{ pub inside: Inside, pub more: Vec<Inside> }}"
    made["with_borrowed"] = f"{SENT}\npub struct Tried<'a> {{ pub x: &'a str, #[serde({sends})] pub y: bool }}"
    return made


def opaque() -> Dict[str, str]:
    """Fields of types that are not covered, which are neither sent nor read."""
    skips = ["Option<std::time::Instant>", "std::cell::RefCell<u8>", "Vec<std::time::Duration>", "[f64; 4]",
             "(u8, u8, u8, u8, f64)", "HashMap<Vec<u8>, std::time::Instant>", "Option<crate::rules::Cache<u8>>", "crate::rules::Cache<String>"]
    held_in = [f"#[serde(skip)] pub f{i}: {one}" for i, one in enumerate(skips)]
    held_in.append('#[serde(skip, default = "crate::rules::pause")] pub g: std::time::Duration')
    plain = ["std::sync::atomic::AtomicU8", "std::cell::OnceCell<String>", "std::cell::Cell<i32>", "std::sync::OnceLock<u8>",
             "Option<std::cmp::Ordering>", "Vec<std::num::Wrapping<u8>>", "Option<Result<u8, std::convert::Infallible>>",
             "Option<std::ops::Range<u8>>", "Option<std::collections::LinkedList<u8>>", "Option<std::net::IpAddr>",
             "std::sync::Mutex<u8>", "Option<std::fs::File>"]
    made = {f"opaque_skipped_{i}": f"{BOTH}\npub struct Tried {{ pub x: u8, #[serde(skip)] pub y: {one}, pub z: String }}"
            for i, one in enumerate(skips + plain)}
    made["opaque_skipped_all"] = f"{BOTH}\npub struct Tried {{ pub x: u8, {', '.join(held_in)} }}"
    made["opaque_default"] = (f"{BOTH.replace('(', '(Default, ')}\npub struct Inside {{ pub x: String, #[serde(skip)] pub of: PhantomData<u8>,"
                              f" #[serde(skip)] pub y: std::cell::Cell<u8> }}\n\n{BOTH}\npub struct Tried {{ #[serde(default)] pub a: Inside,"
                              " #[serde(skip)] pub b: Inside }")
    inner = ", ".join(one.replace("pub ", "") for one in held_in if not re.search(r"HashMap|\[f64", one))
    for sort, tag in (("variant", ""), ("internal", 'tag = "kind"'), ("adjacent", 'tag = "kind", content = "of"'), ("untagged", "untagged")):
        made[f"opaque_in_{sort}"] = f"{BOTH}\n{f'#[serde({tag})]{chr(10)}' * bool(tag)}pub enum Tried {{ A {{ x: i8, {inner} }}, B(u8) }}".replace(
            ", B(u8)", ", B" if sort == "internal" else ", B(u8)")
    return made


def crowded() -> Dict[str, str]:
    """Variants of values of many types, or beside values that aren't read or sent."""
    some = "a: (String,), b: Box<i128>, {} c: [i64; 3], d: i16"
    skipped = ["#[serde(skip)] e: u8,", "#[serde(skip)] e: String,", "#[serde(skip_deserializing)] e: Option<i64>, #[serde(skip)] f: u8,",
               "#[serde(skip)] e: u8, #[serde(skip)] f: i8, #[serde(skip)] g: String, #[serde(skip)] h: Vec<u8>,"]
    made = {f"crowded_skipped_{i}": f"{BOTH}\npub enum Tried {{ A {{ {some.format(one)} }}, B, C(u8) }}" for i, one in enumerate(skipped)}
    made["crowded_skipped_place"] = f"{BOTH}\npub enum Tried {{ A(#[serde(skip)] u8, #[serde(skip)] i32, #[serde(skip)] String, String, i16), B }}"
    made["crowded_skipped_number"] = f"{BOTH}\npub enum Tried {{ A {{ a: String, #[serde(skip)] b: i64, c: String, d: u64, e: Vec<i32> }}, B }}"
    made["crowded_numbers"] = f"{ALL}\npub enum Tried {{ A {{ a: Box<str>, b: Arc<i64>, c: PathBuf, d: u64, e: VecDeque<i32> }}, B }}"
    wide = "(Vec<i128>, Box<String>, Option<BTreeMap<String, isize>>, u64)"
    made["crowded_skipped_wide"] = f"{BOTH}\npub enum Tried {{ A {{ a: String, #[serde(skip)] b: String, c: {wide}, d: Vec<u8> }}, B }}"
    hashed = "(u64, Vec<isize>, HashMap<u64, Option<()>>)"
    made["crowded_wide"] = f"{ALL}\npub enum Tried {{ A {{ a: i128, b: {hashed}, c: bool, d: u32 }} }}"
    made["crowded_wide_place"] = f"{ALL}\npub enum Tried {{ A(i128, {hashed}, bool, u32), B(String) }}"
    made["crowded_unread"] = f"{BOTH}\npub enum Tried {{ A {{ {', '.join(f'#[serde(skip)] f{i}: u8' for i in range(6))} }}, B }}"
    made["hashed_in_variant"] = (f"{ALL}\npub enum Tried {{ A(bool, VecDeque<Option<Rc<i64>>>), B {{ a: String, b: i64, c: i64, d: u32 }},"
                                 " C(BTreeMap<i32, u16>), D { a: HashMap<u8, i64>, b: Option<Box<str>>, c: Option<String> } }")
    made["hashed_beside_tag"] = (f'{ALL}\n#[serde(tag = "kind")]\npub enum Tried {{ A {{ a: HashMap<u8, i64>, b: Option<Box<str>> }}, B,'
                                 " C { a: i64, b: Vec<HashMap<String, u8>> } }")
    made["hashed_place_in_variant"] = f"{ALL}\npub enum Tried {{ A(HashMap<u8, i64>, Option<String>), B(u8, Rc<HashMap<char, bool>>, i8) }}"
    made["crowded_wide_two"] = f"{ALL}\npub enum Tried {{ A {{ a: HashMap<String, (Vec<u64>, BTreeSet<char>, u64)>, b: bool }}, B {{ a: {wide}, b: i8 }} }}"
    return made


def converted() -> Dict[str, str]:
    """Types that are read and sent as others, to which modules by hand convert them."""
    copied, point = ALL.replace("derive(", "derive(Clone, Copy, "), f"{ALL}\npub struct Point {{ pub x: u8, pub y: i32 }}\n\n"
    return {
        "converted_number": f'{copied}\n#[serde(from = "i64", into = "i64")]\npub enum Tried {{ Low, High }}',
        "converted_text": f'{ALL}\n#[serde(from = "String", into = "String")]\npub enum Tried {{ Plain, Named(String, u8) }}',
        "converted_own": f'{point}{ALL}\n#[serde(from = "Point", into = "Point", rename_all = "camelCase")]\npub struct Tried(pub u8, pub i32);',
        "converted_read": f'{BOTH}\n#[serde(from = "(u8, String)", tag = "kind")]\npub enum Tried {{ A {{ a: u8 }}, B {{ b: String }} }}',
        "converted_sent": f'{BOTH.replace("derive(", "derive(Default, ")}\n#[serde(into = "Option<(u8, bool)>", default)]\n'
                          'pub struct Tried { pub a: u8, pub b: Option<String>, #[serde(rename = "d")] pub c: bool }',
        "converted_try_number": f'{copied}\n#[serde(try_from = "i16", into = "i16")]\npub struct Tried {{ pub x: i16 }}',
    }


def flattened() -> Dict[str, str]:
    """Structs with flattened values that aren't inlined, or beside which fields are left out."""
    inside = f"{SENT}\npub struct Inside {{ #[serde(skip_serializing_if = \"Option::is_none\")] pub a: Option<u8>, pub b: String }}\n\n"
    left_out = f"{ALL}\npub struct Inside {{ #[serde(skip_serializing_if = \"Option::is_none\")] pub a: Option<u8>, pub b: String }}\n\n"
    made = {"flat_left_out": (f'{left_out}{ALL}\npub struct Tried {{ #[serde(flatten)] pub inside: Inside, #[serde(default, skip_serializing_if ='
                              ' "Vec::is_empty")] pub x: Vec<u8>, #[serde(default, skip_serializing_if = "is_zero")] pub y: i32 }\n\n'
                              'fn is_zero(n: &i32) -> bool { *n == 0 }'),
            "flat_alone": f"{SENT}\npub struct Tried {{ #[serde(flatten)] pub more: BTreeMap<String, u8> }}",
            "flat_unsent": (f"{SENT}\npub struct Tried {{ pub x: u8, #[serde(flatten, skip_serializing)] pub more: BTreeMap<String, u8>,"
                            " #[serde(flatten, skip)] pub other: Option<String> }"),
            "flat_in_flat": (f"{SENT}\npub struct Inner {{ pub x: u8, #[serde(flatten)] pub more: HashMap<char, i8> }}\n\n{SENT}\npub struct Tried {{"
                             " #[serde(flatten)] pub inner: Inner, #[serde(flatten)] pub again: Option<Inner> }"),
            "flat_generic": (f"{inside}{SENT}\npub struct Tried<T> {{ #[serde(flatten, default)] pub inside: Option<Inside>, pub x: T,"
                             ' #[serde(skip_serializing_if = "Option::is_none")] pub y: Option<T>, #[serde(flatten)] pub more: BTreeMap<String, T> }'),
            "flat_borrowed": (f"{SENT}\npub struct Inside<'a> {{ pub x: &'a str }}\n\n{SENT}\npub struct Tried<'a> {{ pub y: u8, #[serde(flatten)]"
                              " pub inside: Option<Inside<'a>>, #[serde(flatten)] pub more: BTreeMap<String, &'a str> }")}
    for sort, held_in in (("map", "BTreeMap<String, Vec<u8>>"), ("hash_map", "HashMap<u64, i8>"), ("option", "Option<Inside>"),
                          ("box", "Box<Option<Inside>>"), ("map_option", "Option<BTreeMap<String, Inside>>")):
        made[f"flat_{sort}"] = f"{inside * ('Inside' in held_in)}{SENT}\npub struct Tried {{ pub x: i32, #[serde(flatten)] pub y: {held_in}, pub z: u8 }}"
    for sort, head, variants in (
            ("newtype", "", "pub struct Sort(pub BTreeMap<String, u8>);"),
            ("transparent", "#[serde(transparent)]\n", "pub struct Sort { pub only: Option<Inside> }"),
            ("closed", "#[serde(deny_unknown_fields)]\n", "pub struct Sort { pub a: u8, pub b: Inside }"),
            ("untagged", "#[serde(untagged)]\n", "pub enum Sort { A { x: i32, y: String, z: u8 }, B(Inside), C, D(BTreeMap<String, u8>), E { x: u8 } }"),
            ("internal", '#[serde(tag = "kind")]\n', "pub enum Sort { A { x: i32, y: String, z: u8 }, B(Inside), C, D { x: u8 } }"),
            ("adjacent", '#[serde(tag = "kind", content = "of")]\n', "pub enum Sort { A { x: i32, y: String }, B(Inside), C, D(u8, i8), E(Option<u8>) }"),
            ("external", "", "pub enum Sort { A { x: i32, y: String, z: u8 }, B(Inside), C(i8) }"),
            ("big", "#[serde(untagged)]\n", f"pub enum Sort {{ A{held(MIXED, 'named')}, B {{ x: i8 }} }}"),
            ("big_internal", '#[serde(tag = "kind")]\n', f"pub enum Sort {{ A{held(MIXED[:7], 'named')}, B {{ x: i8 }} }}"),
            ("big_struct", "#[serde(deny_unknown_fields)]\n", f"pub struct Sort {named(MIXED)}")):
        made[f"flat_{sort}"] = (f"{inside * ('Inside' in variants)}{SENT}\n{head}{variants}\n\n{SENT}\npub struct Tried {{ pub f: u8,"
                                " #[serde(flatten)] pub sort: Sort, #[serde(flatten)] pub more: Option<Sort> }")
    return made


def one_way() -> Dict[str, str]:
    """Fields and variants that aren't sent, aren't read or neither."""
    made, way = {}, ["skip", "skip_serializing", 'skip, default = "five"', "skip_deserializing"]
    kinds = ["u16", "String", "i32", "Option<u8>", "Vec<u8>", "BTreeMap<String, u8>", "i32", "u64"]
    functions = "\n\nfn five() -> i32 { 5 }"
    for count in (1, 2, 4, 5, 9, 12):
        fields = [(f"#[serde({said})] ", one) for said, one in islice(zip(cycle(way), cycle(kinds)), count)]
        public, inner = (", ".join(f"{visible}k{i}: {MIXED[i % 8]}, {said}{visible}f{i}: {one}" for i, (said, one) in enumerate(fields))
                         for visible in ("pub ", ""))
        made[f"unsent_{count}"] = f"{ALL}\npub struct Tried {{ {public} }}{functions}"
        made[f"unsent_closed_{count}"] = f"{BOTH}\n#[serde(deny_unknown_fields)]\npub struct Tried {{ {public} }}{functions}"
        made[f"unsent_in_variant_{count}"] = f"{ALL}\npub enum Tried {{ A {{ {inner} }}, B(u8) }}{functions}"
        made[f"unsent_beside_tag_{count}"] = f'{ALL}\n#[serde(tag = "kind")]\npub enum Tried {{ A {{ {inner} }}, B }}{functions}'
        by_place = ", ".join(f"{MIXED[i % 8]}, {said}{one}" for i, (said, one) in enumerate(fields))
        made[f"unsent_place_{count}"] = f"{ALL}\npub struct Tried({by_place});{functions}"
        made[f"unsent_place_in_variant_{count}"] = f"{ALL}\npub enum Tried {{ A({by_place}), B(u8) }}{functions}"
    for count in (1, 2, 4, 8):
        for sort, tag in (("variants", ""), ("variants_internal", 'tag = "kind"'), ("variants_adjacent", 'tag = "kind", content = "of"')):
            held_by = " { x: i32 }" if sort == "variants_internal" else "(i32)"
            variants = ", ".join(f"#[serde({said})] V{i}{hold}" for i, (said, hold) in enumerate(
                islice(zip(cycle(way[:2] + way[3:]), cycle([held_by, "", held_by, held_by])), count)))
            made[f"unsent_{sort}_{count}"] = f"{ALL}\n{f'#[serde({tag})]{chr(10)}' * bool(tag)}pub enum Tried {{ A{held_by}, {variants} }}"
    unread = "#[serde(skip_deserializing)] "
    made["unsent_variant_of_maps"] = f"{ALL}\npub enum Tried {{ A, B({unread}BTreeMap<u8, HashMap<u8, i8>>, u8) }}"
    made["unsent_field_of_maps"] = f"{ALL}\npub enum Tried {{ A, B {{ {unread}x: BTreeMap<u8, HashMap<u8, i8>>, y: u8 }} }}"
    made["unsent_alone"] = f"{SENT}\npub struct Tried {{ #[serde(skip)] pub x: u8 }}"
    made["unsent_all"] = f"{ALL}\npub struct Tried {{ #[serde(skip)] pub x: u8, #[serde(skip_deserializing)] pub y: String }}"
    made["unsent_others"] = (f"{BOTH}\npub struct Tried {{ pub a: u8, #[serde(skip)] pub b: char, #[serde(skip)] pub c: (u8, (String, bool)),"
                             " #[serde(skip)] pub d: f64, #[serde(skip)] pub e: () }")
    made["unsent_variants_untagged"] = (f"{ALL}\n#[serde(untagged)]\npub enum Tried {{ A(u8), #[serde(skip)] B(String), #[serde(skip_serializing)]"
                                        " C { x: u8 }, #[serde(skip_deserializing)] D { y: String }, E(String, u8) }")
    held_by = '(#[serde(with = "crate::rules")] bool, [u8; 3], #[serde(default = "five")] Box<u8>)'
    made["unsent_variants_of_any"] = (f"{BOTH}\npub enum Tried {{ A(u8), #[serde(skip)] B{held_by}, #[serde(skip)] C(#[serde(skip)] std::time::Instant),"
                                      f" #[serde(skip)] D {held(['f64', 'std::time::Duration', 'i32'], 'named')}, #[serde(skip_deserializing)] E {{"
                                      " #[serde(skip)] x: std::time::Instant, y: i32 } }")
    made["unsent_variants_generic"] = f"{BOTH}\npub enum Tried<T> {{ A(T), #[serde(skip)] B(Option<T>, u8), #[serde(skip)] C {{ x: Vec<T>, y: T }} }}"
    made["unsent_flat"] = (f"{ALL}\npub struct Inside {{ pub a: u8, #[serde(skip)] pub b: String }}\n\n"
                           f"{ALL}\npub struct Tried {{ pub x: u8, #[serde(flatten)] pub inside: Inside, #[serde(skip)] pub y: i32 }}")
    made["unsent_beside"] = (f"{ALL}\npub struct Inside {{ pub a: u8, #[serde(skip)] pub b: String }}\n\n"
                             f'{ALL}\n#[serde(tag = "kind")]\npub enum Tried {{ A(Inside), B }}')
    made["unsent_untagged"] = f"{ALL}\n#[serde(untagged)]\npub enum Tried {{ A {{ x: u8, #[serde(skip)] y: String }}, B(u8) }}"
    made["unsent_generic"] = f"{ALL}\npub struct Tried<T> {{ #[serde(skip)] pub f0: Option<u8>, pub f1: T, #[serde(skip)] pub f2: Vec<T> }}"
    return made


def rests() -> Dict[str, str]:
    """Structs of which one field is read of what no other takes, by the type of that field and by how many others there are."""
    tags = {"internal": '#[serde(tag = "kind")]\n', "adjacent": '#[serde(tag = "kind", content = "of")]\n',
            "untagged": "#[serde(untagged)]\n"}
    left = f"pub enum Left {{ A(Part), B {{ a: u8, c: Option<i32> }} }}"
    kinds = {"map": ("", "BTreeMap<String, u8>"), "hash_map": ("", "HashMap<String, Vec<u8>>"), "option": ("", "Option<Part>"),
             "option_of_map": ("", "Option<BTreeMap<u8, String>>"), "box": ("", "Option<Box<BTreeMap<String, u8>>>"),
             "newtype": (f"{READ}\npub struct Left(pub BTreeMap<String, Part>);\n\n", "Left"),
             "struct": (f"{READ}\npub struct Left {{ pub a: u8, #[serde(flatten)] pub rest: BTreeMap<String, String> }}\n\n", "Left"),
             **{sort: (f"{READ}\n{tag}{left}\n\n", "Left") for sort, tag in tags.items()},
             **{f"option_of_{sort}": (f"{READ}\n{tag}{left}\n\n", "Option<Left>") for sort, tag in tags.items()}}
    part = f"{READ}\npub struct Part {{ pub a: u8, pub b: String }}\n\n"
    made = {}
    for sort, (declared, one) in kinds.items():
        made[f"rest_{sort}"] = (f"{declared}{READ}\npub struct Tried {{ pub x: u8, #[serde(flatten)] pub rest: {one},"
                                " pub y: Option<String> }")
    for count in (0, 1, 7, 8, 15, 20):
        others = ", ".join(f"pub f{i}: {one}" for i, one in enumerate(islice(cycle(MIXED), count)))
        made[f"rest_after_{count}"] = f"{READ}\npub struct Tried {{ {others}{', ' * bool(count)}#[serde(flatten)] pub rest: BTreeMap<String, u8> }}"
        made[f"rest_tried_before_{count}"] = f"{READ}\npub struct Tried {{ #[serde(flatten)] pub rest: Option<Part>{', ' * bool(count)}{others} }}"
    made["rest_behind"] = (f"{READ}\npub struct Tried {{ #[serde(flatten)] pub own: Part, pub x: u8, #[serde(flatten)] pub rest: HashMap<String, u8>,"
                           " #[serde(skip)] pub y: String, pub z: Option<i8> }")
    made["rest_unsent"] = (f"{BOTH}\npub struct Tried {{ pub x: u8, #[serde(flatten, skip_serializing)] pub rest: BTreeMap<String, u8>,"
                           " pub y: String }")
    made["rest_generic"] = f"{READ}\npub struct Tried<T> {{ pub x: T, #[serde(flatten)] pub rest: BTreeMap<String, T>, pub y: Vec<T> }}"
    for sort, left, one in (("transparent", "#[serde(transparent)]\npub struct Left<T> { pub only: BTreeMap<String, T> }", "Left<T>"),
                            ("box", "pub struct Left<T> { pub a: Box<T> }", "Box<Left<T>>"),
                            ("untagged", "#[serde(untagged)]\npub enum Left<T> { A(Box<T>), B { x: u8 } }", "Box<Left<T>>"),
                            ("untagged_of_one", "#[serde(untagged)]\npub enum Left<T> { A(T), B { x: u8 } }", "Left<u8>"),
                            ("newtype_of_one", "pub struct Left<T>(pub T);", "Left<Part>"),
                            ("adjacent_of_one", '#[serde(tag = "t", content = "c")]\npub enum Left<T> { A(T), B(u8) }', "Left<u8>")):
        made[f"rest_generic_{sort}"] = (f"{READ}\n{left}\n\n{READ}\npub struct Tried<T> {{ pub x: u8, #[serde(flatten)] pub rest: {one},"
                                        " pub more: Vec<T> }")
    return {name: part * ("Part" in text) + text for name, text in made.items()}


def generics() -> Dict[str, str]:
    """Types with parameters, and a type that holds such types with arguments."""
    page = (f"{ALL}\npub struct Page<T> {{ pub items: Vec<T>, pub next: Option<Box<T>> }}\n\n{ALL}\npub enum Either<L, R> {{ Left(L), Right(R)"
            f" }}\n\n{ALL}\npub struct Sealed<T>(pub T);\n\n")
    held = ["Box<T>", "Vec<T>", "Vec<U>", "BTreeMap<String, U>", "Option<Box<U>>", "HashMap<String, Vec<T>>", "VecDeque<U>", "Rc<T>"]
    sent = ["T", "Vec<T>", "Vec<U>", "Box<T>", "BTreeMap<String, U>", "Vec<Option<T>>", "Option<Box<U>>", "HashMap<String, (T, U)>"]
    plain, eight = ["u8", "String", "bool", "i32"] * 5, named(held).replace("pub ", "")
    return {
        **{f"generic_held_{count}": f"{BOTH}\npub struct Tried<T, U> {named(held[:count])}" for count in (7, 8)},
        **{f"generic_whole_{count}": f"{BOTH}\npub struct Tried<T, U> {named((held * 5)[:count])}" for count in (9, 16, 40)},
        **{f"generic_whole_place_{count}": f"{BOTH}\npub struct Tried<T, U>({', '.join((held * 5)[:count])});" for count in (9, 20)},
        "generic_whole_all": f"{ALL}\npub struct Tried<T> {named(['HashMap<String, Vec<T>>', 'Vec<T>', *plain[:9], 'Option<Box<T>>'])}",
        "generic_whole_defaults": f"{BOTH}\npub struct Tried<T> {{ {' '.join(f'#[serde(default)] f{i}: Vec<T>,' for i in range(10))} }}",
        **{f"generic_whole_in_{sort}": f"{BOTH}{tag}\npub enum Tried<T, U> {{ A {named((held * 3)[:count]).replace('pub ', '')}, B, C {{ a: Vec<T>, b: HashMap<u8, u8> }} }}"
           for sort, tag, count in [("variant", "", 8), ("variant_3", "", 3), ("variant_20", "", 20),
                                    ("internal", '\n#[serde(tag = "kind")]', 8), ("internal_12", '\n#[serde(tag = "kind")]', 12),
                                    ("untagged", "\n#[serde(untagged)]", 8), ("untagged_12", "\n#[serde(untagged)]", 12)]},
        "generic_whole_in_all": f"{ALL}\npub enum Tried<T> {{ A {{ a: HashMap<String, Vec<T>>, b: i64, c: String }}, B(u8), C {{ d: Option<Box<T>>, e: i8 }} }}",
        "generic_whole_flattened": f"{BOTH}\npub struct Inner {{ pub x: u8, pub y: String }}\n\n{BOTH}\npub struct Tried<T> {{ {' '.join(f'f{i}: Vec<T>,' for i in range(10))} #[serde(flatten)] g: Inner }}",
        **{f"generic_sent_{count}": f"{SENT}\npub struct Tried<T, U> {named((sent + held)[:count])}" for count in (7, 8, 16)},
        **{f"generic_beside_{count}": f"{BOTH}\npub struct Tried<T, U> {named(['Vec<T>', 'Option<Box<U>>', *plain[:count - 2]])}" for count in (9, 20)},
        "generic_sent_40": f"{SENT}\npub struct Tried<T> {named(['Vec<T>'] * 40)}",
        "generic_held_in_variant": f"{BOTH}\npub enum Tried<T, U> {{ A {named(held[:5]).replace('pub ', '')}, B }}",
        "generic_beside_in_variant": f"{BOTH}\npub enum Tried<T, U> {{ A {named(held[:5] + plain[:3]).replace('pub ', '')}, B }}",
        "generic_hash_in_variant": f"{BOTH}\npub enum Tried<T> {{ A {{ a: u8 }}, B(HashMap<u8, T>) }}",
        "generic_held_place": f"{BOTH}\npub enum Tried<T, U> {{ A({', '.join(held)}), B }}",
        "generic_sent_in_variant": f"{SENT}\npub enum Tried<T, U> {{ A {eight}, B }}",
        "generic_sent_in_internal": f'{SENT}\n#[serde(tag = "kind")]\npub enum Tried<T, U> {{ A {eight}, B }}',
        "generic_sent_in_adjacent": f'{SENT}\n#[serde(tag = "t", content = "c")]\npub enum Tried<T, U> {{ A {eight}, B }}',
        "generic_sent_in_untagged": f"{SENT}\n#[serde(untagged)]\npub enum Tried<T, U> {{ A {eight}, B(u8) }}",
        "generic_2": f"{ALL}\npub struct Tried<T> {{ pub f0: T, pub f1: u8 }}",
        "generic_place_2": f"{ALL}\npub struct Tried<T>(pub T, pub u8);",
        "generic_variant_2": f"{ALL}\npub enum Tried<T> {{ A, B {{ f0: T, f1: u8 }}, C(T, u8) }}",
        "generic_skipped": f"{ALL.replace('derive(', 'derive(Debug, Clone, ')}\npub struct Tried<T> {{ pub items: Vec<T>, pub total_count: Option<u64>,"
                           ' #[serde(skip_serializing_if = "Option::is_none")] pub next: Option<String> }',
        "generic_untagged": f"{ALL}\n#[serde(untagged)]\npub enum Tried<T> {{ Reference {{ reference: String }}, Item(T) }}",
        "generic_internal": f'{ALL}\n#[serde(tag = "kind")]\npub enum Tried<T> {{ A, B {{ f0: T, f1: u8 }} }}',
        "generic_adjacent": f'{ALL}\n#[serde(tag = "t", content = "c")]\npub enum Tried<T> {{ A, B(T), C(Vec<T>) }}',
        "generic_transparent": f"{ALL}\n#[serde(transparent)]\npub struct Tried<T> {{ pub f0: T }}",
        "generic_transparent_skipped": f"{ALL}\n#[serde(transparent)]\npub struct Tried<T> {{ pub f0: T, #[serde(skip)] pub f1: Vec<T> }}",
        "generic_phantom": f"{BOTH}\npub struct Tried<T> {{ pub raw: u64, #[serde(skip)] pub of: PhantomData<T> }}",
        "generic_phantom_place": f"{BOTH}\npub struct Tried<K, V>(pub V, #[serde(skip)] pub PhantomData<(K, V)>, pub u8);",
        "generic_phantom_transparent": f"{BOTH}\n#[serde(transparent)]\npub struct Tried<T>(pub String, pub PhantomData<T>);",
        "generic_phantom_24": f"{BOTH}\npub struct Tried<T> {{ #[serde(skip)] pub of: PhantomData<T>, {named(MIXED * 3)[2:-2]} }}",
        "generic_phantom_variant": f"{BOTH}\npub enum Tried<K, V> {{ A {{ x: i8, #[serde(skip)] of: PhantomData<K>, y: u8 }}, B(Vec<V>), C }}",
        "generic_phantom_internal": f'{BOTH}\n#[serde(tag = "kind")]\npub enum Tried<T> {{ A {{ x: i8, #[serde(skip)] of: PhantomData<T> }}, C }}',
        "generic_phantom_untagged": f"{BOTH}\n#[serde(untagged)]\npub enum Tried<T> {{ A {{ x: i8, #[serde(skip)] of: PhantomData<T> }}, C(u8) }}",
        "generic_phantom_held": f"{BOTH}\npub struct Id<T> {{ pub raw: u64, #[serde(skip)] pub of: PhantomData<T> }}\n\n"
                                f"{BOTH}\npub struct Tried {{ pub id: Id<std::time::Instant>, pub more: Vec<Id<u8>> }}",
        "generic_newtype": f"{ALL}\npub struct Tried<T>(pub Vec<T>);",
        "generic_two": f"{ALL}\npub struct Tried<K, V> {{ pub key: K, pub value: V, pub more: Vec<V> }}",
        **{f"generic_unread_{count}": f"{BOTH}\npub struct Tried<T, U> {{ {named((held * 3)[:count])[2:-2]}, #[serde(skip)] g: Vec<T>,"
           " #[serde(skip_deserializing)] h: u8 }" for count in (9, 20)},
        **{f"generic_unread_place_{count}": f"{BOTH}\npub struct Tried<T, U>(#[serde(skip)] u8, {', '.join((held * 3)[:count])},"
           " #[serde(skip)] String);" for count in (9, 20)},
        **{f"generic_unread_in_{sort}": f"{BOTH}{tag}\npub enum Tried<T, U> {{ A {{ {named((held * 2)[:count])[2:-2].replace('pub ', '')},"
           " #[serde(skip)] g: u8, #[serde(skip)] h: Option<Vec<T>> }, B, C { a: HashMap<u8, u8>, b: Vec<U>, #[serde(skip)] c: i8 } }"
           for sort, tag, count in [("variant_3", "", 3), ("variant_6", "", 6), ("variant_12", "", 12),
                                    ("internal_2", '\n#[serde(tag = "kind")]', 2), ("internal_9", '\n#[serde(tag = "kind")]', 9)]},
        **{f"generic_place_in_variant_{count}": f"{BOTH}\npub enum Tried<T, U> {{ A({', '.join((held * 3)[:count])}), B, C(HashMap<u8, T>, u8) }}"
           for count in (3, 9, 20)},
        "generic_unread_place_in_variant": f"{BOTH}\npub enum Tried<T> {{ A(#[serde(skip)] u8, {', '.join(['Vec<T>', 'HashSet<u8>'] * 5)}), B(Vec<T>) }}",
        "generic_unread_beside_own": f"{READ}\npub struct Inner<T> {{ a: Vec<T>, b: Vec<T>, c: Vec<T>, d: Vec<T> }}\n\n{READ}\npub enum Tried<T> {{"
                                     " A { a: Vec<T>, b: Vec<T>, i: Inner<T>, #[serde(skip)] g: u8 }, B }",
        "generic_place_all": f"{ALL}\npub enum Tried<T> {{ A(HashMap<String, Vec<T>>, i64, String), B(u8), C(Option<Box<T>>, i8) }}",
        "generic_closed": f"{ALL}\n#[serde(deny_unknown_fields)]\npub struct Tried<T> {{ pub f0: T, pub f1: Vec<T> }}",
        "generic_8": f"{ALL}\npub struct Tried<T> {named(['u8', 'String', 'Vec<T>', 'Option<u8>', 'bool', 'i32', 'Vec<u8>', 'u64'])}",
        "generic_9": f"{ALL}\npub struct Tried<T> {named(['u8', 'String', 'Vec<T>', 'Option<u8>', 'bool', 'i32', 'Vec<u8>', 'u64', 'u8'])}",
        "generic_variant_5": f"{ALL}\npub enum Tried<T> {{ A {{ a: u8, b: String, c: Vec<T>, d: bool, e: u8 }}, B(Vec<T>) }}",
        "generic_untagged_two": f"{ALL}\n#[serde(untagged)]\npub enum Tried<T> {{ One(T), Many(Vec<T>) }}",
        "generic_in_generic": f"{ALL}\npub struct Page<T> {{ pub items: Vec<T> }}\n\n{ALL}\npub struct Tried<T> {{ pub pages: Vec<Page<T>> }}",
        "generic_flat": f"{ALL}\npub struct Twin<T> {{ pub first: T, pub second: Vec<T> }}\n\n{ALL}\npub struct Tried {{ pub before: u8,"
                        " #[serde(flatten)] pub twin: Twin<i16> }",
        "generic_flat_twice": f"{ALL}\npub struct Twin<T> {{ pub first: T, pub second: Vec<T> }}\n\n{ALL}\npub struct Middle<T> {{ pub x: u8,"
                              f" #[serde(flatten)] pub twin: Twin<T> }}\n\n{ALL}\npub struct Tried<T> {{ pub y: u8, #[serde(flatten)] pub middle:"
                              " Middle<T>, pub z: Vec<T> }",
        "generic_flat_in_generic": f"{ALL}\npub struct Twin<T> {{ pub first: T, pub second: Vec<T> }}\n\n{ALL}\npub struct Tried<T> {{"
                                   " pub y: u8, #[serde(flatten)] pub twin: Twin<T>, pub z: Vec<T> }",
        "generic_flat_thrice": f"{ALL}\npub struct Twin<T> {{ pub first: T, pub second: Vec<T> }}\n\n{ALL}\npub struct Middle<T> {{ pub x: u8,"
                               f" #[serde(flatten)] pub twin: Twin<T> }}\n\n{ALL}\npub struct Outer<T> {{ pub y: u8, #[serde(flatten)]"
                               f" pub middle: Middle<T> }}\n\n{ALL}\npub struct Tried {{ pub w: u8, #[serde(flatten)] pub outer: Outer<u8> }}",
        "generic_after_number": f"{ALL}\npub struct Tried<T> {{ pub code: u32, pub data: T }}",
        "generic_after_each": f"{ALL}\npub struct Tried<T> {{ pub a: i64, pub b: bool, pub c: char, pub d: (), pub e: Own,"
                              " pub f: (u8, String), pub g: T, pub h: u8 }",
        "generic_after_in_variant": f"{ALL}\npub enum Tried<T> {{ A {{ x: u8, y: T }}, B(u8, T) }}",
        "generic_after_by_place": f"{ALL}\npub struct Tried<T>(pub u8, pub i64, pub T);",
        "generic_beside": f"{ALL}\npub struct Listed<T> {{ pub items: Vec<T>, pub more: bool }}\n\n{ALL}\n#[serde(tag = \"sort\")]\n"
                          "pub enum Tried<T> { Listed(Listed<T>), One { value: Vec<T>, count: u8 } }",
        "generic_held": f"{page}{ALL}\npub struct Tried {{ pub page: Page<u8>, pub sealed: Sealed<String>, pub x: Either<u8, Own> }}",
    }


def borrowed() -> Dict[str, str]:
    """Types that are only sent, and hold borrowed texts."""
    part = f"{SENT}\npub struct Part<'a> {{ pub name: &'a str, pub more: Option<&'a str> }}\n\n"
    ten = f"pub enum Tried<'a> {{ A, B{held([BORROWED_TEXT, 'u8'] * 5, 'named')} }}"
    return {
        "borrowed_external_10": f"{SENT}\n{ten}",
        "borrowed_adjacent_10": f'{SENT}\n#[serde(tag = "t", content = "c")]\n{ten}',
        "borrowed": f"{part}{SENT}\npub struct Tried<'a>(pub &'a str, pub Vec<Part<'a>>, pub u8, pub BTreeMap<String, &'static str>);",
        "borrowed_external": f"{part}{SENT}\npub enum Tried<'a> {{ A, B(&'a str), C {{ x: &'a str, y: i8, z: Part<'a> }}, D(Part<'a>, u8) }}",
        "borrowed_adjacent": f'{part}{SENT}\n#[serde(tag = "t", content = "c")]\npub enum Tried<\'a> {{ A, B(Part<\'a>),'
                             " C { x: Option<&'a str>, y: Option<u64> }, D(&'a str, i8) }",
        "borrowed_internal": f'{part}{SENT}\n#[serde(tag = "t")]\npub enum Tried<\'a> {{ A, B(Part<\'a>), C {{ x: &\'a str, y: u8 }} }}',
        "borrowed_untagged": f"{part}{SENT}\n#[serde(untagged)]\npub enum Tried<'a> {{ A(Part<'a>), B(&'a str, u8), C {{ x: &'a str }} }}",
        "borrowed_slices": f"{part}{SENT}\npub struct Tried<'a> {{ pub x: &'a [u8],"
                           " #[serde(skip_serializing_if = \"<[_]>::is_empty\")] pub y: &'a [Part<'a>], pub z: Option<&'a [&'a str]> }",
        "borrowed_slices_in_variant": f"{part}{SENT}\npub enum Tried<'a> {{ A(&'a [Part<'a>]), B {{ x: &'a [u8], y: Vec<&'a [i8]> }} }}",
        "borrowed_24": f"{SENT}\npub struct Tried<'a> {named([BORROWED_TEXT, 'u8'] * 12)}",
    }


def arrays() -> Dict[str, str]:
    """Types that hold arrays: as a field of each kind, and in each sort of type."""
    made = {}
    for place, one in enumerate(["[u8; 32]", "[String; 3]", "[Option<String>; 3]", "[[u16; 4]; 2]", "[Own; 2]", "Vec<[u8; 4]>",
                                 "Option<[i32; 2]>", "BTreeMap<String, [u8; 2]>", "[(u8, String); 2]", "[bool; 0]", "Box<[char; 5]>",
                                 "([u8; 3], [(); 1])"]):
        made[f"array_{place}"] = f"{ALL}\npub struct Tried {{ pub f0: {one}, pub f1: u8 }}"
    variants = "A([u8; 4]), B([Own; 2], u8), C { x: [[u8; 2]; 3], y: String }"
    derives = "derive(Debug, Clone, Copy, PartialOrd, Ord, Hash, "
    fields = "#[serde(default)] pub x: [u8; 4], #[serde(skip)] pub y: [String; 2], #[serde(default)] pub z: ([u16; 2], bool)"
    return {
        **made,
        "array_newtype": f"{ALL.replace('derive(', derives)}\npub struct Tried(pub [u8; 32]);",
        "array_place": f"{ALL}\npub struct Tried(pub [u8; 16], pub [i64; 2]);",
        "array_transparent": f"{ALL}\n#[serde(transparent)]\npub struct Tried {{ pub only: [Own; 2] }}",
        "array_closed": f"{BOTH}\n#[serde(deny_unknown_fields)]\npub struct Tried {{ pub x: [u8; 20], pub y: [Option<u8>; 2] }}",
        "array_external": f"{ALL}\npub enum Tried {{ {variants} }}",
        "array_adjacent": f'{ALL}\n#[serde(tag = "t", content = "c")]\npub enum Tried {{ {variants} }}',
        "array_internal": f'{ALL}\n#[serde(tag = "t")]\npub enum Tried {{ A, B {{ x: [u8; 3], y: [Own; 1] }} }}',
        "array_untagged": f"{ALL}\n#[serde(untagged)]\npub enum Tried {{ A([u8; 2]), B(Box<[u8; 3]>), C(u8, u8, u8, u8), D(String) }}",
        "array_untagged_parts": (f"{ALL}\n#[serde(untagged)]\npub enum Tried {{ A {{ x: [u8; 2], y: String }}, B(u8), C([u8; 3], u8), D(bool),"
                                 " E(char), F { z: [u8; 3] } }"),
        "array_absent": f"{ALL}\npub struct Tried {{ {fields} }}",
        "array_default": f"{ALL.replace('derive(', 'derive(Default, ')}\n#[serde(default)]\npub struct Tried {{ pub x: [u8; 4], pub y: [String; 2] }}",
        "array_flat": f"{ALL}\npub struct Inside {{ pub x: [u8; 2] }}\n\n{ALL}\npub struct Tried {{ pub y: u8, #[serde(flatten)] pub inside: Inside }}",
        "array_generic": f"{ALL}\npub struct Page<T> {{ pub items: Vec<T> }}\n\n{ALL}\npub struct Tried {{ pub page: Page<[u8; 3]>, pub more: [Page<u8>; 2] }}",
        "array_nested": f"{ALL}\npub enum Tried {{ A([u8; 3]), B(Box<Tried>), C {{ x: [Own; 2], y: Vec<Tried> }} }}",
        "array_borrowed": f"{SENT}\npub struct Tried<'a> {{ pub x: [&'a str; 2], pub y: &'a [[u8; 4]] }}",
    }


def durations() -> Dict[str, str]:
    """Fields that are durations, alone and in others, of each sort of type."""
    held_in = ["Option<Duration>", "Vec<Duration>", "BTreeMap<String, Duration>", "(u8, Duration)", "[Duration; 2]", "Box<Duration>"]
    made = {f"duration_in_{i}": f"{ALL}\npub struct Tried {{ pub x: {one}, pub y: u8 }}" for i, one in enumerate(held_in)}
    variants = "A, B(Duration), C(Duration, u8), D { x: Duration, y: String }"
    derives = ALL.replace("derive(", "derive(Debug, Clone, Copy, PartialOrd, Ord, Hash, ")
    fields = "#[serde(default)] pub x: Duration, pub y: Option<Duration>, #[serde(default)] pub z: (Duration, bool)"
    skips = "#[serde(skip)] pub x: Duration, pub y: u8, #[serde(skip_serializing)] pub z: Duration, #[serde(skip_deserializing)] pub w: Duration"
    return {
        **made,
        "duration_field": f"{ALL}\npub struct Tried {{ pub pause: Duration, pub times: u8 }}",
        "duration_newtype": f"{derives}\npub struct Tried(pub Duration);",
        "duration_place": f"{ALL}\npub struct Tried(pub Duration, pub Duration);",
        "duration_transparent": f"{ALL}\n#[serde(transparent)]\npub struct Tried {{ pub only: Duration }}",
        "duration_closed": f"{ALL}\n#[serde(deny_unknown_fields)]\npub struct Tried {{ pub x: Duration, pub y: Vec<Own> }}",
        "duration_external": f"{ALL}\npub enum Tried {{ {variants} }}",
        "duration_adjacent": f'{ALL}\n#[serde(tag = "t", content = "c")]\npub enum Tried {{ {variants} }}',
        "duration_internal": f'{ALL}\n#[serde(tag = "t")]\npub enum Tried {{ A, B {{ x: Duration, y: u8 }} }}',
        "duration_untagged": f"{ALL}\n#[serde(untagged)]\npub enum Tried {{ A(Duration), B(u8), C(Vec<Duration>), D {{ x: Duration }} }}",
        "duration_absent": f"{ALL}\npub struct Tried {{ {fields} }}",
        "duration_default": f"{ALL.replace('derive(', 'derive(Default, ')}\n#[serde(default)]\npub struct Tried {{ pub x: Duration, pub y: u8 }}",
        "duration_skipped": f"{BOTH}\npub struct Tried {{ {skips} }}",
        "duration_functions": f'{ALL}\npub struct Tried {{ #[serde(default = "half")] pub x: Duration, #[serde(default, skip_serializing_if = '
                              '"Duration::is_zero")] pub y: Duration, #[serde(default = "none")] pub z: Duration }\n\nfn half() -> Duration {'
                              ' Duration::from_secs(30) }\n\nconst NONE: Duration = Duration::ZERO;\n\nfn none() -> Duration { NONE }',
        "duration_by_hand": f"{ALL}\n#[serde(default)]\npub struct Tried {{ pub x: Duration, pub y: u8 }}\n\nimpl Default for Tried {{ fn default()"
                            " -> Self { Self { x: Duration::from_millis(1_500), y: 5 } } }",
        "duration_left_out": f'{ALL}\npub struct Tried {{ #[serde(skip_serializing_if = "Option::is_none")] pub x: Option<Duration>, pub y: u8 }}',
        "duration_flat": f"{ALL}\npub struct Inside {{ pub x: Duration }}\n\n{ALL}\npub struct Tried {{ pub y: u8, #[serde(flatten)] pub inside: Inside }}",
        "duration_rest": f"{ALL}\npub struct Tried {{ pub y: u8, #[serde(flatten)] pub more: BTreeMap<String, Duration> }}",
        "duration_generic": f"{ALL}\npub struct Page<T> {{ pub items: Vec<T> }}\n\n{ALL}\npub struct Tried {{ pub page: Page<Duration>, pub x: Duration }}",
        "duration_own": f"{ALL}\npub struct Inside {{ pub x: Duration }}\n\n{ALL}\npub struct Tried {{ pub y: Vec<Inside>, pub z: Option<Inside> }}",
        "duration_key": f"{derives}\npub struct Part(pub Duration);\n\n{ALL}\npub struct Tried {{ pub x: BTreeMap<Part, u8>, pub y: HashSet<Part> }}",
        "duration_nested": f"{ALL}\npub enum Tried {{ A(Duration), B(Box<Tried>), C {{ x: Duration, y: Vec<Tried> }} }}",
        "duration_borrowed": f"{SENT}\npub struct Tried<'a> {{ pub x: &'a Duration, pub y: &'a [Duration] }}",
        "duration_sent": f"{SENT}\npub struct Tried {{ pub x: Duration, pub y: Option<Duration> }}",
        "duration_read": f"{READ}\npub struct Tried {{ pub x: Duration, pub y: Option<Duration> }}",
    }


def addresses() -> Dict[str, str]:
    """Types that hold IP addresses: as a field of each kind, and in each sort of type."""
    made = {}
    for place, one in enumerate(["IpAddr", "Ipv4Addr", "Ipv6Addr", "Option<IpAddr>", "Vec<Ipv4Addr>", "Box<Ipv6Addr>", "BTreeMap<String, IpAddr>",
                                 "HashMap<u8, Ipv6Addr>", "(u8, IpAddr)", "[Ipv4Addr; 2]", "Option<Box<Ipv6Addr>>", "Rc<VecDeque<IpAddr>>"]):
        made[f"address_{place}"] = f"{ALL}\npub struct Tried {{ pub f0: {one}, pub f1: u8 }}"
    variants = "A(IpAddr), B(Ipv4Addr, u8), C { x: Ipv6Addr, y: String }, D"
    derives = "derive(Debug, Clone, Copy, PartialOrd, Ord, Hash, "
    return {
        **made,
        "address_newtype": f"{ALL.replace('derive(', derives)}\npub struct Tried(pub IpAddr);",
        "address_place": f"{ALL}\npub struct Tried(pub Ipv4Addr, pub Ipv6Addr, pub IpAddr);",
        "address_transparent": f"{ALL}\n#[serde(transparent)]\npub struct Tried {{ pub only: Ipv4Addr }}",
        "address_closed": f"{ALL}\n#[serde(deny_unknown_fields)]\npub struct Tried {{ pub host: std::net::IpAddr, pub port: Option<u16> }}",
        "address_external": f"{ALL}\npub enum Tried {{ {variants} }}",
        "address_adjacent": f'{ALL}\n#[serde(tag = "t", content = "c")]\npub enum Tried {{ {variants} }}',
        "address_internal": f'{ALL}\n#[serde(tag = "t")]\npub enum Tried {{ A, B {{ x: IpAddr, y: Vec<Ipv4Addr> }} }}',
        "address_untagged": f"{ALL}\n#[serde(untagged)]\npub enum Tried {{ A(u8), B(Ipv4Addr) }}",
        "address_left_out": f'{ALL}\npub struct Tried {{ #[serde(skip_serializing_if = "Option::is_none")] pub x: Option<IpAddr>, pub y: u8 }}',
        "address_skipped": f"{BOTH}\npub struct Tried {{ #[serde(skip)] pub x: Option<IpAddr>, #[serde(skip)] pub y: Vec<Ipv6Addr>, pub z: Ipv4Addr }}",
        "address_flat": f"{ALL}\npub struct Inside {{ pub x: IpAddr }}\n\n{ALL}\npub struct Tried {{ pub y: u8, #[serde(flatten)] pub inside: Inside }}",
        "address_rest": f"{BOTH}\npub struct Tried {{ pub y: u8, #[serde(flatten)] pub others: BTreeMap<String, IpAddr> }}",
        "address_generic": f"{ALL}\npub struct Page<T> {{ pub items: Vec<T> }}\n\n{ALL}\npub struct Tried {{ pub page: Page<IpAddr>, pub x: Ipv6Addr }}",
        "address_nested": f"{ALL}\npub enum Tried {{ A(IpAddr), B(Box<Tried>), C {{ x: Ipv4Addr, y: Vec<Tried> }} }}",
        "address_key": f"{ALL.replace('derive(', derives)}\npub struct Part(pub IpAddr);\n\n{ALL}\npub struct Tried {{ pub x: BTreeMap<Part, u8>, pub y: HashSet<Part> }}",
        "address_borrowed": f"{SENT}\npub struct Tried<'a> {{ pub x: &'a IpAddr, pub y: &'a [Ipv4Addr] }}",
        "address_sent": f"{SENT}\npub struct Tried {{ pub x: IpAddr, pub y: Option<Ipv6Addr> }}",
        "address_read": f"{READ}\npub struct Tried {{ pub x: IpAddr, pub y: Option<Ipv6Addr> }}",
    }


HEAD = "//! {}.\n\nuse serde::{{Deserialize, Serialize}};\n{}\n"
STANDARD = {"std::collections": ["BTreeMap", "BTreeSet", "HashMap", "HashSet", "VecDeque"], "std::path": ["PathBuf"],
            "std::net": ["IpAddr", "Ipv4Addr", "Ipv6Addr"], "std::rc": ["Rc"], "std::sync": ["Arc"], "std::marker": ["PhantomData"],
            "std::time": ["Duration"]}


def imported(text: str) -> str:
    """The lines that bring what a text names of the standard library."""
    lines = []
    for module, names in STANDARD.items():
        used = [name for name in names if re.search(rf"(?<!:)\b{name}\b", text)]
        if used:
            lines.append(f"use {module}::{used[0] if len(used) == 1 else '{' + ', '.join(used) + '}'};\n")
    return "".join(lines)


def nested() -> Dict[str, str]:
    """Types that contain themselves: in each way, of each sort, and in others."""
    made = {}
    for place, way in enumerate(["Box<Tried>", "Vec<Tried>", "Option<Box<Tried>>"]):
        made[f"nested_enum_{place}"] = f"{ALL}\npub enum Tried {{ A, B({way}), C(u8, {way}), D {{ x: {way}, y: u32 }} }}"
    made["nested_struct_1"] = f"{ALL}\npub struct Tried {{ pub x: Vec<Tried>, pub y: i32 }}"
    made["nested_struct_2"] = f"{ALL}\npub struct Tried {{ pub x: Option<Box<Tried>>, pub y: i32 }}"
    variants = ["A(Box<Tried>)", "B { x: Vec<Tried>, y: String }", "C { x: bool, y: Vec<Tried> }", "D", "E { x: Part, y: Vec<Tried> }",
                "F(Vec<Tried>, String, bool)", "G { x: Option<Box<Tried>>, y: Vec<Tried>, z: String, w: u32 }", "H(i32, Box<Tried>)",
                "I { x: String, y: Box<Tried>, z: Option<Box<Tried>>, w: Vec<Tried> }",
                "J(Box<Tried>, Vec<Tried>, Option<Box<Tried>>, bool)"]
    part = f"{BOTH}\npub struct Part {{ pub p: u8, pub q: String }}\n\n"
    for count in (2, 4, 6, 10):
        made[f"nested_company_{count}"] = f"{part * (count > 4)}{BOTH}\npub enum Tried {{ {', '.join(variants[:count])} }}"
    fields = ["String", "Option<Box<Tried>>", "Vec<Tried>", "i32", "bool", "Option<Box<Tried>>", "Vec<String>", "u64"]
    for count in (4, 8):
        made[f"nested_fields_{count}"] = f"{BOTH}\npub struct Tried {named(fields[:count])}"
    made["nested_tagged"] = (f'{BOTH}\n#[serde(tag = "t")]\npub enum Tried {{ V0, V1 {{ x: Vec<Tried>, y: String }},'
                             " V2 { x: bool, y: Vec<Tried> }, V3 { x: i32, y: Box<Tried> } }")
    body = "A0, B1(String), C2(Box<Tried>), D3(Vec<Tried>, bool)"
    for sort, derives in (("all", ALL), ("sent", SENT), ("read", READ)):
        made[f"nested_{sort}"] = f"{derives}\npub enum Tried {{ {body} }}"
    made["nested_long"] = f"{ALL}\npub enum Tried {{ {word(40).capitalize()}, B {{ {word(40)}: Box<Tried> }} }}"
    made["nested_internal"] = (f'{ALL}\n#[serde(tag = "t")]\npub enum Tried {{ A, B {{ x: Vec<Tried>, y: u32 }}, C {{ x: u8 }},'
                               " D { x: Box<Tried> } }")
    made["nested_boxes"] = f"{ALL}\npub enum Tried {{ A(u64), B(Box<Tried>, Box<Tried>), C {{ x: Box<Tried>, y: Box<Tried> }} }}"
    made["nested_tree"] = f"{ALL}\npub struct Tried {{ pub x: Option<Box<Tried>>, pub y: Option<Box<Tried>> }}"
    made["nested_crowded"] = (f"{BOTH}\npub enum Tried {{ A, B(Box<str>, Box<Tried>), C(Arc<Vec<PathBuf>>, u8, Box<HashSet<i32>>, Arc<()>),"
                              " D { f0: HashMap<char, String> }, E { f0: Option<HashMap<u8, u8>>, f1: (u8, u8, Vec<Option<String>>) } }")
    made["nested_hashed"] = (f"{ALL}\npub enum Tried {{ A, B {{ x: Option<Box<Tried>>, y: Box<HashSet<i32>> }},"
                             " C(Option<Box<Tried>>, HashSet<i32>), D { x: Box<Tried>, y: HashMap<u8, u8> } }")
    made["nested_held"] = (f"{ALL}\npub enum Other {{ A(Vec<Other>), B }}\n\n"
                           f"{ALL}\npub struct Tried {{ pub x: Other, pub y: Vec<Other>, pub z: u8 }}")
    return made


def bodies() -> Dict[str, str]:
    """The declaration of each type, by name."""
    return {**structs(), **enums(), **names(), **types(), **collections(), **attributes(), **own_rules(), **with_functions(), **opaque(),
            **crowded(), **converted(), **flattened(), **one_way(), **rests(), **generics(), **borrowed(), **nested(), **arrays(), **durations(),
            **addresses()}


def matrix() -> Dict[str, str]:
    """The file of each type, by name."""
    return {name: HEAD.format("One type", imported(text)) + (OWN if "Own" in text or "Deep" in text else "") + text + "\n"
            for name, text in bodies().items()}


def main() -> None:
    if sys.argv[1:]:
        print(matrix()[sys.argv[1]], end="")
    else:
        print("\n".join(bodies()))


if __name__ == "__main__":
    main()
