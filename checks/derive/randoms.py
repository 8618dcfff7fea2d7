"""Files of declarations made at random from what `tools/derive` covers: sorts, types and attributes that no list has side by
side. The last item of each is the one that is tried.

  python3 checks/derive/randoms.py SEED [COUNT]     prints those of a seed
"""
import random
import re
import sys
from typing import Callable, Dict, List, Tuple

import matrix

LEAVES = [*matrix.LEAVES, *["String"] * 6, *["u8", "u32", "u64", "i64", "bool"] * 2, "PathBuf", "Box<str>"]
KEYS = ["String", "String", "u8", "i32", "char", "u64", "PathBuf", "Key"]
TAGS = {"external": "", "internal": 'tag = "type"', "adjacent": 'tag = "t", content = "c"', "untagged": "untagged"}
FUNCTIONS = ("\n\nfn five() -> i32 { 5 }\n\nfn port() -> u16 { 8080 }\n\nfn text() -> String { \"plain\".to_owned() }\n\n"
             "fn yes() -> bool { true }\n\nfn is_port(n: &u16) -> bool { *n == 8080 }\n\nfn is_zero(n: &i32) -> bool { *n == 0 }")
# attributes of fields, each with the types that have it
SAID: List[Tuple[str, Callable[[str], bool]]] = [
    ("default", lambda one: True), ('alias = "other_{i}"', lambda one: True), ('rename = "name-{i}"', lambda one: True),
    ("skip", lambda one: True), ("skip_serializing", lambda one: True), ("skip_deserializing", lambda one: True),
    ('skip_serializing_if = "Option::is_none"', lambda one: one.startswith("Option<")),
    ('default, skip_serializing_if = "Vec::is_empty"', lambda one: one.startswith("Vec<")),
    ('default, skip_serializing_if = "String::is_empty"', lambda one: one == "String"),
    ('default, skip_serializing_if = "BTreeMap::is_empty"', lambda one: one.startswith("BTreeMap<")),
    ('default, skip_serializing_if = "HashMap::is_empty"', lambda one: one.startswith("HashMap<")),
    ('default, skip_serializing_if = "std::ops::Not::not"', lambda one: one == "bool"),
    ('default = "five"', lambda one: one == "i32"), ('default = "port"', lambda one: one == "u16"),
    ('default = "text"', lambda one: one == "String"), ('default = "yes"', lambda one: one == "bool"),
    ('default = "port", skip_serializing_if = "is_port"', lambda one: one == "u16"),
    ('default, skip_serializing_if = "is_zero"', lambda one: one == "i32"), ('with = "crate::rules"', lambda one: one == "bool"),
    ('deserialize_with = "crate::rules::read_text", serialize_with = "crate::rules::send_text"', lambda one: one == "Option<String>")]
CASES = ["camelCase", "snake_case", "kebab-case", "SCREAMING_SNAKE_CASE", "PascalCase", "lowercase"]


def attribute(said: List[str]) -> str:
    """The line of an attribute that says this, if anything."""
    return f"#[serde({', '.join(said)})]\n" if said else ""


class Draw:
    """Draws declarations by a seed."""

    def __init__(self, seed: str) -> None:
        self.r = random.Random(seed)
        self.own: List[str] = []        # the types that were declared before
        self.parameters: List[str] = []
        self.borrows = False
        self.more = self.r.choice(["", "", "Debug, Clone, ", "Clone, ", "Debug, "])     # the other traits that are derived

    def some(self, share: float) -> bool:
        """Whether what happens to this share of draws happens."""
        return self.r.random() < share

    def type(self, depth: int = 0) -> str:
        """A type that is covered, of parts that are not as deep."""
        draw, inner = self.r.random(), lambda: self.type(depth + 1)
        if self.parameters and draw < 0.3:
            return self.r.choice(self.parameters)
        if self.borrows and draw < 0.3:
            return self.r.choice(["&'a str", "&'a str", "&'a [u8]", "&'a u32", "&'a [&'a str]"])
        if depth > 2 or draw < 0.55:
            return self.r.choice(self.own * 2 + LEAVES) if self.some(0.4) else self.r.choice(LEAVES)
        return self.r.choice([
            lambda: f"Option<{inner()}>", lambda: f"Option<{inner()}>", lambda: f"Vec<{inner()}>", lambda: f"Vec<{inner()}>",
            lambda: f"Box<{inner()}>", lambda: f"({', '.join(inner() for _ in range(self.r.randint(1, 4)))},)",
            lambda: f"[{inner()}; {self.r.choice([0, 1, 2, 3, 4, 16, 32])}]", lambda: f"BTreeMap<{self.r.choice(KEYS)}, {inner()}>",
            lambda: f"HashMap<{self.r.choice(KEYS)}, {inner()}>", lambda: f"BTreeSet<{self.r.choice(KEYS)}>",
            lambda: f"HashSet<{self.r.choice(KEYS)}>", lambda: f"VecDeque<{inner()}>", lambda: f"Rc<{inner()}>", lambda: f"Arc<{inner()}>"])()

    def said(self, one: str, place: int, share: float) -> str:
        """The attribute of a field, if it gets one."""
        fitting = [said for said, fits in SAID if fits(one)]
        return f'#[serde({self.r.choice(fitting).format(i=place)})] ' if self.some(share) else ""

    def fields(self, most: int, visible: str, share: float) -> str:
        """Fields by name."""
        types = [self.type() for _ in range(self.r.randint(1, most))]
        made = [f"{self.said(one, i, share)}{visible}{self.r.choice(['f', 'name_', 'data', 'of_the_'])}{i}: {one}"
                for i, one in enumerate(types)]
        if self.own and self.some(0.12):
            flat = self.r.choice(self.own + ["BTreeMap<String, u8>", f"Option<{self.own[0]}>"])
            made.insert(self.r.randint(0, len(made)), f"#[serde(flatten)] {visible}flat: {flat}")
        return "{ " + ", ".join(made) + " }"

    def places(self, most: int, visible: str, share: float) -> str:
        """Values by place."""
        types = [self.type() for _ in range(self.r.randint(1, most))]
        return "(" + ", ".join(self.said(one, i, share) + visible + one for i, one in enumerate(types)) + ")"

    def variant(self, place: int, tag: str) -> str:
        """A variant of an enum that is tagged so."""
        draw, head = self.r.random(), ["", "", "", '#[serde(alias = "more")] ', '#[serde(rename = "a-b")] ', "#[serde(skip)] "]
        holds = ("" if draw < 0.3 else " " + self.fields(5, "", 0.15) if draw < 0.65 or tag == "internal"
                 else self.places(1 if draw < 0.85 else 4, "", 0.05))
        if tag == "internal" and self.own and draw > 0.9:
            holds = f"({self.r.choice(self.own)})"
        said = self.r.choice(head).replace("more", f"more-{place}").replace("a-b", f"a-{place}") if self.some(0.3) else ""
        return f"{said}{self.r.choice(['V', 'Data', 'OfThe'])}{place}{holds}"

    def item(self, name: str, tried: bool) -> str:
        """An item of this name."""
        derives = self.r.choice([matrix.ALL] * 5 + ([matrix.BOTH] * 2 + [matrix.SENT, matrix.READ]) * tried)
        self.borrows = derives == matrix.SENT and self.some(0.5)
        self.parameters = ["T", "Vec<T>"] if tried and not self.borrows and self.some(0.2) else []
        derives = derives.replace("derive(", f"derive({self.more}{'Default, ' * self.some(0.1)}")
        given = "GIVEN"
        draw, said = self.r.random(), []
        if self.some(0.25):
            said.append(f'rename_all = "{self.r.choice(CASES)}"')
        if draw < 0.45:
            said += ["deny_unknown_fields"] * self.some(0.15) + ["default"] * (self.some(0.15) and "Default" in derives)
            body = f"struct {name}{given} {self.fields(12 if self.some(0.3) else 6, 'pub ', 0.3)}"
        elif draw < 0.6:
            said, body = [], f"struct {name}{given}{self.places(1 if self.some(0.5) else 5, 'pub ', 0.05)};"
        else:
            tag = self.r.choice(["external", "external", "internal", "adjacent", "untagged"])
            variants = [self.variant(i, tag) for i in range(self.r.randint(1, 8 if self.some(0.3) else 4))]
            if "Default" in derives:
                derives = derives.replace("Default, ", "")
            said += [TAGS[tag]] * bool(TAGS[tag])
            said += ['rename_all_fields = "camelCase"'] * self.some(0.1)
            body = f"enum {name}{given} {{ {', '.join(variants)} }}"
        self.parameters, self.borrows = [], False
        body = body.replace("GIVEN", "<'a>" if "'a" in body else "<T>" if re.search(r"\bT\b", body) else "")
        return f"{derives}\n{attribute(said)}pub {body}"

    def nested(self) -> str:
        """An item that contains itself."""
        derives = self.r.choice([matrix.ALL] * 3 + [matrix.BOTH, matrix.SENT, matrix.READ]).replace("derive(", f"derive({self.more}")
        tag = self.some(0.25)
        ways = ["Box<Tried>", "Vec<Tried>", *["Option<Box<Tried>>"] * (not tag)]

        def held(most: int) -> List[str]:
            """Some types, of which almost every other leads back."""
            return [(self.r.choice(ways) if self.some(0.45) else self.type(1)) for _ in range(self.r.randint(1, most))]

        def named(most: int, visible: str) -> str:
            """The same with names."""
            return "{ " + ", ".join(f"{visible}f{i}: {one}" for i, one in enumerate(held(most))) + " }"

        if self.some(0.3):
            ways = ways[1:]     # a Box of itself would have no end
            return f"{derives}\npub struct Tried {named(8, 'pub ')}"
        variants = [f"V{i}" + ("" if self.some(0.25) else " " + named(2 if tag else 4, "") if tag or self.some(0.5) else
                               f"({', '.join(held(4))})") for i in range(self.r.randint(2, 3 if tag else 9 if self.some(0.4) else 5))]
        said = attribute(['tag = "t"'] * tag)
        return f"{derives}\n{said}pub enum Tried {{ A, {', '.join(variants)} }}"

    def file(self) -> str:
        """A file: up to two items, and the one that is tried."""
        items = []
        for place in range(self.r.choice([0, 0, 1, 1, 2])):
            name = f"Part{place}"
            items.append(self.item(name, False))
            self.own.append(name)
        items.append(self.nested() if self.some(0.15) else self.item("Tried", True))
        body = "\n\n".join(items)
        if "Key" in body:
            body = matrix.KEY.replace("derive(", f"derive({self.more}") + body
        used = "".join(function for function in [FUNCTIONS] if any(f'"{word}"' in body for word in (
            "five", "port", "text", "yes", "is_port", "is_zero")))
        return body + used


def randoms(seed: int, count: int) -> Dict[str, str]:
    """So many files of a seed, by name."""
    made = {}
    for place in range(count):
        text = Draw(f"{seed} {place}").file()
        made[f"random_{seed}_{place}"] = matrix.HEAD.format("One type", matrix.imported(text)) + text + "\n"
    return made


if __name__ == "__main__":
    print("\n".join(randoms(int(sys.argv[1]), int((sys.argv[2:] or ["60"])[0])).values()))
