"""A field's type, and what is proved of it."""
import re
from dataclasses import dataclass, field, replace
from typing import Any, Callable, Dict, Iterator, List, NamedTuple, Optional, Protocol, Sequence, Tuple


class Laws(NamedTuple):
    """What is proved of a kind of types, as terms with places for the same of its arguments."""

    lawful: str  # the script of a value {x} is lawful, for people or not {h}
    back: str  # its values come back
    keeps: str  # what it gives without coercion it gives with it
    seen: str  # the type as contracts see it
    kept: str = ""  # its values come back from CBOR, where they do
    not_null: str = ""  # it isn't read of null, where it isn't


def leaf(back: str, seen: str, keeps: str, kept: str = "", not_null: str = "") -> Laws:
    return Laws("leaf_lawful refl", back, keeps, seen, kept, not_null)


def heedless(word: str, gives: str, of: str) -> str:
    """What doesn't turn on coercion."""
    return f"(heedless_keeps (λ o. refusal_of ({word} o)) (λ o (x : {of}). {gives}))"


def whole(name: str) -> Laws:
    """A whole number's laws: those of a size are those of 64 bits."""
    kind = name.replace("size", "64")
    sort, seen = ("natural", "ℕ") if name[0] == "u" else ("integer", "ℤ")
    return leaf(f"{kind}_back", seen, f"({sort}_keeps kind.{kind})", f"{kind}_kept", f"(number_not_null kind.{kind})")


def address(word: str, name: str) -> Laws:
    """An IP address's laws, by the word that names them."""
    return Laws(f"{word}_lawful {{x}} {{h}}", f"{word}_back", f"{word}_keeps", name, f"{word}_kept", f"{word}_not_null")


# of these contracts must be told that a value has all its octets
ADDRESSES = {name: address(name[:-4].lower(), name) for name in ("IpAddr", "Ipv4Addr", "Ipv6Addr")}
NUMBERS = {name: whole(name) for name in
           [sign + bits for sign in "ui" for bits in ("8", "16", "32", "64", "128", "size")]}
SIGNED = {name for name in NUMBERS if name[0] == "i"}
LEAVES = {
    "bool": leaf("bool_back", "Bool", heedless("bool_from", "bool_from o ≡ taken x", "Bool"), "bool_kept", "bool_not_null"),
    "char": leaf("char_back", "ℕ", heedless("char_from", "char_from o ≡ taken x", "ℕ")),
    "()": leaf("unit_back", "(Unit {{0}})", heedless("unit_from", "unit_from o ≡ taken x", "Unit {{0}}")),
    "String": leaf("text_back", "(String Global)", heedless(
        "text_from", "IsTaken (text_from o) (HasContent (string_bytes x))", "String Global"), "text_kept", "text_not_null"),
    "BoxedStr": leaf("boxed_text_back", "(BoxedStr Global)", heedless(
        "text_from", "IsTaken (text_from o) (HasContent (boxed_str_bytes x))", "BoxedStr Global"), "boxed_text_kept", "text_not_null"),
    "PathBuf": leaf("path_back", "(PathBuf Global)", heedless(
        "text_from", "IsTaken (text_from o) (HasContent (path_buf_bytes x))", "PathBuf Global"), "path_kept", "text_not_null"),
    # contracts don't tell when two are equal, so that none is known to come back
    "Duration": Laws("duration_lawful {x} {h}", "", "", "Duration"),
    "&str": leaf("", "_", ""),  # what is borrowed is only sent
    **NUMBERS,
    **ADDRESSES,
}
# covered where they are neither sent nor read; contracts find what they see
FLOATS = dict.fromkeys(["f32", "f64"], leaf("", "_", ""))
# the same of types of which the module needs the name alone, and the names of two of them
OPAQUE, ARRAY, PHANTOM = leaf("", "_", ""), "[]", "std::marker::PhantomData"
HASHER = "(BuildHasherDefault FoldHasher)"


def pointer(name: str) -> Laws:
    """The laws of what holds one value elsewhere in memory, and is sent and read as that."""
    return Laws("{0}", "(seen_back (λ b. b.value) {0})", "(seen_keeps (λ b. b.value) {0})",
                f"({name} {{0}} Global)", "(seen_kept (λ b. b.value) {0})", "{null}")


def row(name: str, member: str) -> Laws:
    """The laws of what holds a list of values under the name of this member."""
    see = f"(λ v. v.{member})"
    return Laws(f"seq_lawful {{0}} {{x}}.{member} {{h}}", f"(seen_back {see} (seq_back {{0}}))",
                f"(seen_keeps {see} (seq_keeps {{0}}))", f"({name} {{0}} Global)",
                f"(seen_kept {see} (seq_kept {{0}}))", "(seq_not_null ({refusals[0]}))")


HOLDERS = {
    "Option": Laws("option_lawful {0} {x} {h}", "(option_back {0})", "(option_keeps {0})",
                   "(Option {0})", "(option_kept {null} {0})"),
    "Vec": row("Vec", "items"),
    "VecDeque": row("VecDeque", "items"),
    "Box": pointer("Box"),
    "Rc": pointer("Rc"),
    "Arc": pointer("Arc"),
    ARRAY: Laws("array_lawful {n} {0} {x} {h}", "(array_back {n} {0})", "(array_keeps {n} {0})", "(ArrayOf {0})",
                "(array_kept {n} {0})", "(tuple_not_null {n} (array_refusal {n} ({refusals[0]})))"),
    "&": Laws("{0}", "", "", "_"),
    "&[]": Laws("seq_lawful {0} {x}.now {h}", "", "", "_"),
    "BTreeMap": Laws("map_lawful {0} {1} {x}.entries {h}",
                     "(seen_back (λ m. m.entries) (map_back {total} {ties} {0} {1}))",
                     "(seen_keeps (λ m. m.entries) (map_keeps ({order}) {0} {1}))",
                     "(BTreeMap {0} {1} Global)",
                     "(seen_kept (λ m. m.entries) (map_kept {total} {ties} {0} {1}))",
                     "(map_not_null ({refusals[0]}) ({refusals[1]}))"),
    "BTreeSet": Laws("seq_lawful {0} {x}.keys {h}", "(seen_back (λ s. s.keys) (set_back {total} {ties} {0}))",
                     "(seen_keeps (λ s. s.keys) (set_keeps ({order}) {0}))", "(BTreeSet {0} Global)",
                     "(seen_kept (λ s. s.keys) (set_kept {total} {ties} {0}))", "(seq_not_null ({refusals[0]}))"),
    "HashMap": Laws("map_lawful {0} {1} {x}.entries {h}", "(hash_map_back {equal} {0} {1})",
                    "(hash_map_keeps ({same}) {0} {1})", f"(hash_map.HashMap {{0}} {{1}} {HASHER})",
                    "(hash_map_kept {equal} {0} {1})", "(map_not_null ({refusals[0]}) ({refusals[1]}))"),
    "HashSet": Laws("seq_lawful {0} {x}.keys {h}", "(hash_set_back {equal} {0})",
                    "(hash_set_keeps ({same}) {0})", f"(hash_set.HashSet {{0}} {HASHER})",
                    "(hash_set_kept {equal} {0})", "(seq_not_null ({refusals[0]}))"),
}
# those that send entries of a map where they are flattened, beside types of the user's: that their entries are such
SPREAD = {**dict.fromkeys(("BTreeMap", "HashMap"), "pairs_fit {0} {1} {x}.entries"), "Option": "optional_fit {fit} {x}"}
# how many arguments each has; those that hold one value as itself; those that hold what they do elsewhere in memory
ARGUMENTS = {name: 2 if name in ("BTreeMap", "HashMap") else 1 for name in HOLDERS}
POINTERS, BORROWED = {"Box", "Rc", "Arc"}, {"&", "&[]"}
ELSEWHERE = set(HOLDERS) - {"Option", ARRAY}
# those whose first argument is in order in them, or is hashed
IN_ORDER, HASHED = {"BTreeMap", "BTreeSet"}, {"HashMap", "HashSet"}
MAPS = {"BTreeMap", "HashMap"}
# the class of trees that a type takes, and the law that it refuses all others
CLASSES = {
    "()": ("units", "unit_takes"), "bool": ("booleans", "bool_takes"), "char": ("characters", "char_takes"),
    "String": ("texts", "text_takes"), "Vec": ("rows", "seq_takes"), **dict.fromkeys(("tuple", ARRAY), ("rows", "tuple_takes")),
    "BTreeMap": ("records", "map_takes"), "HashMap": ("records", "map_takes"),
    **dict.fromkeys(("BoxedStr", "PathBuf"), ("texts", "text_takes")),
    **dict.fromkeys(("BTreeSet", "HashSet", "VecDeque"), ("rows", "seq_takes")),
    **{name: ("numbers", f"(number_takes kind.{name.replace('size', '64')})") for name in NUMBERS},
}
# what contracts say of the value that is read where a field is missing
DEFAULTS = {
    "bool": "x ≡ false", "char": "x ≡ 0", "()": "⊤", "String": "string_bytes x ≡ []", "PathBuf": "path_buf_bytes x ≡ []",
    "Duration": "as_nanos x ≡ 0",
    "Option": "x ≡ None", "Vec": "x.items ≡ []", "VecDeque": "x.items ≡ []", "BTreeMap": "x.entries ≡ []",
    "HashMap": "x.entries ≡ []", "BTreeSet": "x.keys ≡ []", "HashSet": "x.keys ≡ []",
    **{name: "x ≡ pos 0" if name in SIGNED else "x ≡ 0" for name in NUMBERS},
}
# what `skip_serializing_if` may name, by the type of the field, and that what is read in place of an empty {x} equals it
SKIPS = {"Option": "Option::is_none", **{name: f"{name}::is_empty" for name in (
    "String", "Vec", "BTreeMap", "BTreeSet", "HashMap", "HashSet", "VecDeque")}, "&[]": "<[_]>::is_empty"}
ALIKE = {"Option": "none_alike _ {x} e y a", "String": "no_items_alike _ (string_bytes {x}) e (string_bytes y) a",
         **dict.fromkeys(("Vec", "VecDeque"), "no_items_alike _ {x}.items e y.items a"),
         "BTreeMap": "no_items_alike _ {x}.entries e y.entries a", "BTreeSet": "no_items_alike _ {x}.keys e y.keys a",
         "HashMap": "no_entries_alike _ _ {x} e y a", "HashSet": "no_keys_alike _ {x} e y a",
         "&[]": "no_items_alike _ {x}.now e y.now a"}
OWN = Laws("{own}_serialize.lawful-law {x} {h}", "{own}_round_trip.comes_back-law",
           "{own}_round_trip.keeps-law", "{declared}",
           "{own}_cbor_round_trip.kept-law", "{own}_not_null.refuses_null-law")
PARAMETER = Laws("{own}.lawful {x} {h}", "{own}.comes_back", "{own}.keeps", "{declared}", "{own}.kept", "{own}.refuses_null")
SENT_AND_READ = (("RoundTrip<'de>", "exists"), ("Serialize", "script"), ("Deserialize<'de>", "refusal"),
                 ("Deserialize<'de>", "gives"), ("PartialEq", "eq"))
MOST_IN_TUPLE, MOST_IN_ARRAY = 4, 32  # values of a tuple that is sent and read, and of such an array
RESERVED = set("data record deriving module where use mod pub package open as unfoldable abbrev axiom unfold unfolding"
               " ruleset mutual infix infixl infixr elim let in do Type coe fcoe tcoe hcom com".split())
LT_SENT, LT_DE, STATIC = "'sent", "'de", "'static"
READ_ALONE = (("Deserialize<'de>", "refusal"), ("Deserialize<'de>", "gives"))
READ, TRIP, CBOR, NOT_NULL = "Deserialize<'de>", "RoundTrip<'de>", "CborRoundTrip<'de>", "NotNull<'de>"


class LawsOf(Protocol):
    """What writes the laws of a type of the user's out; the `item` is the type as it is declared, with its arguments."""

    item: Any

    def lawful(self) -> str:
        """The script of each value is lawful."""

    def back(self) -> str:
        """Its values come back."""

    def keeps(self) -> str:
        """What it gives without coercion it gives with it."""

    def kept(self) -> str:
        """Its values come back from CBOR."""

    def not_null(self) -> str:
        """It isn't read of null."""


@dataclass(frozen=True)
class Type:
    """A field's type: a leaf, a holder, a tuple, an array of `count` values, or one of the user's own.

    An own type has a `home`, the path of the specifications of the module that declares it under
    the name `declared`, and contracts call its laws by what it is `called`. It is `plain` where contracts take each of its values for one that exists,
    `astray` where its values don't come back, `lost` where they don't from CBOR, `null` where it may be read of null.
    One of the same file that is read as a struct or a map has a `record`, the law that it takes no others. Of its arguments
    those at the places `nulls` decide whether it may be read of null, those at `optional` are in an Option in it, and those
    at `inside` are in itself, not elsewhere in memory.

    It is borrowed for its `lifetimes`. A `parameter` is one of what holds it, whose bounds have the laws: it has
    none where it `is_bare`, as a PhantomData alone has it. One that is `nested` is
    the type that holds it, or one that leads back to that. Of one of the same file with arguments `laws_of` has
    the laws, written out: the name of a law does not say for which arguments it is. Of one that is
    `opaque` the module knows the name alone; an array is of so many values as its `count` says.
    """

    name: str
    arguments: Tuple["Type", ...] = ()
    home: str = ""
    declared: str = ""
    called: str = ""
    plain: bool = False
    astray: bool = False
    lost: bool = False
    null: bool = False
    record: Optional[Tuple[str, str]] = None
    nulls: Tuple[int, ...] = ()
    optional: Tuple[int, ...] = ()
    inside: Tuple[int, ...] = ()
    parameter: bool = False
    is_bare: bool = False
    nested: bool = False
    lifetimes: Tuple[str, ...] = ()
    opaque: bool = False
    count: int = 0
    laws_of: Optional[Callable[["Type"], "LawsOf"]] = field(default=None, compare=False, repr=False)

    @property
    def laws(self) -> Laws:
        if self.opaque:
            return OPAQUE
        return PARAMETER if self.parameter else OWN if self.home else {**LEAVES, **HOLDERS, **FLOATS}[self.name]

    def parameters(self) -> List[str]:
        """The parameters in it, each once."""
        inside = [self.name] * self.parameter + [p for a in self.arguments for p in a.parameters()]
        return list(dict.fromkeys(inside))

    def bare(self) -> List[str]:
        """The parameters in it that have no bounds."""
        return [self.name] * self.is_bare + [p for a in self.arguments for p in a.bare()]

    def held_in(self) -> List[str]:
        """The parameters in it but outside of each PhantomData."""
        inside = self.arguments if self.name != PHANTOM else ()
        return [self.name] * self.parameter + [p for a in inside for p in a.held_in()]

    def is_array(self) -> bool:
        """Whether it is an array of which contracts see the values."""
        return self.name == ARRAY and not self.opaque

    def is_foreign(self) -> bool:
        """Whether it is one of the user's, where it is not of this file."""
        return bool(self.home) or (self.opaque and self.name != ARRAY and not self.name.startswith("std::"))

    def leads_back(self) -> bool:
        """Whether it leads back to the type that holds it."""
        return self.nested or any(a.leads_back() for a in self.arguments)

    def is_unknown(self) -> bool:
        """Whether the module knows the name alone of a type in this one."""
        return self.opaque or any(a.is_unknown() for a in self.arguments)

    def unseen(self) -> Optional["Type"]:
        """The first array or hash map in this type of which contracts of a variant see nothing, if there is one."""
        if self.is_unknown() and self.name in (ARRAY, *HASHED):
            return self
        return next(filter(None, (a.unseen() for a in self.arguments)), None)

    def refers(self) -> bool:
        """Whether it is, or has values of, a reference."""
        return self.name in (*BORROWED, "&str") or any(a.refers() for a in self.arguments if self.name != PHANTOM)

    def borrows(self) -> List[str]:
        """The lifetimes in it, each once."""
        return list(dict.fromkeys([*self.lifetimes, *(one for a in self.arguments for one in a.borrows())]))

    def with_one_lifetime(self) -> "Type":
        """The same, which borrows for as long as a reference to it does."""
        return replace(self, arguments=tuple(a.with_one_lifetime() for a in self.arguments),
                       lifetimes=tuple(one if one == STATIC else LT_SENT for one in self.lifetimes))

    def at(self, given: Dict[str, "Type"]) -> "Type":
        """The same with types in the place of its parameters."""
        if self.parameter:
            return given[self.name]
        return replace(self, arguments=tuple(a.at(given) for a in self.arguments))

    def sized_by(self) -> List[str]:
        """The parameters on which its size depends: those of which it has values in itself."""
        if self.name in ELSEWHERE | {PHANTOM}:
            return []
        places = self.inside if self.home else range(len(self.arguments))
        return [self.name] * self.parameter + [p for i in places for p in self.arguments[i].sized_by()]

    def unsized(self) -> Optional["Type"]:
        """The first type in it, if any, that is no parameter, and whose size depends on one."""
        if self.sized_by() and not self.parameter:
            return self
        inside = self.arguments if self.name != PHANTOM else ()
        return next(filter(None, (argument.unsized() for argument in inside)), None)

    def null_by(self) -> List[str]:
        """The parameters that decide whether it may be read of null."""
        if self.name in POINTERS:
            return self.arguments[0].null_by()
        return [self.name] * self.parameter + [p for i in self.nulls for p in self.arguments[i].null_by()]

    def optionals(self) -> List[str]:
        """The parameters that may not be read of null where CBOR keeps its values: those in an Option."""
        places = (0,) if self.name == "Option" else self.optional
        return [p for i in places for p in self.arguments[i].null_by()] + [p for a in self.arguments for p in a.optionals()]

    def weight(self) -> int:
        """How many types it is made of, itself among them."""
        return 1 + sum(one.weight() for one in self.arguments)

    def has(self, *names: str) -> bool:
        """Whether it has one of these names, or a type in it."""
        return self.name in names or any(argument.has(*names) for argument in self.arguments)

    def is_deep(self) -> bool:
        """Whether contracts say so much of it that proofs get lost that look into all variants of an enum: a map in another, or
        what has paths in order."""
        if any(argument.is_deep() for argument in self.arguments):
            return True
        if self.name in IN_ORDER and self.arguments[0].name == "PathBuf":
            return True
        return self.name in MAPS and self.arguments[1].name in MAPS

    def is_hash_map(self) -> bool:
        """Whether it is a hash map, or owns one and nothing else."""
        return self.name == "HashMap" or (self.name in POINTERS and self.arguments[0].is_hash_map())

    def rust(self) -> str:
        """The type as Rust writes it."""
        inside = ", ".join([*self.lifetimes, *(a.rust() for a in self.arguments)])
        if self.name == "&str":
            return f"&{inside} str"
        if self.name in BORROWED:
            one = self.arguments[0].rust()
            return f"&{self.lifetimes[0]} {one if self.name == '&' else f'[{one}]'}"
        if self.name == "tuple":
            return f"({inside}{',' * (len(self.arguments) == 1)})"
        if self.name == ARRAY:
            return f"[{inside}; {self.count}]"
        return f"{self.name}<{inside}>" if inside else self.name

    def written(self) -> str:
        """The same as a user writes it, who has no name for a boxed text."""
        return re.sub(r"(?<![\w:])BoxedStr\b", "Box<str>", self.rust())

    def member(self, trait: str, member: str) -> str:
        """A ghost member of the impl of a trait."""
        return f"⟦<{self.rust()} as {trait}>⟧.{member}"

    def lawful(self, x: str, h: str = "readable") -> str:
        if self.laws_of:
            of = f"(x : {self.seen()}) (readable : Bool) → IsLawful ({self.member('Serialize', 'script')} x readable)"
            return f"(let law : {of} = {self.laws_of(self).lawful()} in law) {x} {h}"
        if self.name == "tuple":
            laws = [a.lawful(f"{x}.{i}", h) for i, a in enumerate(self.arguments)]
            return "tuple_lawful" + nest([f"element_fits ({law})" for law in laws], "end_fits")
        if self.name in POINTERS | {"&"}:
            return self.arguments[0].lawful(f"{x}.{'now' if self.name == '&' else 'value'}", h)
        inside = [f"(λ x h. {a.lawful('x', 'h')})" for a in self.arguments]
        return self.laws.lawful.format(*inside, x=x, h=h, n=self.count, own=self.called)

    def fit(self, x: str) -> str:
        """What it sends where it is flattened are entries of a map."""
        if self.name == "Box":
            return self.arguments[0].fit(f"{x}.value")
        if self.home:
            return f"{self.called}_send_entries.fit-law {x}"
        inside = [f"(λ x h. {a.lawful('x', 'h')})" for a in self.arguments] if self.name != "Option" else []
        fit = "" if inside else f"(λ x. {self.arguments[0].fit('x')})"
        return SPREAD[self.name].format(*inside, x=x, fit=fit)

    def back(self) -> str:
        if self.laws_of:
            return self.typed("ComesBack", SENT_AND_READ, self.laws_of(self).back())
        inside, count = [a.inner_back() for a in self.arguments], len(self.arguments)
        if self.name != "tuple":
            return self.laws.back.format(*inside, n=self.count, own=self.called, **self.ordered())
        parts = nest([f"element_back {law} x.{i} real{f'.{i}' * (count > 1)} (λ y. y.{i}) {count} {i}"
                      for i, law in enumerate(inside)], f"(parts_end {count})")
        return f"(record {{ of_value = λ x real f. tuple_back{parts}\nf (λ y h. {both(count, 'h')}) }})"

    def kept(self) -> str:
        if self.laws_of:
            return self.typed("FormComesBack", SENT_AND_READ, self.laws_of(self).kept())
        inside, count = [a.inner_kept() for a in self.arguments], len(self.arguments)
        if self.name != "tuple":
            null = self.arguments[0].not_null() if self.name == "Option" else ""
            return self.laws.kept.format(*inside, n=self.count, own=self.called, null=null, **self.ordered())
        parts = nest([f"element_kept {law} x.{i} real{f'.{i}' * (count > 1)} (λ y. y.{i}) {count} {i}"
                      for i, law in enumerate(inside)], f"(parts_end_kept {count})")
        return f"(record {{ of_value = λ x real. tuple_kept{parts}\n(λ y h. {both(count, 'h')}) }})"

    def not_null(self) -> str:
        if self.laws_of:
            return self.typed("RefusesNull", READ_ALONE[:1], self.laws_of(self).not_null())
        refusals, count = [a.member(READ, "refusal") for a in self.arguments], len(self.arguments)
        if self.name == "tuple":
            parts = nest([f"part_then {count} {i} ({refusal})" for i, refusal in enumerate(refusals)], f"(end_of_parts {count})")
            return f"(tuple_not_null {count}{parts})"
        null = self.arguments[0].not_null() if self.name in POINTERS else ""
        return self.laws.not_null.format(n=self.count, own=self.called, null=null, refusals=refusals)

    def comes_back_from_cbor(self) -> bool:
        """Whether CBOR keeps its values; so it does an optional one of what is never null."""
        if not self.home and not self.arguments:
            return bool(self.laws.kept)
        optional = (0,) if self.name == "Option" else self.optional
        return not self.lost and all(a.comes_back_from_cbor() for a in self.arguments) and not any(
            self.arguments[i].may_be_null() for i in optional)

    def may_be_null(self) -> bool:
        """Whether it may be read of null."""
        if self.name in POINTERS:
            return self.arguments[0].may_be_null()
        if self.home:
            return self.null or any(self.arguments[i].may_be_null() for i in self.nulls)
        return self.name in ("Option", "()")

    def keeps(self) -> str:
        if self.laws_of:
            return self.typed("CoercionKeeps", READ_ALONE, self.laws_of(self).keeps())
        inside, count = [a.keeps() for a in self.arguments], len(self.arguments)
        if self.name != "tuple":
            return self.laws.keeps.format(*inside, n=self.count, own=self.called, **self.ordered())
        return f"(tuple_keeps {count}" + nest(
            [f"part_keeps (λ y. y.{i}) {count} {i} {law}" for i, law in enumerate(inside)],
            f"(parts_end_keeps {count})") + ")"

    def inner_back(self) -> str:
        """The same as an argument: a tuple's law does not tell its type."""
        return self.typed_back() if self.name == "tuple" else self.back()

    def inner_kept(self) -> str:
        return self.typed_kept() if self.name == "tuple" else self.kept()

    def typed_back(self) -> str:
        """The same with its type, where the term alone does not tell it."""
        return self.typed("ComesBack", SENT_AND_READ, self.back()) if self.is_held() else self.back()

    def typed_kept(self) -> str:
        return self.typed("FormComesBack", SENT_AND_READ, self.kept()) if self.is_held() else self.kept()

    def typed_keeps(self) -> str:
        return self.typed("CoercionKeeps", READ_ALONE, self.keeps()) if self.is_held() else self.keeps()

    def is_held(self) -> bool:
        """Whether its laws are made of those of its arguments, and don't tell its type."""
        return bool(self.arguments) and not self.laws_of

    def typed(self, word: str, members: Tuple[Tuple[str, str], ...], law: str) -> str:
        said = " ".join(f"({self.member(trait, member)})" for trait, member in members)
        return f"(let law : {word} {said} = {law} in law)"

    def seen(self) -> str:
        inside = [a.seen() for a in self.arguments]
        if self.name == "tuple":
            return f"({' × '.join(inside)})" if len(inside) > 1 else f"(record {{0 : {inside[0]}}})"
        if self.home and inside:
            return f"({' '.join([replace(self, arguments=()).seen(), *inside])})"
        return self.laws.seen.format(*inside, declared=f"{self.module()}.{self.declared}" if self.module() else self.declared or self.name)

    def module(self) -> str:
        """What contracts call the module of an own type by, whose name is another's in them too."""
        return "" if not self.home or self.called == snake(self.declared) else f"{self.called}_as_seen"

    def takes(self) -> Optional[Tuple[str, str]]:
        """The class of trees that it takes, where it takes one, and the law."""
        return self.arguments[0].takes() if self.name in POINTERS else self.record or CLASSES.get(self.name)

    def is_apart(self, other: "Type") -> bool:
        """Whether no tree is taken by both, where each takes trees of one class."""
        lengths = {self.length(), other.length()}
        return self.takes()[0] != other.takes()[0] or (None not in lengths and len(lengths) == 2)

    def length(self) -> Optional[int]:
        """How many values the trees have that it takes, where all have as many."""
        if self.name in POINTERS:
            return self.arguments[0].length()
        return self.count if self.name == ARRAY else len(self.arguments) if self.name == "tuple" else None

    def counts(self) -> str:
        """The law that it takes trees of so many values."""
        if self.name in POINTERS:
            return self.arguments[0].counts()
        if self.name == ARRAY:
            return f"(array_counts {self.count} ({self.arguments[0].member(READ, 'refusal')}))"
        count = self.length()
        parts = "".join(f"(part_counts _ {count} {place} " for place in range(count))
        return f"(tuple_counts {parts}(parts_end_counts {count}){')' * (count + 1)}"

    def ordered(self) -> Dict[str, str]:
        """Of what has its keys in order, that order: that it is total, and that equal keys are its ties; of what hashes
        them, their equality: that it is an equivalence."""
        if self.name in HASHED:
            return self.arguments[0].hashed()
        if self.name not in IN_ORDER:
            return {}
        key = self.arguments[0]
        own = key.called
        total, ties = (
            (f"{own}_ord.total-law", f"{own}_ord.matches_eq-law") if key.home else
            ("string_cmp_total", "(λ x y. texts_ties (string_bytes x) (string_bytes y))")
            if key.name == "String" else
            ("(path_cmp_total path_buf_bytes)", "(λ x y. refl)") if key.name == "PathBuf" else
            ("int_cmp_total", "(λ x y. refl)") if key.name in SIGNED else
            ("nat_cmp_total", "unsigned_ties"))
        return {"total": total, "ties": ties, "order": key.member("Ord", "cmp")}

    def hashed(self) -> Dict[str, str]:
        """Of a hashed key, its equality: that it is an equivalence."""
        equal = (f"{self.called}_eq.laws-law" if self.home else
                 "string_eq_equiv" if self.name == "String" else
                 "(eq_by_cmp_equiv (path_cmp_total path_buf_bytes))" if self.name == "PathBuf" else
                 "int_eq_equiv" if self.name in SIGNED else "bool_eq_equiv" if self.name == "bool" else "nat_eq_equiv")
        return {"equal": equal, "same": self.member("PartialEq", "eq")}

    def has_durations(self) -> bool:
        """Whether it is, or has values that are, a Duration."""
        return self.name == "Duration" or any(a.has_durations() for a in self.arguments)

    def owns(self) -> Iterator["Type"]:
        """The own types in it."""
        if self.home:
            yield self
        for argument in self.arguments:
            yield from argument.owns()


def in_term(path: str) -> str:
    """A name of code, or a path of them, as contracts write it: what they reserve stands in quotes."""
    return ".".join(f"«{name}»" if name in RESERVED else name for name in path.split("."))


def snake(name: str) -> str:
    """A type's or a variant's name with a sign between its words."""
    return re.sub(r"(?<!^)(?=[A-Z])", "_", name).lower()


def nest(heads: List[str], end: str) -> str:
    """Heads that each take the rest as their last argument, on lines of their own."""
    return "\n" + "".join(f"({head}\n" for head in heads) + end + ")" * len(heads)


def parameter(name: str, bare: bool = False) -> Type:
    """A type parameter of this name."""
    return Type(name, called=name, parameter=True, is_bare=bare)


def angled(*inside: str) -> str:
    """Parameters or arguments in their brackets, or nothing."""
    return f"<{', '.join(inside)}>" if inside else ""


def bounded(parameters: List[str], bound: str, some: Sequence[str] = (), theirs: str = "", bare: Sequence[str] = ()) -> List[str]:
    """Each of these parameters with this bound, but some of them with theirs, and bare ones without any."""
    return [one if one in bare else f"{one}: {theirs if one in some else bound}" for one in parameters]


def both(count: int, such: str) -> str:
    """That all of so many tests hold, as a tuple's `==` makes them, from what is known of each."""
    term = f"{such}.0"
    for place in range(1, count):
        term = f"both_hold {f'({term})' if place > 1 else term} {such}{'.1' * place}.0"
    return term
