"""Structs and enums, as they are declared."""
import re
from dataclasses import dataclass, field, replace
from itertools import combinations, islice
from typing import Dict, List, NamedTuple, Optional, Sequence, Set, Tuple

from .cases import pascal
from .types import DEFAULTS, SIGNED, Type, angled, bounded, in_term, parameter, snake
from .words import NO_PLACES


# paths, and names that may be those of a type
NO_PLACE = re.compile(r".*\.|[A-Z]")
MOST_QUOTED = 100


def one_line(text: str) -> str:
    """A message in one line, in which what is quoted is cut where it is long."""
    line = re.sub(r"\s*[\n\r\t]\s*", " ", text)
    return re.sub(r"`([^`]*)`", lambda it: f"`{it[1][:MOST_QUOTED]} ..`" if len(it[1]) > MOST_QUOTED else it[0], line)


class Refused(Exception):
    """What is not covered, at a line of the input; `where` is the type and what of it is meant."""

    status = 2

    def __init__(self, line: int, reason: str, where: str = ""):
        super().__init__(reason)
        self.line, self.reason, self.where = line, one_line(reason), where

    def inside(self, name: str) -> "Refused":
        """The same inside of a type, or of what is in it."""
        self.where = ".".join(filter(None, [name, self.where]))
        return self

    def __str__(self) -> str:
        return f"{self.where}: {self.reason}" if self.where else self.reason


class NotRust(Refused):
    """What is no Rust, at a line of the input."""

    status = 1


class Refusals(Exception):
    """All that a file is refused for, in the order of its lines."""

    def __init__(self, each: List[Refused]):
        super().__init__(f"{len(each)} refused")
        self.each = sorted(each, key=lambda refused: refused.line)
        self.status = min(refused.status for refused in each)


def absent_of(t: Type) -> str:
    """What contracts say of the value that is read where a field of this type is missing."""
    return DEFAULTS.get(t.name, f"⟦<{t.rust()} as Absent>⟧.is_absent x")


class Test(NamedTuple):
    """A test of the user's own: whether {x} passes, as contracts see it, the code that says so of `value`, what contracts say
    of an `x` that passes, and that one that is read in place of {x} equals it."""

    term: str
    code: str
    fact: str
    alike: str


class Value(NamedTuple):
    """A value that is made: what contracts say of it, as `x`, and the code that makes a Result of it."""

    fact: str
    code: str


class Reading(NamedTuple):
    """A function of the user's that reads a field: the code that names it, and what contracts call what it refuses and what
    it may give."""

    code: str
    refusal: str
    gives: str


class Sending(NamedTuple):
    """A function of the user's that sends a field: the code that names it, and what contracts call the script that it sends
    and the law that this is lawful."""

    code: str
    script: str
    lawful: str


@dataclass
class Named:
    """What has a name, with the lines that stand before it and Serde's attributes; `wire` is the
    name that is sent, `known` the one by which it is read. Where it has a raw name, `raw` is that."""

    name: str
    line: int
    head: List[str]
    serde: Dict[str, str]
    wire: str = ""
    known: str = ""
    raw: str = ""

    @property
    def sent(self) -> bool:
        return not {"skip", "skip_serializing"} & set(self.serde)

    @property
    def read(self) -> bool:
        return not {"skip", "skip_deserializing"} & set(self.serde)

    def aliases(self) -> List[str]:
        """The other names by which it is read."""
        return self.serde["alias"].split("\n") if "alias" in self.serde else []


@dataclass
class Field(Named):
    """A field; one by place has its place as its name. Where it may be missing, `missing` is what
    contracts say of what is read then, and `made` the code that makes a Result of it, where it isn't that of its type.
    It `skips` where it isn't sent if it is empty, or passes a `test` of the user's. `maker` and `tester` are the paths of
    functions of the user's that are called for the one and the other; `reading` and `sending` are functions of the user's
    that read it and send it, if there are any.
    Where it is flattened, `inside` is what its type holds. In a type with arguments the field was declared with the type
    `origin`, whose parameters are `given` types."""

    type: Type = Type("()")
    visible: str = ""
    missing: str = ""
    made: str = ""
    skips: bool = False
    test: Optional[Test] = None
    maker: str = ""
    tester: str = ""
    reading: Optional[Reading] = None
    sending: Optional[Sending] = None
    inside: Optional["Data"] = None
    origin: Optional[Type] = None
    given: Dict[str, Type] = field(default_factory=dict)

    def at(self, given: Dict[str, Type]) -> "Field":
        """The same with types in the place of parameters."""
        of, missing = self.type.at(given), self.missing
        return replace(self, type=of, missing=absent_of(of) if missing == absent_of(self.type) else missing,
                       inside=self.inside and self.inside.at(given))

    def held_at(self, given: Dict[str, Type]) -> "Field":
        """The same in a type with arguments."""
        return replace(self.at(given), origin=self.type, given=given, inside=self.inside and self.inside.held_at(given))

    @property
    def plain(self) -> bool:
        """Whether contracts take each of its values for one that exists."""
        return (self.origin or self.type).plain

    def sized_by(self) -> List[str]:
        """The parameters on which its size depends as it was declared."""
        return (self.origin or self.type).sized_by()

    def arguments(self) -> Dict[str, str]:
        """The parameters in its type as it was declared, each with what stands for it."""
        return {p: self.given[p].rust() if self.origin else p for p in (self.origin or self.type).parameters()}

    def skipped(self, value: str) -> str:
        """Whether it is left out where it has this value."""
        if self.test:
            return self.test.term.format(x=value)
        return f"({self.type.member('Skip', 'is_empty')} {value})"

    def function(self, way: str) -> str:
        """The path of the function of the user's that reads it, `deserialize`, or sends it, `serialize`; or nothing."""
        return self.serde.get(f"{way}_with", f"{self.serde['with']}::{way}" if "with" in self.serde else "")

    def by_function(self) -> bool:
        """Whether a function of the user's reads or sends it."""
        return bool(self.function("deserialize") or self.function("serialize"))

    def script(self, value: str) -> str:
        """The calls that send this value."""
        return f"{self.sending.script if self.sending else self.type.member('Serialize', 'script')} {value}"

    def lawful(self, value: str) -> str:
        """That they spell one tree."""
        return f"{self.sending.lawful} {value} readable" if self.sending else self.type.lawful(value)

    def is_plain(self) -> bool:
        """Whether it is read by one name, and has to be there."""
        return self.read and not (self.missing or self.aliases())

    @property
    def rest(self) -> bool:
        """Whether it is flattened and not inlined."""
        return "flatten" in self.serde and not self.inside

    @property
    def tried(self) -> bool:
        """Whether it takes the rest as an Option: what is refused is none."""
        return self.rest and self.type.name == "Option"

    def read_as(self) -> Type:
        """The type that is read for it: where that is tried, the one in its Option."""
        return self.type.arguments[0] if self.tried else self.type

    def lost(self) -> bool:
        """Whether what is read in its place may not equal what was left out; of what a function of another module leaves out
        nothing is known."""
        return self.skips and (bool(self.tester) or self.missing != (self.test.fact if self.test else DEFAULTS.get(self.type.name)))

    def why_lost(self) -> str:
        """Why it may not come back."""
        if self.rest:
            return "takes the entries that no other field takes, and a key of its own may be a field's name"
        if self.aliases():
            return "has an `alias`"
        if self.wire != self.known:
            return "is read by another name than it is sent by"
        if not (self.sent and self.read):
            return f"is not {'read' if self.sent else 'sent'}"
        if self.by_function():
            return "is read or sent by a function of your own"
        return "may be left out, and " + ("what is read in its place may be another value" if self.missing else
                                          "is not read where it is missing: give it `default` too")

    def absent(self) -> str:
        """What may be given where it is missing, after a blank."""
        return f" (λ (x : {self.type.seen()}). {self.missing})" if self.missing else ""


@dataclass
class Data:
    """What a struct or a variant holds: nothing, one value, values by place or by name; it is
    closed where a name that it doesn't have is refused."""

    style: str = "Unit"
    fields: List[Field] = field(default_factory=list)
    closed: bool = False

    @property
    def named(self) -> bool:
        return self.style == "Struct"

    @property
    def several(self) -> bool:
        """Whether it has values by name, or several by place."""
        return self.style in ("Struct", "Tuple")

    def leaves(self) -> List[Field]:
        """The fields; in the place of one that is flattened those inside it, named by their path."""
        return [leaf for f in self.fields for leaf in (
            [replace(leaf, name=f"{f.name}.{leaf.name}") for leaf in f.inside.leaves()] if f.inside else [f])]

    def to_read(self) -> List[Field]:
        """The fields that are read, in their order, but what takes the rest after the others."""
        return sorted((f for f in self.fields if f.read), key=lambda f: f.rest)

    def to_send(self) -> List[Tuple[Field, str]]:
        """The fields that are sent, each with what code calls it."""
        return [(f, p) for f, p in zip(self.fields, self.places()) if f.sent]

    def at(self, given: Dict[str, Type]) -> "Data":
        """The same with types in the place of parameters."""
        return replace(self, fields=[f.at(given) for f in self.fields])

    def held_at(self, given: Dict[str, Type]) -> "Data":
        """The same in a type with arguments."""
        return replace(self, fields=[f.held_at(given) for f in self.fields])

    def bare(self) -> List[str]:
        """The parameters in its fields that have no bounds."""
        return [p for f in self.fields for p in f.type.bare()]

    def parameters(self) -> List[str]:
        """The parameters in its fields, each once."""
        return list(dict.fromkeys(p for f in self.fields for p in f.type.parameters()))

    def steps(self) -> int:
        """The place after the last field whose size depends on a parameter: up to it fields are read one by one."""
        return max((place for place, f in enumerate(self.fields, 1) if f.sized_by()), default=0)

    def arguments(self, start: int) -> List[str]:
        """What stands for the parameters in its fields from a place on, each once."""
        given: Dict[str, str] = {}
        for f in self.fields[start:]:
            given.update(f.arguments())
        return list(given.values())

    def flat(self) -> "Data":
        """The same with its leaves as its fields."""
        return replace(self, fields=self.leaves())

    def asked(self) -> List[Field]:
        """The fields of which contracts must be told that they exist."""
        return [f for f in self.fields if not f.plain]

    def places(self) -> List[str]:
        """The names of its values in code, each once."""
        if not self.named:
            return [f"x{i + 1}" for i in range(len(self.fields))]
        kept = {f.name for f in self.fields if f.name not in NO_PLACES and not NO_PLACE.match(f.name)}
        places, taken = [], NO_PLACES | kept
        for f in self.fields:
            place = f.name.replace(".", "_")
            while f.name not in kept and (place in taken or NO_PLACE.match(place)):
                place = place[:1].lower() + place[1:] + "_field"
            taken.add(place)
            places.append(place)
        return places

    def made(self, name: str, places: List[str]) -> str:
        """A value or a pattern of it, from its leaves."""
        left = iter(places)
        parts = [f.inside.made(f.type.name, list(islice(left, len(f.inside.leaves())))) if f.inside else next(left)
                 for f in self.fields]
        if not parts:
            return name
        if not self.named:
            return f"{name}({', '.join(parts)})"
        inside = [p if f.name == p else f"{f.name}: {p}" for f, p in zip(self.fields, parts)]
        return f"{name} {{ {', '.join(inside)} }}"

    def term(self, values: List[str]) -> str:
        """A struct as contracts make it, from its leaves."""
        left = iter(values)
        parts = [f.inside.term(list(islice(left, len(f.inside.leaves())))) if f.inside else next(left) for f in self.fields]
        inside = "".join(f"{in_term(f.name)} = {part};\n" for f, part in zip(self.fields, parts))
        return f"record {{\n{inside}}}"

    def declared(self) -> str:
        """The fields as a declaration has them."""
        shown = [f.head + [f"{f.visible}{f'{f.name}: ' * self.named}{f.type.rust()}"] for f in self.fields]
        inside = ",\n".join("\n".join(lines) for lines in shown)
        return f" {{\n{inside},\n}}" if self.named else f"({inside})" if inside else ""


@dataclass
class Variant(Named):
    """A variant of an enum. Where it holds a struct whose fields stand beside the tag, `beside` is
    that struct. Its functions are called after its `owner`, and those of what is in its content after `content`."""

    data: Data = field(default_factory=Data)
    beside: Optional["Item"] = None
    owner: str = ""
    content: str = ""

    def skips_a_place(self) -> bool:
        """Whether it is sent or read without one of several values by place."""
        return (self.sent or self.read) and self.data.style == "Tuple" and not all(f.sent and f.read for f in self.data.fields)

    def signed(self) -> bool:
        return any(f.type.name in SIGNED for f in self.data.fields)

    def held(self) -> Type:
        """What a variant is read as, where its enum is untagged: one of values by name as a struct, one without as a unit."""
        if self.data.named:
            return Type(pascal(self.owner), tuple(map(parameter, self.data.parameters())))
        types = tuple(f.type for f in self.data.fields)
        if not types:
            return Type("()")
        return types[0] if len(types) == 1 else Type("tuple", types)


@dataclass
class Conversion:
    """The type that another is read or sent as, by the attribute of this key, in the place of deriving this trait. The `code`
    converts it. Where it is sent, contracts call what it is converted to by the word `said`, and have its `script`, where that
    is a text, with a place {x} for that value; where it is read and that may fail, they call what is refused by
    that word."""

    key: str
    trait: str
    type: Type
    code: str = ""
    said: str = ""
    script: str = ""

    @property
    def fails(self) -> bool:
        """Whether it may refuse what is read."""
        return self.key == "try_from"


@dataclass
class Item(Named):
    """A struct or an enum, with the traits that it derives. Its functions are called after its
    `owner`, and contracts know an enum's variants by `cases`. `levels` is how deep what is flattened
    stands, and it is `spread` where it is flattened and not inlined, and sends its entries there; `unspread` says, once that
    is asked, why it can't. What is not `covered` is not written. It `defaults` where its declaration derives Default,
    and `absent` says that Absent is written, for a field that is read as that value where it is missing: this `absent_value`,
    where it is given. It is `valued` where it has Absent, written here or by hand.
    It borrows for its `lifetimes`. One with `parameters` may be `held_as` a type that has arguments in their place. One that
    contains itself has a `cycle`: the types through which it does, itself among them, in the order in which contracts know
    them. What its `conversions` read or send, it does not derive."""

    sort: str = "struct"
    visible: str = ""
    derives: List[str] = field(default_factory=list)
    data: Data = field(default_factory=Data)
    variants: List[Variant] = field(default_factory=list)
    covered: bool = True
    levels: int = 1
    spread: bool = False
    unspread: Optional[str] = None
    owner: str = ""
    cases: str = ""
    defaults: bool = False
    absent: bool = False
    absent_value: Optional[Value] = None
    valued: bool = False
    parameters: List[str] = field(default_factory=list)
    lifetimes: List[str] = field(default_factory=list)
    held_as: Optional[Type] = None
    cycle: List["Item"] = field(default_factory=list, compare=False, repr=False)
    conversions: List[Conversion] = field(default_factory=list)

    def itself(self) -> Type:
        """Its type, of its parameters."""
        bare = self.bare()
        parameters = tuple(parameter(one, one in bare) for one in self.parameters)
        return self.held_as or Type(self.name, parameters, lifetimes=tuple(self.lifetimes))

    def bare(self) -> List[str]:
        """The parameters that a PhantomData alone has."""
        held = {p for f in self.fields() for p in f.type.held_in()}
        return [one for one in self.parameters if one not in held]

    def bounds(self, bound: str, some: Sequence[str] = (), theirs: str = "") -> List[str]:
        """Its parameters as those of an impl, each with its bound."""
        return bounded(self.parameters, bound, some, theirs, self.bare())

    def at(self, t: Type) -> "Item":
        """The same with the arguments of this type."""
        given = dict(zip(self.parameters, t.arguments))
        variants = [replace(v, data=v.data.at(given)) for v in self.variants]
        return replace(self, data=self.data.at(given), variants=variants) if given else self

    def held_at(self, t: Type) -> "Item":
        """The same as what has this type holds it."""
        given = dict(zip(self.parameters, t.arguments))
        variants = [replace(v, data=v.data.held_at(given), beside=v.beside and replace(
            v.beside, data=v.beside.data.held_at(given))) for v in self.variants]
        return replace(self, data=self.data.held_at(given), variants=variants, held_as=t)

    def ways(self, *parts: Named) -> List[str]:
        """Those of Serde's traits that it derives, and whose impls send or read all of these parts of it."""
        ways = {"Serialize": all(one.sent for one in parts), "Deserialize": all(one.read for one in parts)}
        return [trait for trait, used in ways.items() if used and trait in self.derives]

    def parts(self) -> List[Data]:
        """The data of the struct, or of each variant."""
        return [v.data for v in self.variants] or [self.data]

    def fields(self) -> List[Field]:
        return [f for data in self.parts() for f in data.fields]

    def owns(self) -> List[Type]:
        """The own types that it holds, once each, and those inside what it inlines."""
        inlined = [v.beside.data for v in self.variants if v.beside] + [f.inside for f in self.fields() if f.inside]
        leaves = [f for data in inlined for f in data.leaves()]
        types = [f.type for f in self.fields() + leaves] + [one.type for one in self.conversions]
        return list(dict.fromkeys(own for t in types for own in t.owns()))

    def flattens(self) -> bool:
        return any("flatten" in f.serde for f in self.fields())

    def transparent(self) -> bool:
        """Whether it is sent and read as a field of it is."""
        return "transparent" in self.serde

    def field_sent(self) -> Field:
        """The field that a struct of one value is sent as."""
        return next((f for f in self.data.fields if f.sent), self.data.fields[0])

    def field_read(self) -> Field:
        """The field that a struct of one value is read as."""
        return next((f for f in self.data.fields if f.read), self.data.fields[0])

    def asked(self) -> bool:
        return any(data.asked() for data in self.parts())

    def why_apart(self) -> str:
        """Why its fields don't stand among those of another, where it is converted."""
        return f"is not covered where its type has serde's `{self.conversions[0].key}`: hold it under a name"

    def derives_all(self) -> bool:
        """Whether it derives all that RoundTrip stands on."""
        return {"Serialize", "Deserialize", "PartialEq", "Eq"} <= self.traits()

    def traits(self) -> Set[str]:
        """The traits that it derives, or has by a conversion."""
        return {*self.derives, *(one.trait for one in self.conversions)}

    def sent_fields(self) -> List[Field]:
        """The fields that are sent and read by name: its own, and those of what is beside a tag."""
        return [f for v in self.variants if v.beside for f in v.beside.data.leaves()] + self.fields()

    def lost(self) -> List[Field]:
        """The fields that are left out, and not read as what they were, or read by several names, or by functions of the user's."""
        return [f for f in self.sent_fields() if f.rest or f.lost() or f.aliases() or f.wire != f.known
                or not (f.sent and f.read) or f.by_function()]

    def one_way(self) -> List[Variant]:
        """The variants that aren't both sent and read, by one name."""
        return [v for v in self.variants if v.wire != v.known or not (v.sent and v.read)]

    def comes_back(self) -> bool:
        """Whether RoundTrip is written."""
        return self.derives_all() and not self.why_astray()

    def why_astray(self) -> str:
        """Why some values may not come back, and what to write instead where that is known; nothing where all do. A value
        of an untagged enum may be read as another variant's, where two take trees of one class, and not each of a length
        of its own."""
        if self.cycle:
            return "it contains itself, and is read to a limit of levels"
        for one in self.conversions:
            return f"it is {'sent' if one.trait == 'Serialize' else 'read'} as `{one.type.written()}`"
        for f in self.lost():
            return f"`{f.name}` {f.why_lost()}"
        for v in self.one_way():
            if v.wire != v.known:
                return f"variant `{v.name}` is read by another name than it is sent by"
            return f"variant `{v.name}` is not {'read' if v.sent else 'sent'}"
        for f in self.sent_fields():
            if f.type.has_durations():
                return f"`{f.name}` holds a Duration, and std's contracts don't tell which are equal"
        for own in self.owns():
            if own.astray:
                return f"`{own.name}`, which it holds, does not come back"
        for v in self.variants if "tag" in self.serde else []:
            if v.aliases() or "other" in v.serde:
                return f"variant `{v.name}` of a tagged enum {'has an `alias`' if v.aliases() else 'takes other tags'}"
        untagged = self.variants if "untagged" in self.serde else []
        for v in untagged:
            if v.data.named:
                return f"variant `{v.name}` of an untagged enum has values by name: hold a struct of them"
        held = [(v, v.held()) for v in untagged]
        for v, one in held:
            if not one.takes():
                return (f"which values `{one.written()}` in `{v.name}` takes is not known: hold a struct of this file with named"
                        " fields, or a type of std's but Option and IP addresses")
        for (v, one), (w, other) in combinations(held, 2):
            if not one.is_apart(other):
                return f"a value of `{w.name}` may be read as `{v.name}`: tag the enum, or hold tuples of different lengths"
        return ""

    def comes_back_from_cbor(self) -> bool:
        """Whether CBOR keeps its values: those of an enum, or of a struct that holds something, where
        it does what they hold."""
        held = [f for v in self.variants if v.beside for f in v.beside.data.leaves()]
        held += [f for v in self.variants if not v.beside for f in v.data.leaves()] + self.data.leaves()
        # an untagged variant without values is sent as the unit, which CBOR makes null
        if "untagged" in self.serde and any(v.data.style == "Unit" for v in self.variants):
            return False
        return self.comes_back() and not any(v.aliases() or "other" in v.serde for v in self.variants) and bool(
            self.variants or held) and all(
            f.type.comes_back_from_cbor() and not f.skips for f in held)

    def alone(self) -> Optional[Type]:
        """The type that it is read of null by, where it is."""
        return self.field_read().type if self.data.style == "Newtype" or self.transparent() else None

    def may_be_null(self) -> bool:
        """Whether it may be read of null, where CBOR keeps its values."""
        alone = self.alone()
        return bool(alone and alone.may_be_null())

    def null_by(self) -> List[str]:
        """The parameters that decide whether it may be read of null."""
        alone = self.alone()
        return alone.null_by() if alone else []

    def places_of(self, parameters: List[str]) -> Tuple[int, ...]:
        """The places of these parameters among all."""
        return tuple(place for place, one in enumerate(self.parameters) if one in parameters)

    def sized_by(self) -> List[str]:
        """The parameters on which its size depends."""
        return [p for f in self.fields() for p in f.type.sized_by()]

    def optionals(self) -> List[str]:
        """The parameters that may not be read of null where CBOR keeps its values."""
        return [p for f in self.fields() for p in f.type.optionals()]

    def declared(self) -> str:
        """The declaration."""
        kept = [d for d in self.derives if d not in ("Serialize", "Deserialize", "Drop")]
        derives = ", ".join(kept if "Copy" in kept else ["Drop"] + kept)
        lines = self.head + [f"#[derive({derives})]"]
        if len(self.cycle) > 1:
            lines.append(f"#[cycle({snake(self.cycle[0].name)})]")
        start = f"{self.visible}{self.sort} {self.name}{angled(*self.lifetimes, *self.parameters)}"
        if self.sort == "struct":
            return "\n".join(lines + [f"{start}{self.data.declared()}{'' if self.data.named else ';'}"])
        inside = [line for v in self.variants for line in v.head + [f"{v.name}{v.data.declared()},"]]
        return "\n".join(lines + [start + " {"] + inside + ["}"])
