"""Which types that contain themselves are covered."""
import re
from typing import Dict, Iterator, List, Optional

from .declarations import Data, Field, Item, NotRust, Refused
from .holder import LONGEST_HELD, needs_struct
from .homes import placed
from .types import ELSEWHERE, HASHED, PHANTOM, POINTERS, Type
from .words import NESTED_ITEMS, NESTED_WORDS

USED = re.compile(rf"Below|Inner\d+|{'|'.join([*NESTED_ITEMS, *NESTED_WORDS])}")
MOST_NAMED = 8  # a message names no more types
LONGEST_NESTED = 8  # as many fields of a struct a row has room for
LONGEST_BESIDE_TAG = 2  # of a variant next to its tag: of longer ones proofs are not always found
MOST_VARIANTS, MOST_TAGGED = 10, 4  # of an enum, and of one with a tag: those of more have not been proved


def holds_as(t: Type) -> str:
    """What a type that leads back holds in a way that is not covered, or nothing."""
    if not t.leads_back() or t.nested:
        return ""
    held = t.arguments[0] if t.name == "Option" else t
    covered = held.name == "Box" or t.name == "Vec"
    return "" if covered and held.arguments[0].nested else t.rust()


def inside(t: Type) -> Iterator[str]:
    """The own types of which a type has values in itself, not elsewhere in memory, as far as that is known."""
    if t.nested:
        yield t.name
    places = t.inside if t.home else () if t.opaque or t.name in ELSEWHERE else range(len(t.arguments))
    for place in places:
        yield from inside(t.arguments[place])


def naming(t: Type, items: Dict[str, Item]) -> Optional[Type]:
    """The type in this one, if any, that leads back by a name alone: a PhantomData, or one of this file around one."""
    item = items.get(t.name)
    bare = item.places_of(item.bare()) if item else ()
    for place, argument in enumerate(t.arguments):
        if argument.leads_back() and (t.name == PHANTOM or place in bare):
            return t
    return next(filter(None, (naming(argument, items) for argument in t.arguments)), None)


def is_endless(item: Item) -> bool:
    """Whether a value would have another of its type in itself, and so no size. A field that was refused holds nothing any
    more, so a type that led back by it is no longer in the cycle."""
    held = {one.name: {name for f in one.fields() for name in inside(f.type)} for one in item.cycle}
    found, new = set(), held[item.name]
    while new:
        found |= new
        new = {name for one in new for name in held.get(one, ())} - found
    return item.name in found


def check_nested(item: Item, items: List[Item]) -> Iterator[Refused]:
    """Refuses types that contain themselves and are not covered, and names that the module then uses itself."""
    if USED.fullmatch(item.name) and any(one.cycle for one in items):
        yield Refused(item.line, f"the name `{item.name}` is one that the module uses itself where a type contains itself:"
                      f" give the type another name, and this one by `#[serde(rename = \"{item.name}\")]`", item.name)
    if not item.cycle:
        return
    known = {one.name: one for one in items}
    named = [(f.line, where, found) for where, f in placed(item) if (found := naming(f.type, known))]
    yield from (Refused(line, f"`{item.name}` leads to itself by a name in `{found.rust()}`, which is not covered: name another type"
                        " there, such as a struct without fields", where) for line, where, found in named)
    if named:
        return
    if len(item.cycle) <= MOST_NAMED and is_endless(item):
        yield NotRust(item.line, "it has a value of its own type in itself: put that into a Box", item.name)
        return
    what = f"`{item.name}` contains itself, which is"
    by_hand = "write its impls by hand"
    reasons = []
    if len(item.cycle) > 1:
        others = ", ".join(f"`{one.name}`" for one in item.cycle if one is not item)
        others = others if len(item.cycle) <= MOST_NAMED else f"{len(item.cycle) - 1} others"
        reasons.append(f"{what} not covered through {others}: {by_hand}")
    if not item.variants and not item.data.named:
        reasons.append(f"{what} not covered in a struct without named fields: name them")
    most = MOST_TAGGED if "tag" in item.serde else MOST_VARIANTS
    if len(item.variants) > most:
        reasons.append(f"{what} not covered in an enum{' with a tag' * (most == MOST_TAGGED)} of more than {most} variants:"
                       " hold some in another enum")
    if item.parameters or item.lifetimes:
        reasons.append(f"{what} not covered in a type with parameters or lifetimes: {by_hand}")
    reasons += [f"{what} not covered beside `{one.key}`: {by_hand}" for one in item.conversions]
    unproved = ["content", "untagged", "transparent"] + ["deny_unknown_fields"] * (not item.variants or "tag" in item.serde)
    reasons += [f"{what} not covered beside `{key}`: {by_hand}" for key in unproved if key in item.serde]
    if item.flattens() or "default" in item.serde:
        reasons.append(f"{what} not covered beside `flatten` or `default` on the struct: {by_hand}")
    if "Default" in item.derives or item.defaults:
        reasons.append(f"{what} not covered where it derives Default: delete that")
    if any(v.aliases() or "other" in v.serde or not (v.sent and v.read) for v in item.variants):
        reasons.append(f"{what} not covered where a variant has `alias`, `other` or `skip`: {by_hand}")
    yield from (Refused(item.line, reason, item.name) for reason in reasons[:1])
    for v in item.variants if not reasons else ():
        if v.beside:
            yield Refused(v.line, f"`{item.name}` contains itself, which is not covered in a struct beside its tag: write its"
                          " fields in the variant", f"{item.name}.{v.name}")
    parts = [(v.data, v.line, f"{item.name}.{v.name}") for v in item.variants] or [(item.data, item.line, item.name)]
    for data, line, where in parts if not reasons else ():
        yield from check_data(item, data, line, where)


def is_beside_option(item: Item, data: Data, f: Field) -> bool:
    """Whether what is hashed stands among named values of a variant, beside an Option that leads back: proofs of reading both are
    not found but where it is in a Box or the like."""
    options = any(one.type.name == "Option" and one.type.leads_back() for one in data.fields)
    read = "Deserialize" in item.derives and bool(item.variants) and data.named
    return read and options and f.type.has(*HASHED) and f.type.name not in POINTERS


def check_data(item: Item, data: Data, line: int, where: str) -> Iterator[Refused]:
    """Refuses what such a struct or a variant of such an enum holds, and is not covered."""
    sort, most = ("variant", LONGEST_HELD) if item.variants else ("struct", LONGEST_NESTED)
    if "tag" in item.serde and any(f.type.leads_back() for f in data.fields):
        most = LONGEST_BESIDE_TAG
    for f in data.fields:
        if f.type.is_deep():
            yield Refused(f.line, f"`{f.type.rust()}` is not covered in a type that contains itself: hold it in another struct",
                          f"{where}.{f.name}")
        elif holds_as(f.type):
            yield Refused(f.line, f"`{item.name}` contains itself, which is not covered in `{holds_as(f.type)}`: hold it in Box,"
                          " Vec or Option<Box>", f"{where}.{f.name}")
        elif "tag" in item.serde and (needs_struct(f, True, True) or f.type.has("HashMap")):
            yield Refused(f.line, f"`{f.type.written()}` is not covered next to the tag of a type that contains itself: hold it in another"
                          " struct", f"{where}.{f.name}")
        elif "tag" in item.serde and f.type.name == "Option" and f.type.leads_back():
            yield Refused(f.line, f"`{item.name}` contains itself, which is not covered in an Option next to a tag: hold it in a Vec",
                          f"{where}.{f.name}")
        elif is_beside_option(item, data, f):
            yield Refused(f.line, f"`{f.type.written()}` is not covered beside an Option of `{item.name}`: hold"
                          f" `Box<{f.type.written()}>`", f"{where}.{f.name}")
        elif f.aliases() or "default" in f.serde or f.skips or not (f.sent and f.read):
            yield Refused(f.line, "`alias`, `default`, `skip` and `skip_serializing_if` are not covered in a type that contains"
                          " itself: delete it, or write the impls by hand", f"{where}.{f.name}")
        elif f.by_function():
            yield Refused(f.line, "a function of your own is not covered in a type that contains itself: write the impls"
                          " by hand", f"{where}.{f.name}")
    if len(data.fields) > most:
        sort += " next to its tag" * (most == LONGEST_BESIDE_TAG)
        yield Refused(line, f"more than {most} values are not covered in a {sort} of a type that contains itself: hold some in"
                      " another struct", where)
