"""Which flattened fields are read out of the entries that no other field takes."""
from typing import Dict, Iterator, List, Tuple

from .declarations import Field, Item, Refused
from .spread import DEEPEST_SPREAD, OF_PARAMETER, TOO_DEEP, is_told_apart
from .types import POINTERS, Type

MAPS = {"BTreeMap", "HashMap"}
WHAT = "what is flattened"
# what Serde reads so, and what to write instead of anything else
COVERED = (f"{WHAT} is covered where it is a struct of this file with named fields, an enum of it with `untagged` or `tag`, a map,"
           " or an Option of one of these: hold one of them, or delete `flatten`")


def why_not(t: Type, items: Dict[str, Item], levels: int = 0) -> str:
    """Why no value of this type is read of what is left over, or nothing; what is flattened leads to it through so many types."""
    if t.name in MAPS:
        return ""
    if t.name in POINTERS:
        return why_not(t.arguments[0], items, levels)
    if t.parameter:
        return f"{WHAT} {OF_PARAMETER}"
    if t.home and t.name not in items:
        return f"{WHAT} is not covered where its type is of another file: declare `{t.name}` in this one"
    if t.name not in items:
        return COVERED
    if is_told_apart(items[t.name]):
        return ""
    if levels > DEEPEST_SPREAD:
        return f"{WHAT} {TOO_DEEP}"
    item = items[t.name].at(t)
    if item.conversions:
        return f"{WHAT} {item.why_apart()}"
    return why_not_enum(item) if item.variants else why_not_struct(item, items, levels + 1)


def why_not_struct(item: Item, items: Dict[str, Item], levels: int) -> str:
    """The same of a struct: one of one value is read as that, and of one with named fields Serde looks for their names alone."""
    if item.transparent() or item.data.style == "Newtype":
        by_function = f"{WHAT} is not covered where a function of yours reads it: hold the value itself"
        return by_function if item.field_read().function("deserialize") else why_not(item.field_read().type, items, levels)
    if not item.data.named:
        return COVERED
    if item.data.closed:
        return f"{WHAT} is not covered with `deny_unknown_fields`, which Serde passes over there: delete that"
    if not item.flattens() and any(f.aliases() for f in item.data.fields):
        return f"{WHAT} is not covered where a field of it has an `alias`, which Serde doesn't read there: delete that"
    return ""


def why_not_enum(item: Item) -> str:
    """The same of an enum: of one that is tagged adjacently Serde looks for the names of the tag and the content alone."""
    if not {"untagged", "tag"} & set(item.serde):
        return f"{WHAT} is an enum that is tagged externally, which is not covered: give it a `tag`, or `untagged`"
    if "content" in item.serde and "deny_unknown_fields" in item.serde:
        return f"{WHAT} is not covered with `deny_unknown_fields`, which Serde passes over there: delete that"
    return ""


def check_rests(item: Item, flattened: List[Tuple[str, Field]], items: Dict[str, Item]) -> Iterator[Refused]:
    """Refuses what takes the rest where its type is not covered, or where Serde reads more than what is left over."""
    rests = [(where, f) for where, f in flattened if f.rest and not (f.type.name in items and not items[f.type.name].covered)]
    read = [f for _, f in rests if f.read and "Deserialize" in item.derives]
    for where, f in rests:
        why = why_unread(f, [other for _, other in flattened], read[0], items) if f in read else ""
        if why:
            yield Refused(f.line, why, where)


def why_unread(f: Field, flattened: List[Field], first: Field, items: Dict[str, Item]) -> str:
    """Why this one of the flattened fields isn't read of the rest, or nothing; the first one that would be is this."""
    of, inlined = f.read_as(), [other for other in flattened if other.inside]
    why = why_not(of, items)
    if why:
        return why
    if f is not first:
        return f"one field of a struct takes what is left over, here `{first.name}`: hold what both take in one struct or enum"
    if of.sized_by():
        return f"{WHAT} is not covered where its size depends on `{of.sized_by()[0]}`: hold `Box<{of.written()}>`"
    if any(flattened.index(other) > flattened.index(f) for other in inlined):
        return f"{WHAT} is covered behind other flattened structs, since Serde gives it their entries too: move it there"
    if any("flatten" in leaf.serde for other in inlined for leaf in other.inside.fields):
        return ("beside what takes the rest a struct is flattened that itself has `flatten`, whose entries Serde leaves in the"
                " rest: name its fields")
    return ""
