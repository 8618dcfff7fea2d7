"""Which fields are refused for what the checker knows of their size: of one that depends on a parameter, nothing."""
from itertools import islice, takewhile
from typing import Iterator, List, Optional, Set

from .conversions import may_hold_memory
from .declarations import Data, Field, Item, Refused
from .holder import LONGEST_HELD, LONGEST_ROW, needs_struct
from .homes import Homes, placed
from .types import ARRAY, BORROWED, FLOATS, LEAVES, SIGNED, STATIC, Type

# rows are refused by the checker in which more values stand before one of a parameter's type, or entries where some are flattened
MOST_BEFORE, MOST_BEFORE_FLATTENED = 6, 4
MOST_WITH_UNREAD = 10  # of more fields, of which some aren't read and one that is read is signed, proofs of reading are not found


def check_sizes(item: Item) -> Iterator[Refused]:
    """Refuses fields whose size depends on a parameter, where they are read and that isn't covered."""
    parts = [(v.data, v.beside, f"{item.name}.{v.name}") for v in item.variants if v.read] if item.variants else [
        (item.data, None, item.name)]
    for data, beside, where in parts if "Deserialize" in item.derives else ():
        leaves = beside.data.leaves() if beside else data.leaves()
        alone = not beside and "tag" not in item.serde and (data.style == "Newtype" or item.transparent())
        for f in data.fields:
            inside = f.inside.leaves() if f.inside else leaves if beside else [f]
            reasons = (reason(item, data, leaves, leaf, alone) for leaf in inside)
            yield from (Refused(f.line, why, f"{where}.{f.name}") for why in islice(filter(None, reasons), 1))


def reason(item: Item, data: Data, leaves: List[Field], f: Field, alone: bool) -> str:
    """Why a field of this data whose size depends on a parameter is not covered among these, or nothing."""
    if "content" in item.serde and data.several and f.type.parameters():
        return ("of an enum that is tagged adjacently, a parameter is covered in a variant of one value: hold a struct of them")
    unsized, name = f.type.unsized(), f.type.rust()
    if unsized:
        of = unsized.sized_by()[0]
        return f"the size of `{unsized.rust()}` depends on `{of}`, which is not covered: hold `Box<{of}>` there for `{of}`"
    if alone or not f.type.parameter:
        return ""
    if "untagged" in item.serde:
        return f"of an untagged enum, a value of a parameter's type is covered alone in its variant: hold `Box<{name}>`"
    if not f.read:
        return ""
    read = sorted((one for one in leaves if one.read), key=lambda one: one.rest)
    first = list(takewhile(lambda one: (one.line, one.known) != (f.line, f.known), read))
    most, longest = most_before(item), LONGEST_HELD if item.variants else MOST_BEFORE + 1 if item.flattens() else LONGEST_ROW
    beside = next((one.type.rust() for one in read if needs_struct(one, bool(item.variants), data.named)), "")
    if beside:
        where = "in a variant" if item.variants else "by place"
        return f"a field of a parameter's type is not covered beside `{beside}` {where}: hold `Box<{name}>`"
    if len(read) > longest or len(first) > most:
        return f"a field of a parameter's type is covered among the first {min(most + 1, longest)} of up to {longest}: hold `Box<{name}>`"
    if not (f.is_plain() and all(one.is_plain() for one in first)):
        return ("a field of a parameter's type is covered before those that may be missing or have an alias: move it there, or"
                f" hold `Box<{name}>`")
    return ""


def most_before(item: Item) -> int:
    """How many fields may stand before one of a parameter's type."""
    return MOST_BEFORE_FLATTENED if item.flattens() else MOST_BEFORE


def check_rows(item: Item) -> Iterator[Refused]:
    """Refuses fields of a parameter's type that are sent after too many others: in a variant after one less."""
    parts = [(item.data, item.name), *(((v.beside or v).data, f"{item.name}.{v.name}") for v in item.variants if v.sent)]
    first = most_before(item) + 1 - bool(item.variants)
    for data, where in parts if "Serialize" in item.derives else ():
        for f in [f for f in data.leaves() if f.sent][first:]:
            if f.type.parameter:
                yield Refused(f.line, f"a field of a parameter's type is covered among the first {first} that are sent:"
                              f" hold `Box<{f.type.rust()}>`", f"{where}.{f.name}")


def check_unread(item: Item) -> Iterator[Refused]:
    """Refuses structs of so many fields, of which some aren't read, that the proof that tells of a signed number is not found."""
    fields = item.data.fields
    read = [f for f in fields if f.read]
    if "Deserialize" in item.derives and item.data.named and len(read) <= LONGEST_ROW and MOST_WITH_UNREAD < len(fields):
        signed = [f for f in read if f.type.name in SIGNED]
        yield from (Refused(f.line, f"`{f.type.name}` is not covered among more than {MOST_WITH_UNREAD} fields of which some are not"
                            " read: hold some in another struct", f"{item.name}.{f.name}") for f in signed[:1])


def check_hashed(item: Item, homes: Homes) -> Iterator[Refused]:
    """Refuses what is or holds a hash map beside a field of a parameter's type, in a variant of values by name: these are read one
    by one then, and proofs of that are not found."""
    for v in item.variants if "Deserialize" in item.derives and "untagged" not in item.serde else ():
        read = [f for f in v.data.fields if v.read and f.read]
        if v.data.named and any(f.sized_by() for f in read):
            yield from (Refused(f.line, f"`{f.type.rust()}` is or holds a HashMap, which is not covered beside a field of a parameter's"
                                " type in a variant: hold a BTreeMap", f"{item.name}.{v.name}.{f.name}")
                        for f in read if holds(f.type, {"HashMap"}, homes))


def holds(t: Type, names: Set[str], homes: Homes) -> bool:
    """Whether a type has one of these names or a type in it, or holds a type of the file that has."""
    left, seen = [t], set()
    while left:
        one = left.pop()
        if one.name in names:
            return True
        left += one.arguments
        held = homes.items.get(one.name) if one.name not in seen else None
        if held:
            seen.add(one.name)
            left += [f.type for data in (held.data, *(v.data for v in held.variants)) for f in data.fields if f.read]
    return False


def check_references(item: Item) -> Iterator[Refused]:
    """Refuses references to what is borrowed itself that aren't a field's whole type or in an Option: of what holds one, proofs
    are not found."""
    for where, f in placed(item) if "Serialize" in item.derives else ():
        of = f.type.arguments[0] if f.type.name == "Option" else f.type
        found = next(filter(None, map(reference, of.arguments)), None)
        if found and f.sent and not f.by_function():
            yield Refused(f.line, f"`{found.rust()}` is covered alone or in an Option: hold the values themselves, as String for &str",
                          where)


def reference(t: Type) -> Optional[Type]:
    """A reference in a type, itself or one in it, to what is borrowed itself."""
    if t.name in BORROWED and set(t.arguments[0].borrows()) - {STATIC}:
        return t
    return next(filter(None, map(reference, t.arguments)), None)


def check_arrays(item: Item, homes: Homes) -> Iterator[Refused]:
    """Refuses arrays of `()`, and of arrays of characters, which the borrow checker doesn't let be put in a value; arrays of
    arrays of parts without memory where one that may hold memory is beside them: the checker doesn't let both be put in one value;
    and arrays of what is borrowed in a variant that is sent, as it doesn't let them be taken out by a pattern."""
    for v, f in [(v, f) for v in item.variants for f in v.data.leaves()] if "Serialize" in item.derives else ():
        if f.sent and holds_lent_array(f.type, homes):
            yield Refused(f.line, f"`{f.type.rust()}` holds an array of what is borrowed, which is not covered in a variant, as the"
                          " borrow checker has no rule for it: hold a Vec, or a reference to a slice", f"{item.name}.{v.name}.{f.name}")
    for data, where in [(item.data, item.name), *((v.data, f"{item.name}.{v.name}") for v in item.variants)]:
        arrays = [f for f in data.leaves() if f.type.name == ARRAY] if "Deserialize" in item.derives else []
        owned = [f for f in arrays if f.type.parameters() or may_hold_memory(f.type, homes)]
        for f in arrays:
            inner = innermost(f.type).name
            if inner == "()" or (inner == "char" and f.type.arguments[0].name == ARRAY):
                yield Refused(f.line, f"`{f.type.rust()}` is not covered, as the borrow checker has no rule for it: hold a Vec",
                              f"{where}.{f.name}")
        for f in arrays if owned else ():
            if f not in owned and innermost(f.type).name not in (*LEAVES, *FLOATS) and f.type.arguments[0].name == ARRAY:
                yield Refused(f.line, f"`{f.type.rust()}` is not covered beside `{owned[0].type.rust()}`, which may hold memory: hold"
                              " a Vec in place of one of them", f"{where}.{f.name}")


def holds_lent_array(t: Type, homes: Homes) -> bool:
    """Whether a value of a type has an array of what is borrowed in it, not in memory that it owns; one of another file may."""
    if t.name == ARRAY or t.name in ("tuple", "Option"):
        return t.name == ARRAY and bool(t.borrows()) or any(holds_lent_array(one, homes) for one in t.arguments)
    held = homes.items.get(t.name)
    return bool(held and t.borrows()) and any(
        holds_lent_array(f.type, homes) for data in (held.data, *(v.data for v in held.variants)) for f in data.fields)


def innermost(t: Type) -> Type:
    """What an array, or arrays in it, are of."""
    return innermost(t.arguments[0]) if t.name == ARRAY else t
