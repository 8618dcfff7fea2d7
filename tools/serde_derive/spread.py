"""Which types send entries of a map where they are flattened."""
from typing import Dict

from .declarations import Field, Item, Variant
from .types import SPREAD, Type

UNSPREAD = ("is covered where it is a struct or an enum of this file, without parameters, a BTreeMap, a HashMap, or one of these"
            " in an Option or a Box: hold one, or delete `flatten`")
OF_PARAMETER = "is not covered where a parameter is its type, as it may be no struct or map: name the type itself"
DEEPEST_SPREAD = 100  # types of one value that stand in each other
TOO_DEEP = f"leads through more than {DEEPEST_SPREAD} types, which is not covered: hold the last of them"
MOST_SPREAD = 8  # proofs of longer rows that go on with what follows are not found


def is_inlined(f: Field, items: Dict[str, Item]) -> bool:
    """Whether the fields of this flattened one are sent and read in its place: not where it takes the rest."""
    part = items.get(f.type.name)
    if not part or part.sort != "struct" or not set(f.serde) <= {"flatten", "default"}:
        return False
    return not part.covered or (part.data.named and not part.data.closed and not part.transparent()
                                and not any(one.rest for one in part.data.fields))


def is_told_apart(part: Item) -> bool:
    """Whether a flattened type is refused for itself: one of a value that leads back to itself is so later."""
    alone = part.data.style == "Newtype" or part.transparent() or "untagged" in part.serde
    return not part.covered or (alone and bool(part.cycle))


def why_unspread(t: Type, items: Dict[str, Item], levels: int = 0) -> str:
    """Why a flattened field of this type, which isn't inlined, can't be sent, or nothing; what is flattened leads to it through so
    many types, and those of the file that it then needs are `spread`."""
    part = items.get(t.name)
    if t.name in ("Option", "Box"):
        return why_unspread(t.arguments[0], items, levels)
    if t.name in SPREAD or (part and is_told_apart(part)):
        return ""
    if levels > DEEPEST_SPREAD:
        return TOO_DEEP
    if part and part.conversions:
        return part.why_apart()
    if t.parameter:
        return OF_PARAMETER
    if not part or t.arguments or not (part.variants or part.data.style in ("Struct", "Newtype")):
        return UNSPREAD
    if part.unspread is None:
        part.spread, part.unspread = True, why_part_unspread(part, items, levels + 1)
    return part.unspread


def why_part_unspread(part: Item, items: Dict[str, Item], levels: int) -> str:
    """The same of a type of the file, which is asked once."""
    if part.data.style == "Newtype" or part.transparent():
        by_function = "is not covered where a function of yours sends it: hold the value itself"
        return by_function if part.field_sent().function("serialize") else why_unspread(part.field_sent().type, items, levels)
    most = MOST_SPREAD - ("tag" in part.serde)
    rows = [(v.beside or v).data.leaves() for v in part.variants] or [part.data.leaves()]
    if max(map(len, rows)) > most:
        return f"is covered so where it has up to {most} fields: hold some in a struct that is not flattened"
    return next(filter(None, (why_variant_unspread(part, v, items, levels) for v in part.variants)), "")


def why_variant_unspread(part: Item, v: Variant, items: Dict[str, Item], levels: int) -> str:
    """The same of a variant."""
    alone, name = v.data.style == "Newtype", f"{part.name}::{v.name}"
    if alone and v.data.fields[0].function("serialize"):
        return f"is not covered where a function of yours sends a value by place, as in `{name}`: give it a name"
    if not v.sent:
        return f"is not covered where it is an enum with a variant that isn't sent, as `{name}`: delete that"
    if "untagged" in part.serde:
        covered = v.data.style in ("Struct", "Unit") or (alone and not why_unspread(v.data.fields[0].type, items, levels))
    else:
        covered = "tag" in part.serde or alone or v.data.named
    return "" if covered else (f"is not covered where it is an enum with a variant as `{name}`: hold a struct there, or give the"
                               " enum a `tag`")
