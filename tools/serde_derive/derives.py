"""Which derives Rattle writes for what a type holds."""
from typing import Dict, Iterator

from .attributes import CRATES, DEFAULT, SERDE, no_rule
from .declarations import Item, Refused
from .defaults import IN_MEMORY, by_type, lacking_absent
from .files import File
from .functions import Functions
from .homes import placed, placed_in
from .tokens import ROOTS
from .types import HASHED, Type

NEEDS = {"Copy": ["Clone"], "Eq": ["PartialEq"], "PartialOrd": ["PartialEq"], "Ord": ["Eq", "PartialOrd"], "Hash": ["Eq"]}
# derives that ask nothing of what a type holds
NOT_INSIDE = {("Default", "Option"), ("Clone", "Rc"), ("Clone", "Arc")}
PASSED = {"Drop", *SERDE}
# what hash maps and sets don't have
WITHOUT = dict.fromkeys(["Hash", "PartialOrd", "Ord"], "hold a BTreeMap or BTreeSet, or delete the derive")
WHY = {
    "Copy": "which has memory of its own: delete Copy",
}


def lacking(t: Type, trait: str, items: Dict[str, Item], file: File) -> Iterator[str]:
    """The types in a field's type that have no such trait."""
    mine = items.get(t.name)
    if t.name in IN_MEMORY and trait in WHY:
        yield f"`derive({trait})` is not covered beside `{t.written()}`, {WHY[trait]}"
    elif mine:
        if trait not in mine.derives and (trait, t.name) not in file.impls:
            yield f"`{t.name}` does not derive {trait}, as what holds it does: derive it there too"
        for argument in t.arguments:
            yield from lacking(argument, trait, items, file)
    elif t.name in HASHED and trait in WITHOUT:
        yield f"`derive({trait})` is not covered beside `{t.written()}`, which has none: {WITHOUT[trait]}"
    elif (trait, t.name) not in NOT_INSIDE:
        for argument in t.arguments:
            yield from lacking(argument, trait, items, file)


def check_missing(item: Item, items: Dict[str, Item]) -> Iterator[Refused]:
    """Refuses a field that may be missing, or isn't read, where there is no value for it."""
    for where, f, *around in placed_in(item):
        without = lacking_absent(f.type, items) if by_type(f) and "Deserialize" in item.ways(*around) else ()
        lacks = next((t for t in without if f.read or not Functions.initial(t)), None)
        if lacks and lacks.opaque:
            yield Refused(f.line, f"its default is not covered, as nothing makes a `{lacks.written()}` here: hold an Option, or write"
                          " `default = \"..\"` with the path of a function of another module that does", where)
        elif lacks and not lacks.home:
            yield Refused(f.line, "its default is not covered: hold a number, bool, char, String, PathBuf, Duration, Option, Vec, map, set,"
                          " an array or a tuple of these, or a type of your own that derives Default", where)
        elif lacks and items[lacks.name].covered:
            yield Refused(f.line, f"its default is not covered: `{lacks.name}` derives no Default, or holds what has none"
                          " here: hold an Option", where)


def check_default(item: Item) -> Iterator[Refused]:
    """Refuses `#[default]` where it is no Rust, or lacks."""
    marked = [v for v in item.variants if DEFAULT in v.head]
    if "Default" in item.derives:
        if item.variants and (len(marked) != 1 or marked[0].data.fields):
            yield Refused(item.line, "`derive(Default)` on an enum needs `#[default]` before one variant with no values",
                          item.name)
    elif marked:
        yield Refused(marked[0].line, "`#[default]` is for enums that derive Default: delete it",
                      f"{item.name}.{marked[0].name}")


def check_imports(item: Item, file: File) -> Iterator[Refused]:
    """Refuses derives that the file takes from other crates. What has `serde` in its path is Serde's, and what comes
    from the user's own crate is taken for the one of that name."""
    for trait in item.derives:
        path = file.uses.get(trait, ["std"])
        if path[0] not in CRATES | ROOTS and "serde" not in path:
            yield Refused(item.line, no_rule("::".join(path)), item.name)


def check_compared(item: Item, items: Dict[str, Item], file: File) -> Iterator[Refused]:
    """Refuses functions that say whether a field is left out where they compare an enum that has no equality."""
    for where, f in placed(item):
        of = items.get(f.type.name)
        if f.test and not f.tester and of and "PartialEq" not in of.derives and ("PartialEq", of.name) not in file.impls:
            yield Refused(f.line, f"`{f.serde['skip_serializing_if']}` compares a `{of.name}`, which does not derive PartialEq:"
                          " derive it there", where)


def check_derives(item: Item, items: Dict[str, Item], file: File) -> Iterator[Refused]:
    """Refuses derives that Rattle does not write for what an item holds."""
    derived = set(item.derives) | {trait for trait, name in file.impls if name == item.name}
    for trait in item.derives:
        missing = [needed for needed in NEEDS.get(trait, []) if needed not in derived]
        if missing:
            yield Refused(item.line, f"`derive({trait})` needs {' and '.join(missing)}: derive that too", item.name)
    if item.parameters and "Copy" in item.derives:
        yield Refused(item.line, "`derive(Copy)` is not covered on a type with parameters, as one that isn't Copy has to be"
                      " dropped: delete Copy", item.name)
    yield from check_imports(item, file)
    yield from check_default(item)
    yield from check_compared(item, items, file)
    for trait in item.derives:
        for where, f in placed(item) if trait not in PASSED and not (trait == "Default" and item.variants) else ():
            yield from (Refused(f.line, why, where) for why in lacking(f.type, trait, items, file))
