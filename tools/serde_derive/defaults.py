"""What stands for Rust's Default, whose value takes an allocator where it can hold memory: an impl of Absent."""
from typing import Dict, Iterator, List, Set

from .declarations import Field, Item, Value
from .files import File
from .functions import Functions, said_of
from .types import BORROWED, DEFAULTS, ELSEWHERE, Type, in_term

IN_MEMORY = {"String", "BoxedStr", "PathBuf"} | ELSEWHERE - BORROWED


def takes_memory(t: Type, holding: Set[str]) -> bool:
    """Whether the value of its Default takes an allocator; of this file's types those that hold such values do."""
    return t.name in IN_MEMORY | holding or (t.name != "Option" and any(takes_memory(a, holding) for a in t.arguments))


def lacking_absent(t: Type, items: Dict[str, Item]) -> Iterator[Type]:
    """The types in a type that have no Absent; a type of another file has to have it."""
    mine = items.get(t.name)
    if t.name == "tuple":
        for argument in t.arguments:
            yield from lacking_absent(argument, items)
    elif t.is_array():
        yield from (one if one.home else t for one in lacking_absent(t.arguments[0], items))
    elif (mine and not mine.valued) or (not mine and not t.is_foreign() and t.name not in DEFAULTS):
        yield t


def settle_defaults(ordered: List[Item], items: Dict[str, Item], file: File) -> None:
    """Settles of each item, after those that it holds, whether Absent is written, and whether in place of a Default that
    would take an allocator."""
    holding: Set[str] = set()
    for item in ordered:
        types = [f.type for f in item.data.fields]
        takes = any(takes_memory(t, holding) for t in types)
        if takes:
            holding.add(item.name)
        if item.defaults:
            settle_default(item, types, takes, items, file)
        elif ("Default", item.name) in file.impls:
            settle_by_hand(item, holding, file.functions)
    settle_needed(ordered, file)


def settle_default(item: Item, types: List[Type], takes: bool, items: Dict[str, Item], file: File) -> None:
    """Settles the same of an item that derives Default, whose value takes an allocator or not."""
    elsewhere = any(t.home and t.name not in items for t in types)
    asked = [t for t in types if not (t.opaque and Functions.initial(t))]
    lacks = next((lacking for t in asked for lacking in lacking_absent(t, items)), None)
    item.valued = not lacks and (takes or not elsewhere or "default" in item.serde)
    item.absent = item.valued and (takes or "Deserialize" in item.derives)
    if takes:
        item.derives.remove("Default")
        why = lacks and (f"`{lacks.written()}` has none" if lacks.home or lacks.opaque else f"a `{lacks.written()}` takes memory")
        file.notes.append((item.line, f"left out: `derive(Default)` on `{item.name}`, as {why}: write a `new(alloc)`" if lacks
                           else f"written as `Absent`: `derive(Default)` on `{item.name}`, whose value takes an allocator"))


def settle_by_hand(item: Item, holding: Set[str], functions: Functions) -> None:
    """Settles what stands for an item's own impl of Default: where its body is one value, an impl of Absent with that."""
    item.valued = True
    path = f"{item.name}::default"
    found = functions.given(path, item.itself()) if item.variants else None
    given = functions.fields_given(path, item.name) if item.data.named else {}
    values = {f.name: functions.value(given[f.name][0], f.type, given[f.name][1]) for f in item.data.fields if f.name in given}
    memoryless = all(value and value.code.startswith("Ok(") for value in values.values())
    if values and len(values) == len(item.data.fields) and memoryless:
        made = ", ".join(f"{name}: {value.code[3:-1]}" for name, value in values.items())
        found = Value(" × ".join(said_of(value.fact, f"x.{in_term(name)}") for name, value in values.items()),
                      f"Ok({item.name} {{ {made} }})")
    if found and found.code.startswith("Ok(") and not item.parameters:
        item.absent_value = found
        holding |= {item.name} if "alloc" in found.code else set()


def settle_needed(ordered: List[Item], file: File) -> None:
    """Settles of items with a Default, which is derived or their own, whether Absent is needed, and notes where it has to be
    written by hand."""
    needed: Set[str] = set()
    for item in reversed(ordered):
        if item.name in needed and item.valued and not item.absent:
            item.absent = item.defaults or bool(item.absent_value)
            if not item.absent:
                file.notes.append((item.line, f"to be written by hand: the impl of `Absent` for `{item.name}`, as its impl of"
                                   " `Default` is more than one value"))
        fields = [f for f in item.fields() if item.absent or ("Deserialize" in item.derives and by_type(f))]
        needed |= {name for f in fields for name in names_in(f.type)}


def by_type(f: Field) -> bool:
    """Whether its type says what it is where it is missing, or isn't read: for a tuple, the types in it."""
    return "default" in f.serde and not f.maker and (not f.made or f.type.name == "tuple")


def names_in(t: Type) -> Iterator[str]:
    """The names of the types of which a type's value has values."""
    yield t.name
    for argument in t.arguments if t.name == "tuple" or t.is_array() else ():
        yield from names_in(argument)
