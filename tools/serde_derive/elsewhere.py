"""What types of other files have to have, for what is written of those that hold them."""
from typing import Iterator, List, Tuple

from .attributes import SERDE
from .declarations import Field, Item, Named
from .files import File
from .homes import needed, placed_in
from .types import Type

FIRST = ["Serialize", "Deserialize", "PartialEq", "Eq"]
NOT_ASKED = {"Drop", "Default", *SERDE}  # derives that don't ask their like of each field


def types_in(t: Type) -> Iterator[Type]:
    """The types in a type, and itself."""
    yield t
    for argument in t.arguments:
        yield from types_in(argument)


def asked(item: Item, f: Field, around: List[Named], cbor: bool) -> List[str]:
    """The traits that the type of a field has to have."""
    used = needed(item, f, *around)
    if not used:
        return []
    used |= set(item.derives) - NOT_ASKED
    back = ["RoundTrip"] * item.comes_back() + ["CborRoundTrip"] * (cbor and item.comes_back_from_cbor())
    return [trait for trait in FIRST if trait in used] + sorted(used - set(FIRST)) + back


def elsewhere(file: File, cbor: bool) -> Iterator[Tuple[int, str]]:
    """Notes of the traits that types of other files have to have, one for each type."""
    here, found = {item.name for item in file.items}, {}  # by name: the first line, and the traits in their order
    for item in file.items:
        for _, f, *around in placed_in(item):
            traits = asked(item, f, around, cbor)
            for t in types_in(f.type) if traits else ():
                if t.home and t.name not in here:
                    found.setdefault(t.name, (f.line, {}))[1].update(dict.fromkeys(traits))
    for name, (line, traits) in found.items():
        without = "; delete Eq here if it has no RoundTrip" * ("RoundTrip" in traits)
        yield line, f"of another file: `{name}`, which needs {', '.join(traits)}{without}"
