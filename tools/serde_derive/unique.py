"""Names of functions and of contracts, each once in a module."""
import re
from typing import Callable, Dict, List, Set, Tuple

from .cases import pascal
from .declarations import Item
from .holder import LONGEST_HELD
from .text import alias
from .types import snake
from .words import USES, WORDS

# what functions of an owner begin with
VERBS = ("send_whole", "send_told", "send_entries_of", "read", "make", "made", "known")
FUNCTIONS = {name for names in USES.values() for name in names.split() if name.islower()}
# what is called after an owner
ROW = re.compile(r"(?:fields|names|aliases|meant|tags|sent|told|back|(?:field|part|from|read|sent|send|default|unless)\d+)of(.+)")
KINDS = ("serialize", "send_entries", "round_trip", "cbor_round_trip", "not_null", "ord", "eq")


def fresh(name: str, more: str, clashes: Callable[[str], bool]) -> str:
    """The name, made longer until it clashes with none."""
    while clashes(name):
        name += more
    return name


def name_functions(items: List[Item]) -> None:
    """Names what the functions, lists and rows of items and variants are called after; those of items come first.
    Rattle does not tell names that differ in the case of letters alone."""
    taken: Set[str] = set()
    lists: Set[str] = set()
    names = {item.name.lower() for item in items}
    forbidden = FUNCTIONS | set(WORDS) | names
    owned = {found.group(1) for found in map(ROW.fullmatch, names) if found}

    def clashes(name: str) -> bool:
        listed = pascal(name).lower()
        return (name in taken or listed in lists or listed in owned
                or any(f"{verb}_{name}" in forbidden for verb in VERBS))

    for more, named in ("_type", [(item, item.name) for item in items]), (
            "_variant", [(v, item.name + v.name) for item in items for v in item.variants]):
        for one, name in named:
            one.owner = fresh(snake(name), more, clashes)
            taken.add(one.owner)
            lists.add(pascal(one.owner).lower())
    for v in [v for item in items for v in item.variants if "content" in item.serde and v.data.several]:
        v.content = fresh(f"{v.owner}_content", "_variant", lambda name: clashes(name) or pascal(name).lower() in names)
        taken.add(v.content)
        lists.add(pascal(v.content).lower())


def name_cases(items: List[Item], types: Dict[str, Tuple[str, str]], modules: Set[str]) -> None:
    """Names what contracts call the cases of enums by, with the home and name of each own type by what it is called, and what
    they call modules by."""
    taken = {item.name for item in items} | {declared for _, declared in types.values()} | modules
    taken |= {f"{word}_{kind}" for word in [*map(snake, taken), *types] for kind in (*KINDS, "as_seen")}
    for item in items:
        places = {place for v in item.variants if v.signed() or len(v.data.fields) > LONGEST_HELD for place in v.data.places()}
        item.cases = alias(item.name)
        while item.cases in taken or item.cases in places:
            item.cases = f"the_{item.cases}"
        taken.add(item.cases)
