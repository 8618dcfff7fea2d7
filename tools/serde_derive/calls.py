"""Functions of the user's that are called as they are, by a path that leads out of the file: what makes a field that is missing,
what says when a field is left out, and what reads and sends one."""
import re
from typing import Dict, Iterator, List, NamedTuple, Set, Tuple

from .cases import pascal
from .declarations import Field, Item, Reading, Refused, Sending, Test
from .files import File
from .homes import STANDARD, Homes, placed_in
from .tokens import KEYWORDS, ROOTS
from .types import ELSEWHERE, HOLDERS, LEAVES, STATIC, Type, angled, snake

PATH = re.compile(r"[a-zA-Z_]\w*(?:::[a-zA-Z_]\w*)+", re.ASCII)
# what a path begins with that names a function of std's, of which the tool knows what it does, or that it doesn't
STD = {*STANDARD, *HOLDERS, *LEAVES, "str", "slice", "Default", "Not", "Self"}
# the types whose values can hold memory, but for those of one's own
IN_MEMORY = {"String", "BoxedStr", "PathBuf", *ELSEWHERE}
ANYTHING = "⊤"  # what contracts say of the value that such a function makes


def is_path(text: str, uses: Dict[str, List[str]]) -> bool:
    """Whether this names a function of the user's by a path, of which the first name may be one that a `use` brings."""
    first, *rest = text.split("::")
    path = [*uses.get(first, [first]), *rest]
    names = path[path[0] in ROOTS:]
    return bool(PATH.fullmatch("::".join(path))) and path[0] not in STD and not {"_", *KEYWORDS} & set(names)


class Called(NamedTuple):
    """A function by its path: the code that names it, and the module and the name of the definition that says what it answers."""

    code: str
    module: str
    name: str

    def last(self) -> str:
        """The name with which it is declared."""
        return self.code.split("::")[-1]


def called(path: str, homes: Homes) -> Called:
    """The function that this path names, or a name that a `use` brings; a ValueError says why it can't be called."""
    path = path if "::" in path else "::".join(homes.path(path))
    before, _, name = path.rpartition("::")
    first = before.split("::")[0]
    if first in homes.file.modules:
        raise ValueError(f"`{first}` {homes.file.modules[first]}: move the function to another module, and name it from `crate` on")
    found = homes.path(before)
    mine = len(found) == 1 and found[0] in homes.items
    if mine:
        found = ["crate", *homes.module, *found]
    elif len(found) == 1 and found[0][:1].isupper():
        raise ValueError(f"the type `{before}` of `{path}` is not in this file: name it by its full path")
    elif not before or (found[:1] == ["crate"] and found[1:] == homes.module) or (
            found[0] != "crate" and path.split("::")[0] in ("crate", "self")):
        raise ValueError(f"`{path}` is no function of another module: move it there, and name it from `crate` on")
    homes.used.add(first)
    whole = path if mine or first in homes.file.uses else "::".join([*found, name])
    if found[-1][:1].isupper():
        name = f"{snake(found.pop())}_{name}"
    crate = homes.crate if found[0] == "crate" else found[0]
    modules = [pascal(module) for module in found[1:] or [crate]]
    return Called(whole, f"Rattle.{crate}.specs.{'.'.join(modules)}", name)


def holds_memory(t: Type, items: Dict[str, Item], seen: Tuple[str, ...] = ()) -> bool:
    """Whether a value of a type can hold memory; one of another file is taken for one that can't."""
    if t.name in IN_MEMORY or any(holds_memory(a, items, seen) for a in t.arguments):
        return True
    return t.name in items and t.name not in seen and any(
        holds_memory(f.type, items, (*seen, t.name)) for f in items[t.name].fields())


def settle_calls(homes: Homes, file: File) -> Iterator[Refused]:
    """Settles how the functions that fields name by a path are called, and tells what is refused of them."""
    taken: Set[str] = set()
    for item in file.items:
        for where, f, *around in placed_in(item):
            try:
                notes = [*settle_made(f, homes), *settle_tested(f, homes)]
                ways = item.ways(f, *around)
                if "Deserialize" in ways:
                    notes += settle_read(f, homes)
                if "Serialize" in ways:
                    notes += settle_sent(f, homes)
            except ValueError as reason:
                yield Refused(f.line, str(reason), where)
            else:
                file.notes += [(f.line, f"called: {note}") for note in notes if note not in taken]
                taken.update(notes)


def settle_made(f: Field, homes: Homes) -> Iterator[str]:
    """Settles the function that makes a field that is missing, with a note of how it is called."""
    if f.maker:
        call = called(f.maker, homes).code + ("(alloc)?" if holds_memory(f.type, homes.items) else "()")
        f.made = f"Ok({call})"
        yield f"`{call}`, of whose value contracts know nothing"


def settle_tested(f: Field, homes: Homes) -> Iterator[str]:
    """Settles the function that says when a field is left out, with a note of what its contract has to be."""
    if f.tester:
        function = called(f.tester, homes)
        f.test = Test(f"({said(function.name, function, homes)} {{x}})", f"{function.code}(value)", "", "")
        yield (f"`{f.tester}`, which needs the contract `ensures {{ result ≡ {function.name} value.now }}`, by the definition"
               f" `{function.module}.{function.name}`")


def settle_read(f: Field, homes: Homes) -> Iterator[str]:
    """Settles the function that reads a field, with a note of what it has to be."""
    path = f.function("deserialize")
    if path:
        function = own_function(path, homes)
        refusal, gives = f"{function.name}_refusal", f"{pascal(function.name)}Gives"
        f.reading = Reading(function.code, *(said(word, function, homes) for word in (refusal, gives)))
        yield (f"`{path}`, which needs the contract `pub fn {function.last()}<'de, 'n: 'de>(alloc: Global,"
               f" from: Deserializer<'de, 'n>) -> Result<{f.type.rust()}> ensures {{ Reads ({refusal} (subject from.entry))"
               f" ({gives} (subject from.entry)) result }}`, by the definitions `{refusal}` and `{gives}` of `{function.module}`")


def settle_sent(f: Field, homes: Homes) -> Iterator[str]:
    """Settles the function that sends a field, with a note of what it has to be."""
    path = f.function("serialize")
    if path:
        function = own_function(path, homes)
        script, lawful = f"{function.name}_script", f"{function.name}_lawful"
        f.sending = Sending(function.code, *(said(word, function, homes) for word in (script, lawful)))
        seen = "_" if f.type.borrows() else f.type.seen()
        given = angled(*(one for one in f.type.borrows() if one != STATIC), "S: Serializer")
        yield (f"`{path}`, which needs the contract `pub fn {function.last()}{given}(value: &{f.type.rust()}, alloc: Global,"
               f" serializer: &mut S) -> Result<()> ensures {{ Sends S.step S.refuses (S.seen serializer.old) ({script} value.now)"
               f" result (S.seen serializer.new) }}`, by the definitions `{script}` and `{lawful}` of `{function.module}`, the latter"
               f" of the type `(x : {seen}) (readable : Bool) → IsLawful ({script} x readable)`; `#[tactic(auto,"
               " using(content_ser::proofs::Sending::sending))]` above it lets its proof be found")


def own_function(path: str, homes: Homes) -> Called:
    """The function of this path that reads or sends a field; a ValueError says why it can't be called."""
    if not is_path(path, homes.file.uses) and (path in homes.file.uses or not re.fullmatch(r"(?!_$)[a-zA-Z_]\w*", path, re.ASCII)):
        raise ValueError(f"`{path}` so is not covered: name a function of another module, from `crate` on")
    return called(path, homes)


def said(word: str, function: Called, homes: Homes) -> str:
    """What contracts call a definition in the module of a function's."""
    if function.module not in homes.said:
        name = f"{snake(function.module.split('.specs.')[1].replace('.', ''))}_said"
        while name in homes.said.values() or name in homes.items:
            name = f"the_{name}"
        homes.said[function.module] = name
    return f"{homes.said[function.module]}.{word}"
