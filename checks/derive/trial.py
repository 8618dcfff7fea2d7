"""A crate of modules that tools/derive wrote, for `rt try`: it checks Rust's types, and proves nothing."""
import subprocess
import sys
import tempfile
from pathlib import Path
from typing import Dict, Iterable, Iterator, Tuple

from serde_derive.attributes import DERIVES
from serde_derive.declarations import Refusals
from serde_derive.homes import Homes
from serde_derive.module import laws_of, module, read, settled
from serde_derive.types import Type

CRATE = "trial"
ALL = "Clone, Copy, Debug, Default, PartialEq, Eq, PartialOrd, Ord, Hash, Serialize, Deserialize"
# the types of other files that the crate has: those of the stubs, and those that tools/new-project declares
STUBS = {"other": ["Inner", "Thing"], "other::deep": ["Thing", "Third"]}
THERE = {**STUBS, "types": ["Place", "Step"]}


def is_complete(source: str, path: str) -> bool:
    """Whether the crate has what this module names: a type of another file is one of THERE, no function of another
    module is called, no type is converted by one, and no trait that can be derived is given by an impl, which tools/derive
    passes over and leaves to another file. What names its own module by another path may be refused."""
    file = read(source)
    homes = Homes(CRATE, path, file, laws_of)
    try:
        settled(file, homes)
    except Refusals:
        return False
    there = {(homes.specs(CRATE, path.split("::")), name) for path, names in THERE.items() for name in names}
    foreign = {declared for declared in homes.declared.values() if declared[0] != homes.here}
    fields = [field for item in file.items for field in item.fields()]
    calls = any(field.maker or field.tester or field.reading or field.sending for field in fields)
    converted = any(item.conversions for item in file.items)
    named = any(one.opaque and one.is_foreign() for field in fields for one in types_in(field.type))
    return foreign <= there and not (calls or converted or named) and not DERIVES & {trait for trait, _ in file.impls}


def types_in(of: Type) -> Iterator[Type]:
    """The types in a type, itself among them."""
    yield of
    for argument in of.arguments:
        yield from types_in(argument)


def written(source: str, path: str) -> str:
    """The module of these declarations in the crate."""
    return module(source, "types.rs", CRATE, path, True)


def complete(sources: Iterable[str]) -> Iterator[str]:
    """Those declarations of which the modules are complete, and differ from each other."""
    seen = set()
    for source in sources:
        if is_complete(source, "m") and (text := written(source, "m")) not in seen:
            seen.add(text)
            yield source


def stubs() -> Iterator[Tuple[str, str]]:
    """The modules of STUBS, each with its text."""
    for path, names in STUBS.items():
        inner = [other.rpartition("::")[2] for other in STUBS if other.rpartition("::")[0] == path]
        text = written("".join(f"#[derive({ALL})]\npub struct {name}(pub u8);\n" for name in names), path)
        yield path, text + "".join(f"pub mod {name};\n" for name in inner)


def make_crate(top: Path, room: str, modules: Dict[str, str]) -> Path:
    """Makes a crate of the stubs and of these declarations in a repository of tools/new-project."""
    words = [sys.executable, str(top / "tools" / "new-project"), "--cbor", "--nested", CRATE, room]
    subprocess.run(words, check=True, stdout=subprocess.DEVNULL)
    crate = Path(room, "crates", CRATE)
    for path, text in [*stubs(), *((name, written(source, name)) for name, source in modules.items())]:
        file = crate / "src" / f"{path.replace('::', '/')}.rt"
        file.parent.mkdir(exist_ok=True)
        file.write_text(text, encoding="utf-8")
    with open(crate / "src" / "lib.rt", "a", encoding="utf-8") as root:
        root.write("".join(f"pub mod {name};\n" for name in ["other", *modules]))
    return crate


def refused(top: Path, modules: Dict[str, str]) -> str:
    """What `rt try` answers where it refuses the crate of these declarations, else nothing. It runs once more
    where it judged nothing, which is its status 2: it has a limit of time."""
    with tempfile.TemporaryDirectory() as room:
        crate = make_crate(top, room, modules)
        for _ in range(2):
            done = subprocess.run(["rt", "try", "--test"], cwd=crate, capture_output=True, text=True)
            if done.returncode != 2:
                break
        return (done.stdout + done.stderr) * bool(done.returncode)
