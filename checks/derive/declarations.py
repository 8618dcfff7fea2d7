"""Runs tools/derive on each declaration of checks/derive/declarations: declarations.py TOP [NAME ..], by
checks/derive_declarations.sh. A declaration is what follows a line `// ==== NAME: SOURCE`, up to the next; what it imports
is in IMPORTS."""
import re
import sys
from collections import Counter
from pathlib import Path
from typing import Iterator, List, Tuple

top = Path(sys.argv[1])
sys.dont_write_bytecode = True
sys.path.insert(0, str(top / "tools"))

from serde_derive.declarations import Refusals  # noqa: E402
from serde_derive.module import module  # noqa: E402

IMPORTS = ("use serde::{Deserialize, Serialize};\nuse std::collections::{BTreeMap, BTreeSet, HashMap};\n"
           "use std::path::PathBuf;\n")


def declarations() -> Iterator[Tuple[str, str]]:
    """The name of each declaration, with its text."""
    for file in sorted((top / "checks" / "derive" / "declarations").glob("*.rs")):
        parts = re.split(r"^// ==== (\w+): .*\n", file.read_text(encoding="utf-8"), flags=re.M)
        yield from zip(parts[1::2], parts[2::2])


def refusals(text: str) -> List[str]:
    """What a declaration is refused for."""
    try:
        module(IMPORTS + text, "types.rs", "a", "types", False, [])
    except Refusals as refused:
        return [str(one) for one in refused.each]
    return []


def main() -> int:
    every = dict(declarations())
    names = sys.argv[2:] or list(every)
    refused = {name: why for name in names if (why := refusals(every[name]))}
    for name, why in refused.items():
        print("\n".join(f"{name}: {one}" for one in why))
    reasons = Counter(one.rpartition(": ")[2] for why in refused.values() for one in why)
    print(f"{len(names) - len(refused)} of {len(names)} are taken; {sum(reasons.values())} refusals")
    return 0


if __name__ == "__main__":
    sys.exit(main())
