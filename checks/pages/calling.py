#!/usr/bin/env python3
"""Writes docs/calling/: for each library a page of what users can call, with the clauses as the sources have them.

  checks/pages/calling.py          writes the pages
  checks/pages/calling.py --check  writes nothing, and names each page that isn't current (status 1)

A page has, file by file, the public items that `lib.rt` leads to: functions, types with their methods, traits with their
members. Of implementations of traits those are quoted that say what a call gives, or add clauses; for a trait of the
libraries the types are listed. The script reads sources as `rt fmt` lays them out: by their indentation.
"""
import re
import sys
from pathlib import Path
from textwrap import dedent
from typing import Dict, Iterator, List, NamedTuple, Set, Tuple

TOP = Path(__file__).resolve().parents[2]
FOLDER = TOP / "docs" / "calling"
LIBRARIES = ["content_tree", "content_ser", "content_build", "content_de", "serde_content", "content_nested", "content_cbor", "content_json",
             "content_uses", "content_lines"]
# What an implementation of a trait of std defines to say what its calls give.
MEANINGS = ("from_gives", "try_from_gives", "output", "eq", "cmp", "is_default", "view")
PUBLIC = re.compile(r"^pub (fn|trait|struct|enum|type|const) (\w+)", re.M)
# An implementation: of a type, or of a trait for a type.
IMPL = re.compile(r"impl(?:<.*?>)? (?:\w+::)*(\w+)(?:.* for (.*?)|.*?)(?: where .*)?$")
OPENING = """# Calling `{}`

{}

[CALLING](../CALLING.md#what-contracts-see) explains the words in clauses. The `ghost use` lines of a file say where they are
defined. `checks/pages/calling.py` writes this page from the sources.
"""
# What a page has before what `derive_support` leads to.
DERIVED = """## For `tools/derive`

All that follows is in the module `derive_support`, for the code that `tools/derive` writes. Don't call it by hand, since it
changes with that tool.
"""


class Item(NamedTuple):
    """An item of a source: the first sentence of its doc comment, its lines before the body, and those of the body."""

    about: str
    head: List[str]
    body: List[str]


class Library(NamedTuple):
    """A library: its files in order, those that are public modules, the names that users reach, other types."""

    name: str
    files: Dict[str, str]
    modules: Set[str]
    names: Set[str]
    hidden: Set[str]


def sentence(doc: List[str]) -> str:
    """The first sentence of a doc comment, without links; an empty line ends it too."""
    text = " ".join(doc[: doc.index("")] if "" in doc else doc)
    text = re.sub(r"\[(`[^`]+`)\](?:\([^)]*\))?|\[([^\]`]+)\]\([^)]*\)", r"\1\2", text)
    return re.sub(r":$", ".", re.match(r"(.*?\.(?= [A-Z`(])|.*)", text)[0])


def divided(lines: List[str], margin: str) -> Tuple[List[str], List[str]]:
    """The lines of an item before its body, and those of the body."""
    ends = [] if lines[-1].endswith(";") else [at for at, line in enumerate(lines) if line in (margin + "{", margin + "{}")]
    if ends or lines[-1].endswith(";"):
        return lines[: (ends or [None])[0]], lines[ends[0] + 1 : -1] if ends else []
    at = next(at for at, line in enumerate(lines) if line.endswith((" {", " {}")))
    return [*lines[:at], lines[at].rpartition(" {")[0]], lines[at + 1 : -1]


def items(lines: List[str], indent: int) -> Iterator[Item]:
    """The items that begin at this indentation."""
    pieces: List[List[str]] = []
    for line in filter(None, lines):
        if re.match(r"[ {})\]>]|where\b", line[indent:]):
            pieces[-1].append(line)
        else:
            pieces.append([line])
    doc: List[str] = []
    for piece in pieces:
        if piece[0].startswith("///", indent):
            doc.append(piece[0][indent + 4 :])
        elif not piece[0].startswith(("#", "//"), indent):
            yield Item(sentence(doc), *divided(piece, " " * indent))
            doc = []


def leads(text: str) -> Iterator[Tuple[str, List[str]]]:
    """What a file re-exports: the module or the crate from which it comes, and the names."""
    for path, listed in re.findall(r"^pub use ([\w:]+?)(?:::\{(.*?)\})?;", text, re.M | re.S):
        yield path.partition("::")[0], re.findall(r"\w+", listed) or [path.rpartition("::")[2]]


def library(name: str) -> Library:
    """Reads a library."""
    source = TOP / "crates" / name / "src"
    paths = sorted(source.rglob("*.rt"), key=lambda it: (it != source / "lib.rt", it.with_suffix("").parts))
    files = {str(it.relative_to(source)): it.read_text(encoding="utf-8") for it in paths}
    modules = {"lib.rt", *(f"{it}.rt" for it in re.findall(r"^pub mod (\w+);", files["lib.rt"], re.M))}
    names = {it for file in modules for origin, listed in leads(files[file]) if origin not in LIBRARIES for it in listed}
    names |= {it for file in modules for _, it in PUBLIC.findall(files[file])}
    types = {it for text in files.values() for it in re.findall(r"^(?:pub.*)?(?:struct|enum) (\w+)", text, re.M)}
    return Library(name, files, modules, names, types - names)


def flat(head: List[str]) -> str:
    return re.sub(r"\s+", " ", " ".join(head))


def quoted(about: str, *heads: List[str]) -> str:
    """A sentence, and lines of the source below it."""
    block = "```rust\n" + dedent("\n".join(line for head in heads for line in head)) + "\n```\n"
    return "\n".join([f"{about}\n"] * bool(about) + [block] * bool(heads))


def implemented(libraries: List[Library]) -> Dict[str, List[str]]:
    """The types for which the libraries implement traits, by the names of the traits."""
    found: Dict[str, List[str]] = {}
    for lib in libraries:
        for head in (flat(item.head) for text in lib.files.values() for item in items(text.split("\n"), 0)):
            impl = IMPL.match(head)
            if impl and impl[2] and not lib.hidden & {*re.findall(r"\w+", head)}:
                found.setdefault(impl[1], []).append(f"`{impl[2]}`")
    return found


def implementation(item: Item, of_trait: bool) -> List[str]:
    """What is quoted of an implementation: its public methods; of a trait the meanings, and what has clauses of its own."""
    members = list(items(item.body, 4))
    if not of_trait:
        return [quoted(it.about, it.head) for it in members if it.head[0].startswith("    pub fn")]
    heads = [it.head for it in members if it.head[0].split()[1] in MEANINGS or "ensures" in flat(it.head).split()]
    return [quoted(item.about, item.head, *heads)] if heads else []


def declaration(item: Item, kind: str, types: List[str]) -> List[str]:
    """What is quoted of a declaration: its head, unless its body is data; the members of a trait, and its types."""
    parts = [quoted(item.about, *[item.head] * (kind in ("fn", "trait") or item.head[-1].endswith(";")))]
    if kind == "trait":
        parts += [f"It is implemented for {', '.join(dict.fromkeys(types))}.\n"] * bool(types)
        members = items(item.body, 4)
        parts += [quoted(it.about, it.head) for it in members if not it.head[0].startswith("    ghost use")]
    return parts


def section(lib: Library, file: str, types: Dict[str, List[str]]) -> List[str]:
    """What the page of a library has of a file."""
    parts, last, lines = [], "", lib.files[file].split("\n")
    for item in items(lines, 0):
        impl, public = IMPL.match(flat(item.head)), PUBLIC.match(item.head[0])
        name, told = "", []
        if impl and not lib.hidden & {*re.findall(r"\w+", flat(item.head))}:
            name, told = (impl[2] or impl[1]).partition("<")[0], implementation(item, bool(impl[2]))
        elif public and public[2] in lib.names:
            name, told = public[2], declaration(item, public[1], types.get(public[2], []))
        if told:
            parts += [f"### `{name}`\n"] * (name != last) + told
            last = name
    if file in lib.modules:
        parts += [f"From [`{origin}`]({origin}.md): {', '.join(f'`{it}`' for it in names)}.\n"
                  for origin, names in leads(lib.files[file]) if origin in LIBRARIES]
    about = sentence([it[4:] for it in lines if it.startswith("//!")]).rstrip(".")
    heading = [f"## {about}\n", f"[`{file}`](../../crates/{lib.name}/src/{file})\n"] * (file != "lib.rt")
    return heading + parts if parts else []


def derived(lib: Library) -> List[str]:
    """The files to which `derive_support` alone leads: a page has them last."""
    modules = re.findall(r"^pub use crate::(\w+)", lib.files.get("derive_support.rt", ""), re.M)
    return [file for file in lib.files if Path(file).parts[0].removesuffix(".rt") in modules]


def pages() -> Dict[Path, str]:
    """The pages as they should be."""
    libraries = [library(it) for it in LIBRARIES]
    types, made = implemented(libraries), {}
    for lib in libraries:
        about = re.match(r"(?://! .*\n)+", lib.files["lib.rt"])[0].replace("//! ", "").strip()
        last = derived(lib)
        first = [file for file in lib.files if file not in last]
        parts = [OPENING.format(lib.name, about), *(it for file in first for it in section(lib, file, types))]
        parts += [DERIVED] * bool(last) + [it for file in last for it in section(lib, file, types)]
        made[FOLDER / f"{lib.name}.md"] = "\n".join(parts)
    return made


def stale() -> List[str]:
    """The pages that aren't current."""
    current = {it: it.read_text(encoding="utf-8") for it in FOLDER.glob("*")}
    return [str(it.relative_to(TOP)) for it, text in pages().items() if current.get(it) != text]


def main() -> int:
    """Writes the pages, or compares them."""
    if sys.argv[1:] == ["--check"]:
        names = stale()
        print("".join(f"{it} isn't current: run checks/pages/calling.py\n" for it in names), end="")
        return 1 if names else 0
    for path, text in pages().items():
        path.write_text(text, encoding="utf-8")
    return 0


if __name__ == "__main__":
    sys.exit(main())
