"""The pages of the repository, and the examples of programs that they show."""

import os
import re
import subprocess
import sys
from typing import Iterator, List, NamedTuple, Tuple


class Example(NamedTuple):
    """A program with its arguments, what it reads, and the answer that the page shows: how it is told there, and the
    line at which the answer begins."""

    page: str
    line: int
    shown: str
    program: str
    arguments: List[str]
    text: bytes
    wanted: str


def read(path: str) -> str:
    with open(path, encoding="utf-8") as it:
        return it.read()


def files_below(top: str) -> List[str]:
    """The files of the repository, by their paths in it."""
    found = []
    for at, folders, names in os.walk(top):
        folders[:] = [it for it in folders if it not in ("out", ".git")]
        found += [os.path.relpath(f"{at}/{it}", top) for it in names]
    return found


def pages_of(files: List[str]) -> List[str]:
    return [it for it in files if re.fullmatch(r"[A-Z]+\.md|docs/\w+\.md|(bench|crates/\w+)/README\.md", it)]


def blocks_of(text: str) -> List[Tuple[str, str, str]]:
    """The fenced blocks: the words behind the fence, the text, and the text of the page before each, from the block above."""
    found, after = [], 0
    for it in re.finditer(r"^```(\w*)\n(.*?)^```$", text, re.M | re.S):
        found.append((it[1], it[2], text[after : it.start()]))
        after = it.end()
    return found


def prose_of(text: str) -> str:
    return re.sub(r"^```.*?^```$", "", text, flags=re.M | re.S)


def examples_of_lines(page: str, text: str) -> Iterator[Example]:
    """The rows of the tables with a column 'Lines ..' and one 'Answer': content_cli reads them."""
    heads = None
    for line in prose_of(text).split("\n"):
        cells = [it.strip() for it in line.strip("|").split("|")] if line.startswith("|") else None
        if cells is None or heads is None:
            heads = cells
            continue
        at = next((i for i, it in enumerate(heads) if it.startswith("Lines")), None)
        if at is None or "Answer" not in heads or set("".join(cells)) <= {"-"}:
            continue
        lines = re.findall(r"`([^`]*)`", cells[at])
        if "after `map`, before `end`" in heads[at]:
            lines = ["map", *lines, "end"]
        wanted = cells[heads.index("Answer")].strip("`")
        given = "".join(f"{it}\n" for it in lines).encode()
        yield Example(page, text.split("\n").index(line) + 1, " ".join(lines), "content_cli", [], given, f"{wanted}\n")


def examples_of_commands(page: str, text: str) -> Iterator[Example]:
    """The commands after a $: a program of a crate, and before a bar what writes its input."""
    for word, block, _ in blocks_of(text):
        if word == "" and block.startswith("$ "):
            command, _, wanted = block[2:].partition("\n")
            writer, _, called = command.rpartition(" | ")
            path, *arguments = called.split()
            given = subprocess.run(["bash", "-c", writer], stdout=subprocess.PIPE, check=True).stdout
            crate = re.fullmatch(r"crates/(\w+)/out/\1", path)
            if not crate:
                sys.exit(f"{page}: {command}: {path} is no program of a crate")
            begun = text.count("\n", 0, text.index(block)) + 2
            yield Example(page, begun, command, crate[1], arguments, given, wanted)


def examples(top: str) -> Iterator[Example]:
    """The examples of all pages."""
    for page in pages_of(files_below(top)):
        text = read(f"{top}/{page}")
        yield from examples_of_lines(page, text)
        yield from examples_of_commands(page, text)
