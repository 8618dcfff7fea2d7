"""The inputs of checks/refused/lines, calls and pretty, each with its answer."""

import re
import sys
from typing import Iterator, NamedTuple


class Stored(NamedTuple):
    """An input, the answer and the status that are wanted, and the line at which they are stored."""

    text: bytes
    answer: bytes
    status: int
    line: int


def stored(path: str) -> Iterator[Stored]:
    """The inputs of a file, behind which stand `-> STATUS ANSWER`, of one line or more, and an empty
    line where another input follows; behind `-|` the input has no newline at its end."""
    with open(path, "rb") as file:
        contents = file.read()
    begun = 0
    for found in re.finditer(rb"(?m)^-([>|]) (\d) (.*\n(?:.+\n)*)\n?", contents):
        text = contents[begun:found.start()]
        line = contents.count(b"\n", 0, found.start()) + 1
        yield Stored(text[:-1] if found[1] == b"|" else text, found[3], int(found[2]), line)
        begun = found.end()
    if contents[begun:]:
        sys.exit(f"{path}: no answer stands behind {contents[begun:]!r}")
