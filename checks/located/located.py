"""Takes the cases out of crates/check_typed/stdin, and compares their paths with Serde's.

  located.py cases ROWS                    prints each case as a line: the type, a tab, JSON
  located.py table ROWS SERDE VERSION      prints the table, with Serde's path of each case out of the file SERDE

A case is a row that is refused: a row `with` below the depot, or a row `read` of a type that beside/ reads.
"""
import json
import re
import sys
from itertools import groupby
from pathlib import Path

REFUSED = re.compile(r'refused at "(?P<path>.*?)": ')
OTHER_TYPES = ("Change", "Depot", "Grade", "Setting", "Task", "u8", "(u8, bool)", "Vec<Option<Box<u8>>>")

HEAD = """\
# Paths of errors, here and in Serde: what checks/located.sh compares, or with --write stores. A line has four parts, with
# tabs between: what is replaced in the depot, by what, the path at which the depot is refused then, and the path of
# serde_path_to_error {version}. In the last part it is the type that is read, and from what. The type of the depot is in
# crates/check_derive/places.rs; it is JSON without double quotes.
# Serde's path ends at what Serde buffers: a struct with an inlined one, if what is inlined is refused, and the variant of
# an enum that a field tells. It has `?` for a number that is a key, and leads to an unknown field, a refused key and an
# unknown tag, not to what contains them.
"""


def tokens(text: str):
    return [token.removesuffix(",") for token in text.split()]


def leaf(token: str) -> str:
    """The JSON of a token that is no key."""
    if re.fullmatch(r"-?\d+|true|false|null|[\[\]{}]", token):
        return token
    return json.dumps(token.strip("'"))


def written(words) -> str:
    """The JSON of these tokens, or none where one is a key that JSON hasn't."""
    parts = []
    for at, word in enumerate(words):
        if word in ("true:", "false:", "null:"):
            return "none"
        if word.endswith(":"):
            parts.append(json.dumps(word.removesuffix(":").strip("'")) + ":")
            continue
        parts.append(leaf(word))
        follows = words[at + 1] if at + 1 < len(words) else "}"
        if word not in "[{" and follows not in ("]", "}"):
            parts.append(",")
    return " ".join(parts)


def rows_of(source: str):
    """Each row: the comment above it, and its four columns."""
    what = ""
    for line in source.splitlines():
        if line.startswith("#"):
            what = line.removeprefix("# ")
        elif line:
            yield what, line.split("\t")


def path_of(answer: str):
    """The path at which this answer says that a value was refused, if it says so."""
    refused = REFUSED.match(answer)
    return refused and refused["path"]


def depot_of(source: str):
    return tokens(next(text for _, (operation, typ, text, _) in rows_of(source) if (operation, typ) == ("read", "Depot")))


def changes_of(source: str):
    """Each part of the changes to the depot: what is said of them, and of each the token, the others and the path."""
    base, changes = None, []
    for what, (operation, second, others, wanted) in rows_of(source):
        if operation != "with":
            base = second
        elif base == "Depot" and path_of(wanted) is not None:
            changes.append((what, (second, others, path_of(wanted))))
    for what, part in groupby(changes, lambda change: change[0]):
        yield what, [change for _, change in part]


def others_of(source: str):
    """The type, the text and the path of each other case."""
    for _, (operation, typ, text, wanted) in rows_of(source):
        if operation == "read" and typ in OTHER_TYPES and path_of(wanted) is not None:
            yield typ, text, path_of(wanted)


def changed(document, token: str, others: str):
    if document.count(token) != 1:
        sys.exit(f"located: the depot has {token} {document.count(token)} times")
    at = document.index(token)
    return document[:at] + tokens(others) + document[at + 1:]


def lines_of(source: str):
    depot = depot_of(source)
    yield f"Depot\t{written(depot)}"
    for _, changes in changes_of(source):
        for token, others, _ in changes:
            yield f"Depot\t{written(changed(depot, token, others))}"
    for typ, text, _ in others_of(source):
        yield f"{typ}\t{written(tokens(text))}"


def table(source: str, serde, version: str):
    paths = iter(serde)
    if next(paths) != "none":
        sys.exit("located: Serde refuses the depot")
    yield HEAD.format(version=version)
    for what, changes in changes_of(source):
        yield f"# {what}"
        for token, others, path in changes:
            yield "\t".join((token, others, path, told(path, next(paths))))
        yield ""
    yield "# Other types"
    for typ, text, path in others_of(source):
        yield "\t".join((typ, text, path, told(path, next(paths))))


def told(path: str, serde: str) -> str:
    return "the same" if path == serde else "no JSON" if serde == "none" else serde or "the whole value"


if __name__ == "__main__":
    command, source, *rest = sys.argv[1:]
    text = Path(source).read_text()
    if command == "cases":
        print(*lines_of(text), sep="\n")
    else:
        print(*table(text, Path(rest[0]).read_text().split("\n")[:-1], rest[1]), sep="\n")
