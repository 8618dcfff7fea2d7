"""What a type is read from, and why it is refused."""
from dataclasses import dataclass, replace

from trees import UNIT, image, quoted


class Refused(Exception):
    """A refusal, by its text."""


@dataclass(frozen=True)
class Source:
    """A tree, whether numbers are coerced, whether it is human readable, and Serde's buffer that it is in, if any: `moved`
    out of it, or `kept` there for other attempts. A field's or a variant's name is a tree ("name", text)."""

    tree: tuple
    coerces: bool = False
    human: bool = False
    buffer: str = ""

    def of(self, tree):
        """Another tree of the same."""
        return replace(self, tree=tree)

    def buffered(self, how):
        """The same in a buffer."""
        return replace(self, buffer=how)


def seen(tree):
    """A tree as Serde's visitors see it."""
    if tree[0] == "name":
        return "str", tree[1]
    if tree[0] == "tuple":
        return "seq", tree[1]
    if tree[0] != "struct":
        return tree
    sort, *held = tree[2]
    if sort == "Unit":
        return UNIT
    if sort == "NewType":
        return "newtype", held[0]
    if sort == "Tuple":
        return "seq", held[0]
    return "map", tuple((("name", name), value) for name, value in held[0])


def unexpected(tree):
    """A tree that isn't what was expected, in Serde's words."""
    sort, *parts = seen(tree)
    words = {"()": "unit value", "none": "Option value", "some": "Option value", "newtype": "newtype struct",
             "seq": "sequence", "map": "map", "enum": "enum", "bytes": "byte array"}
    if sort in words:
        return words[sort]
    if sort == "bool":
        return f"boolean `{str(parts[0]).lower()}`"
    if sort == "num":
        return f"integer `{parts[1]}`" + (f" as {parts[0]}" if parts[0].endswith("128") else "")
    return f"character `{parts[0]}`" if sort == "char" else f"string {quoted(parts[0])}"


def visited(tree):
    """The same where a visitor tells it: one that takes no character takes it for a text."""
    return unexpected(("str", tree[1]) if tree[0] == "char" else tree)


def found(tree):
    """A tree that isn't what was expected, in serde-content's words."""
    return tree[1] if tree[0] == "name" else image(tree)


def one_of(names):
    """Serde's list of names."""
    shown = [f"`{name}`" for name in names]
    return {1: "".join(shown), 2: " or ".join(shown)}.get(len(shown), "one of " + ", ".join(shown))


def counted(count, word="element"):
    """A number of things."""
    return f"{count} {word}" + "s" * (count != 1)
