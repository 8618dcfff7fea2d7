"""Reads what stands before a declaration: documentation, derives, Serde's attributes and others."""
import re
from dataclasses import dataclass, field
from typing import Dict, List, Set, Tuple

from .cases import CASES
from .declarations import NotRust, Refused
from .tokens import Cursor, text_of

SKIP = {"skip", "skip_serializing", "skip_deserializing"}
# what names functions of the user's that read and send a field
OWN_FUNCTIONS = ("with", "deserialize_with", "serialize_with")
# what names a type that a container is read or sent as, and the trait that is then not derived
CONVERSIONS = {"from": "Deserialize", "try_from": "Deserialize", "into": "Serialize"}
COVERED = {
    "a container": {"rename", "rename_all", "rename_all_fields", "deny_unknown_fields", "untagged",
                    "tag", "content", "transparent", "default", *CONVERSIONS, "bound", "crate", "expecting"},
    "a variant": {"rename", "rename_all", "alias", "other", *SKIP, "bound", "borrow"},
    "a field": {"rename", "alias", "default", "flatten", "skip_serializing_if", *OWN_FUNCTIONS, *SKIP, "bound", "borrow"},
}
# those of them that are passed over, as nothing is sent or read by them here
PASSED_OVER = {
    "bound": "each impl has the bounds that it needs",
    "borrow": "what is read is owned",
    "crate": "what is written uses `serde_content`",
    "expecting": "refusals have a text of their own",
}
# why others of Serde's attributes are not covered, and what to write instead
NOT_COVERED = {
    **dict.fromkeys(["remote", "getter"], "only your own types are sent: declare one like it, and convert it by hand"),
    "untagged": "it is for a container: hold this enum and what the variant holds in an enum that is untagged",
}
NO_NAME = "an empty name is not covered: give one of at least a letter"
VALUED = {"tag", "content", "skip_serializing_if", "alias", *OWN_FUNCTIONS, *CONVERSIONS}
DERIVES = set("Clone Copy Debug Default Drop Eq Hash Ord PartialEq PartialOrd Serialize Deserialize".split())
SERDE = {"Serialize", "Deserialize"}
CRATES = {"std", "core", "alloc", "serde", "serde_derive"}
# attributes that change nothing of what is written, and those of which it is said that they are left out
PASSED = set("""allow expect warn deny forbid inline cold automatically_derived rustfmt clippy diagnostic track_caller
test ignore macro_use macro_export path""".split())
DEFAULT = "#[default]"
DROPPED = {"repr", "non_exhaustive", "must_use", "deprecated"}


@dataclass
class Head:
    """What stands before a declaration: the lines that are kept, derives, the names that these begin with, Serde's
    attributes, what is refused where the declaration is covered otherwise, and notes; under a condition it is `optional`."""

    lines: List[str] = field(default_factory=list)
    derives: List[str] = field(default_factory=list)
    derived: Set[str] = field(default_factory=set)
    serde: Dict[str, str] = field(default_factory=dict)
    refused: List[Refused] = field(default_factory=list)
    notes: List[Tuple[int, str]] = field(default_factory=list)
    optional: bool = False


# signs that Rattle takes in no comment: controls, directions, separators of lines, and halves of signs
NOT_SEEN = re.compile(r"[\x00-\x1f\x7f-\x9f\u2028-\u202e\u2066-\u2069\ud800-\udfff]")


def doc_line(text: str) -> str:
    """A line of documentation as Rattle takes it."""
    return NOT_SEEN.sub(" ", text.replace("\t", "    ")).rstrip()


def no_rule(name: str) -> str:
    """Why a trait is not derived."""
    return (f"`derive({name})` is not covered, as no rule of Rattle writes it: delete it here, and write its impl by hand"
            " where you need it")


def why_unsaid(name: str) -> str:
    """Why a name is not sent, and what to write instead."""
    return (f"the name `{ascii(name)[1:-1]}` is not covered: printable ASCII but \" and \\ is: write such a name, or the impls by"
            " hand")


class Attributes(Cursor):
    """Reads attributes."""

    def head(self, level: str) -> Head:
        """All that stands before a declaration."""
        head = Head()
        while self.next.text == "#" or (self.next.sort == "doc" and self.next.text.startswith("///")):
            if not self.eat("#"):
                head.lines.append(doc_line(self.take().text))
                continue
            if self.next.text != "[":
                self.expect("[")
            end = self.pairs[self.place]
            self.take()
            try:
                self.attribute(level, head)
                if self.place != end:
                    self.expect("]")
            except NotRust:
                raise
            except Refused as refused:
                head.refused.append(refused)
            self.place = end + 1
        return head

    def attribute(self, level: str, head: Head) -> None:
        """An attribute, as it stands in its brackets; an unsafe one is of functions, which are passed over."""
        if self.eat("unsafe"):
            self.pass_to()
            return
        start, line, name = self.place, self.next.line, self.path()
        if name == ["derive"]:
            self.expect("(")
            self.listed(")", lambda: self.derive(head))
        elif name == ["serde"]:
            self.expect("(")
            self.listed(")", lambda: self.one_of_serde(level, head))
        elif name == ["cfg_attr"]:
            self.conditional(level, head)
        elif name == ["doc"]:
            self.documentation(head.lines)
        elif name == ["default"] and level == "a variant":
            if DEFAULT in head.lines:
                raise NotRust(line, f"`{DEFAULT}` stands twice")
            head.lines.append(DEFAULT)
        else:
            self.foreign(start, line, name[0], head)

    def derive(self, head: Head) -> None:
        """One of the traits that are derived, once."""
        path = self.path()
        head.derived.add(path[0])
        ours = len(path) == 1 or path[0] in CRATES
        name = path[-1] if ours else "::".join(path)
        if name not in DERIVES and head.optional:
            head.notes.append((self.next.line, f"left out: `derive({name})`, as no rule of Rattle writes it"))
        elif name not in DERIVES:
            head.refused.append(Refused(self.next.line, no_rule(name)))
        elif name not in head.derives:
            head.derives.append(name)

    def conditional(self, level: str, head: Head) -> None:
        """Attributes under a condition, which is taken to hold; what no derive of Rattle reads is left out."""
        head.notes.append((self.next.line, "read as if its condition held: `#[cfg_attr]`"))
        self.expect("(")
        self.pass_to(",")
        self.expect(",")
        before, head.optional = head.optional, True
        try:
            self.listed(")", lambda: self.attribute(level, head))
        finally:
            head.optional = before

    def documentation(self, lines: List[str]) -> None:
        """`#[doc = ".."]` as lines of documentation; `#[doc(..)]` is passed over."""
        if self.eat("=") and self.next.sort == "text":
            lines += [doc_line(f"/// {line.strip()}") for line in text_of(self.take()).split("\n")]
        else:
            self.pass_to(",")

    def foreign(self, start: int, line: int, name: str, head: Head) -> None:
        """An attribute that is not Serde's."""
        self.pass_to(",")
        shown = self.shown(start, self.place)
        if name == "cfg":
            raise Refused(line, f"`#[{shown}]` is not covered, as the module is written once for all: delete it,"
                          " or move what it is about to a file of its own")
        if name in DROPPED or (head.optional and name not in PASSED):
            head.notes.append((line, f"left out: `#[{shown}]`"))
        elif name not in PASSED:
            raise Refused(line, f"the attribute `{name}` is not covered, as no derive of Rattle reads it: delete it")

    def one_of_serde(self, level: str, head: Head) -> None:
        """The same, where what is refused is kept, and the attribute passed."""
        start = self.place
        try:
            self.serde(level, head)
        except NotRust:
            raise
        except Refused as refused:
            head.refused.append(refused)
            self.place = start
            self.pass_to(",")

    def serde(self, level: str, head: Head) -> None:
        """One of Serde's attributes."""
        start, line, key, into = self.place, self.next.line, self.take().text, head.serde
        if key not in COVERED[level]:
            levels = " or ".join(other for other, keys in COVERED.items() if key in keys)
            why = NOT_COVERED.get(key, f"it is for {levels}" if levels else "delete it, or write the impls by hand")
            if key in OWN_FUNCTIONS and level == "a variant":
                why = "write it on the one field of the variant, and hold a struct there in place of several"
            raise Refused(line, f"serde's `{key}` on {level} is not covered: {why}")
        if key in PASSED_OVER:
            self.pass_to(",")
            head.notes.append((line, f"passed over: `{self.shown(start, self.place)}`, as {PASSED_OVER[key]}"))
            return
        if key in into and key != "alias":
            raise Refused(line, f"serde's `{key}` stands twice: delete one of them")
        if self.next.text == "(" and key.startswith("rename"):
            into[key] = self.directions(line, key)
            return
        valued = self.eat("=")
        needs = key in VALUED or key.startswith("rename")
        if self.next.text == "(" or (key != "default" and valued != needs):
            why = f"write `{key} = \"..\"`" if needs else f"write `{key}` alone"
            raise Refused(line, f"serde's `{key}` so is not covered: {why}")
        value = text_of(self.take()) if valued else ""
        if valued and not value and key in (*OWN_FUNCTIONS, "default", "skip_serializing_if"):
            raise NotRust(line, f"serde's `{key}` names no function: write its path")
        if valued and not value and key in CONVERSIONS:
            raise NotRust(line, f"serde's `{key}` names no type: write one")
        if valued and not value and key == "rename":
            raise Refused(line, NO_NAME)
        if "\n" in value:
            raise Refused(line, why_unsaid(value))
        into[key] = f"{into[key]}\n{value}" if key in into else value
        self.check_case(line, key, into[key])

    @staticmethod
    def check_case(line: int, key: str, case: str) -> None:
        """Refuses a case that Serde doesn't know."""
        if key.startswith("rename_all") and case not in CASES:
            raise Refused(line, f"serde's `{key}` knows no case `{case}`: it has {', '.join(CASES)}")

    def directions(self, line: int, key: str) -> str:
        """The name or case for sending and the one for reading, a line each; one that isn't given is empty."""
        given = {"serialize": "", "deserialize": ""}

        def one() -> None:
            direction = self.take().text
            self.expect("=")
            if given.get(direction) != "":
                raise Refused(line, f"serde's `{key}` knows `serialize` and `deserialize`, each once")
            given[direction] = text_of(self.take())
            if key == "rename" and not given[direction]:
                raise Refused(line, NO_NAME)
            self.check_case(line, key, given[direction])

        self.expect("(")
        self.listed(")", one)
        return "\n".join(given.values())
