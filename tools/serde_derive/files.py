"""Reads a whole file of Rust: the types to write, and what stands beside them."""
from dataclasses import dataclass, field
from itertools import islice
from typing import Dict, Iterator, List, Set, Tuple

from .attributes import SERDE, Head, doc_line
from .declarations import Item, NotRust, Refused
from .functions import Functions
from .parser import BEGIN_ITEMS, Parser
from .tokens import KEYWORDS, ROOTS, text_of
from .types import Type

# crates that have the same types as std
SAME = {"core": "std", "alloc": "std"}
# what is said of an item that is not copied
ELSEWHERE = "write it in another module, if code needs it"
# the words that may stand before the one that says what an item is
BEFORE = {"async", "unsafe", "default", "auto"}
NAMED = {"fn", "trait", "mod", "const", "static", "crate"}
WITH_SEMICOLON = {"const", "static", "crate"}
# what stands for a name in `const _`, and in `extern crate self as a`
NAMELESS = {"const": "_", "crate": "self"}


@dataclass
class File:
    """What a file holds: its documentation, the paths that it uses, its types, by what aliases stand
    for, the types that are passed over with the reason, those of them that are `plain`, as they derive neither of Serde's traits,
    the traits that impls give to types, functions, the `others` that are not copied, each with its line and the paths of the
    functions in it, and notes.
    `modules` has what is said of those that are passed over, `lines` what each name of a `use` or an alias stands for
    first, and its line, `brought` what each private `use` brings, with its line, and `derived` the names that derives begin
    with."""

    docs: List[str] = field(default_factory=list)
    uses: Dict[str, List[str]] = field(default_factory=dict)
    items: List[Item] = field(default_factory=list)
    aliases: Dict[str, Type] = field(default_factory=dict)
    passed: Dict[str, str] = field(default_factory=dict)
    plain: Set[str] = field(default_factory=set)
    modules: Dict[str, str] = field(default_factory=dict)
    impls: Set[Tuple[str, str]] = field(default_factory=set)
    functions: Functions = field(default_factory=Functions)
    others: List[Tuple[int, str, Set[str]]] = field(default_factory=list)
    notes: List[Tuple[int, str]] = field(default_factory=list)
    refused: List[Refused] = field(default_factory=list)
    lines: Dict[str, Tuple[object, int]] = field(default_factory=dict)
    brought: List[Tuple[int, str, List[str]]] = field(default_factory=list)
    derived: Set[str] = field(default_factory=set)

    def not_copied(self) -> Iterator[Tuple[int, str]]:
        """Notes of the others; of those with a function that an attribute asks for, what it gives is written."""
        for line, shown, paths in self.others:
            given = paths & self.functions.used
            more = ", but what it gives is written where an attribute asks for it" if given else f": {ELSEWHERE}"
            yield line, f"not copied: `{shown}`{more}"

    def declare(self, name: str, stands_for: object, line: int) -> None:
        """Keeps what a name stands for; one that stands for two things, which `cfg` tells apart, is passed over."""
        first, before = self.lines.setdefault(name, (stands_for, line))
        if first != stands_for:
            self.passed[name] = f"stands for two things here (lines {before} and {line}): keep one"


class Reader(Parser):
    """Reads a file."""

    def __init__(self, source: str):
        super().__init__(source)
        self.into = File(refused=self.refused, notes=self.notes)

    def file(self) -> File:
        """All that the file holds."""
        self.inner()
        while self.next.sort != "end":
            if self.next.sort == "doc" and self.next.text.startswith("//!"):
                raise NotRust(self.next.line, "`//!` stands at the head of a file alone")
            head = self.head("a container")
            if self.next.sort == "end":
                raise NotRust(self.next.line, "attributes and `///` stand before an item")
            self.one(head)
        return self.into

    def inner(self) -> None:
        """The file's own documentation and attributes."""
        while True:
            if self.next.sort == "doc" and self.next.text.startswith("//!"):
                self.into.docs.append(doc_line(self.take().text))
            elif self.next.text == "#" and self.after().text == "!":
                self.place += 2
                if self.place not in self.pairs:
                    self.expect("[")
                end = self.pairs[self.place]
                self.place += 1
                if self.eat("doc") and self.eat("=") and self.next.sort == "text":
                    self.into.docs += [doc_line(f"//! {line.strip()}") for line in text_of(self.next).split("\n")]
                self.place = end + 1
            else:
                return

    def one(self, head: Head) -> None:
        """An item: a type to write, a `use`, an alias, or what is passed over."""
        start, visible = self.place, self.visibility()
        word = self.next.text
        if word in ("struct", "enum") or (word == "union" and self.after().sort == "name"):
            if SERDE & set(head.derives):
                self.into.derived |= head.derived
                self.into.items.append(self.item(head, visible))
            else:
                self.plain(start)
        elif word == "use":
            self.use(start)
        elif word == "type":
            self.alias(start)
        else:
            self.other(start)

    def note_passed(self, start: int, end: int, more: str = "") -> None:
        """Notes that an item is not copied, which is shown from its start to a place."""
        self.notes.append((self.tokens[start].line, f"not copied: `{self.shown(start, end)}`{more}"))

    def keep_other(self, start: int, end: int) -> None:
        """Keeps such an item of another sort, which has been read, with the functions in it."""
        named = self.into.functions.named
        known = len(named)
        self.into.functions.collect(self.tokens, self.pairs, start, self.place)
        inside = set(islice(reversed(named), len(named) - known))
        self.into.others.append((self.tokens[start].line, self.shown(start, end), inside))

    def use(self, start: int) -> None:
        """A `use`, with the names that it brings."""
        public, known, notes = self.next is not self.tokens[start], len(self.into.brought), len(self.notes)
        self.expect("use")
        self.used([])
        brings = len(self.into.brought) > known
        if public:
            del self.into.brought[known:]
            if not brings:
                del self.notes[notes:]
            self.note_passed(start, self.place, ", but for what it brings into this file" * brings)
        self.expect(";")

    def used(self, before: List[str]) -> None:
        """A path of a `use`, or several in braces."""
        path = before[:]
        self.eat("::")
        while self.next.sort == "name":
            line = self.next.line
            path.append(self.any_name(*(ROOTS if ROOTS.issuperset(path[len(before):]) else ())))
            if not self.eat("::"):
                if path == ["self"]:
                    raise NotRust(line, "`self` is brought by a `use` in braces after a path alone")
                if path[-1] == "self":
                    path.pop()
                name = self.any_name("_") if self.eat("as") else path[-1]
                self.into.uses[name] = path
                self.into.brought.append((line, name, path))
                self.into.declare(name, [SAME.get(path[0], path[0]), *path[1:]], line)
                return
        if self.eat("*"):
            if path[:1] not in (["std"], ["serde"]):
                self.notes.append((self.next.line, f"passed over: `use {'::'.join(path)}::*`"))
            return
        self.expect("{")
        self.listed("}", lambda: self.used(path))

    def any_name(self, *more: str) -> str:
        """A name of what isn't written: any, or one of these words that stand for one."""
        token = self.take()
        if token.sort != "name" or (token.text in KEYWORDS | {"_"} and token.text not in more):
            raise NotRust(token.line, f"expected a name, found `{token.text}`")
        return token.text

    def alias(self, start: int) -> None:
        """An alias of a type, which is written in its place."""
        self.expect("type")
        name = self.any_name()
        try:
            if self.eat("="):
                self.into.aliases[name] = self.type()
            else:
                raise Refused(self.next.line, "parameters of an alias are not covered")
            if self.next.text != ";":
                raise Refused(self.next.line, "such an alias is not covered")
        except Refused:
            self.into.aliases.pop(name, None)
            self.into.passed[name] = f"is an alias that is not covered (line {self.tokens[start].line}):" \
                                     " write the type that it stands for"
        self.pass_item(braces=False)
        known = name in self.into.aliases
        if known:
            self.into.declare(name, self.into.aliases[name], self.tokens[start].line)
        self.note_passed(start, self.place - 1, ", whose type is written in its place" if known else f": {ELSEWHERE}")

    def plain(self, start: int) -> None:
        """A struct or an enum that derives neither of Serde's traits."""
        self.place += 1
        name = self.any_name()
        end = self.place
        self.pass_item()
        self.into.passed[name] = f"derives neither Serialize nor Deserialize (line {self.tokens[start].line})"
        self.into.plain.add(name)
        self.note_passed(start, end, f", which derives neither Serialize nor Deserialize: {ELSEWHERE}")

    def other(self, start: int) -> None:
        """Any other item, which is passed over."""
        while (self.next.text in BEFORE and self.after().text not in ("!", "::")) or (
                self.next.text == "const" and self.after().text in BEFORE | {"fn", "extern"}):
            self.take()
        word, line = self.next.text, self.next.line
        if word == "extern":
            self.take()
            self.place += self.next.sort == "text"
            word = self.next.text
        if word in NAMED and self.after().text != "::":
            self.take()
            if word == "static":
                self.eat("mut")
            name, end = self.any_name(NAMELESS.get(word, "")), self.place
            if word == "mod":
                self.into.modules[name] = f"is a module that is not copied (line {line})"
                self.into.passed[name] = f"{self.into.modules[name]}: import the type by its path from `crate`"
        elif word in ("impl", "{"):
            self.pass_to("{", "where", *BEGIN_ITEMS, angles=True)
            end = self.place
            self.note_impl(start)
        elif self.after().text in ("!", "::") if self.next.sort == "name" else word == "::" and self.after().sort == "name":
            return self.macro(start)
        else:
            raise NotRust(line, f"expected an item, found `{word}`")
        self.pass_item(braces=word not in WITH_SEMICOLON)
        self.keep_other(start, end)

    def note_impl(self, start: int) -> None:
        """Keeps which trait an impl gives to which type."""
        words = [token.text for token in self.tokens[start:self.place] if token.sort == "name"]
        if "for" in words[1:]:
            place = words.index("for")
            self.into.impls.add((words[place - 1], words[-1]))

    def macro(self, start: int) -> None:
        """A call of a macro, or the rules of one."""
        while self.next.sort == "name" or self.next.text == "::":
            self.take()
        self.expect("!")
        self.place += self.next.sort == "name"
        end, braces = self.place, self.next.text == "{"
        if self.place not in self.pairs:
            self.expect("{")
        self.pass_one()
        if not braces:
            self.expect(";")
        self.keep_other(start, end)
