"""Reads structs and enums."""
import re
from typing import Callable, List, Optional, Tuple

from .attributes import Attributes, Head
from .declarations import Data, Field, Item, Named, NotRust, Refused, Variant
from .tokens import KEYWORDS, ROOTS
from .types import ARRAY, STATIC, Type, parameter

DEEPEST = 48
MOST_FIELDS, MOST_VARIANTS = 250, 500
MOST_DIGITS = 8  # of the length of an array
BASES = {"0b": 2, "0o": 8, "0x": 16}
LENGTH = re.compile(r"(0b_*[01][01_]*|0o_*[0-7][0-7_]*|0x_*[0-9a-fA-F][0-9a-fA-F_]*?|[0-9][0-9_]*)(?:_?usize)?")
# keywords that begin an item, and are in none outside of brackets but before its name
BEGIN_ITEMS = {"enum", "mod", "pub", "struct", "trait", "type"}
BEGINS = {
    "&": "hold the value itself, as String for &str", "*": "hold the value itself", "dyn": "write an enum of the types that it may be",
    **dict.fromkeys(["<", "impl", "_"], "write the type itself"),
    **dict.fromkeys(["fn", "unsafe", "extern", "for"], "write an enum of the functions that it may be"),
    "!": "delete what holds it, as no value does",
}


class Parser(Attributes):
    """Reads structs and enums; what is refused in one of them is kept, and the next part is read. The `parameters` are those
    of the one that is read."""

    def __init__(self, source: str):
        super().__init__(source)
        self.parameters: List[str] = []
        self.lifetimes: List[str] = []
        self.refused: List[Refused] = []
        self.notes: List[Tuple[int, str]] = []

    def visibility(self) -> str:
        """`pub`, with what is in its brackets, and a blank."""
        if not self.eat("pub"):
            return ""
        inside = self.after()
        one = self.place in self.pairs and self.pairs[self.place] == self.place + 2
        if self.next.text != "(" or not (inside.text == "in" or (one and inside.text in ("crate", "self", "super"))):
            return "pub "
        self.place += 2
        path = self.path() if inside.text == "in" else []
        self.expect(")")
        return f"pub({' '.join([inside.text, '::'.join(path)]).strip()}) "

    def type(self, depth: int = 0) -> Type:
        """A type; those that aren't known yet have no home."""
        line = self.next.line
        if depth > DEEPEST:
            raise Refused(line, f"a type of more than {DEEPEST} levels is not covered: divide it into structs")
        arguments: List[Type] = []
        if self.eat("("):
            comma = self.listed(")", lambda: arguments.append(self.type(depth + 1)))
            if len(arguments) == 1 and not comma:
                return arguments[0]
            return Type("tuple", tuple(arguments)) if arguments else Type("()")
        if self.next.text == "&" and self.after().sort == "lifetime":
            return self.borrowed(depth)
        if self.eat("["):
            return self.array(line, depth)
        self.check_begins(line)
        path, lifetimes = self.path(), []
        if path[-1] in ROOTS - {"Self"}:
            raise NotRust(line, f"expected a type, found `{path[-1]}`")
        if path[0] in ("Self", *self.parameters) and len(path) > 1:
            raise Refused(line, f"a type that begins with `{path[0]}::` is not covered: write the type itself")
        if self.eat("<") or (self.next.text == "::" and self.after().text == "<" and self.take() and self.take()):
            if path[-1] == "PhantomData" and self.next.text in ("fn", "*", "dyn"):
                raise Refused(line, f"a PhantomData of what begins with `{self.next.text}` is not covered: write the parameter alone,"
                              " as in `PhantomData<T>`")
            self.listed(">", lambda: lifetimes.append(self.lifetime()) if self.next.sort == "lifetime" else
                        arguments.append(self.type(depth + 1)))
        if self.next.text in ("::", "!", "=") or (self.next.text == "(" and path[-1] in ("Fn", "FnMut", "FnOnce")):
            raise Refused(line, f"a type with `{self.next.text}` in it is not covered: write the type itself")
        name = "::".join(path)
        if name in self.parameters and arguments:
            raise NotRust(line, f"the parameter `{name}` takes no arguments")
        return parameter(name) if name in self.parameters else Type(name, tuple(arguments), lifetimes=tuple(lifetimes))

    def borrowed(self, depth: int) -> Type:
        """A reference, from its sign on."""
        line = self.take().line
        lifetime = self.lifetime()
        if self.next.text == "mut":
            raise Refused(line, "what is borrowed to be changed is not covered: write `&` without `mut`")
        if self.eat("str"):
            return Type("&str", lifetimes=(lifetime,))
        if self.eat("["):
            item = self.type(depth + 1)
            if self.next.text == ";":
                raise Refused(line, "a reference to an array is not covered: write one to a slice, without the length")
            self.expect("]")
            return Type("&[]", (item,), lifetimes=(lifetime,))
        return Type("&", (self.type(depth + 1),), lifetimes=(lifetime,))

    def array(self, line: int, depth: int) -> Type:
        """An array, after its opening bracket in this line."""
        item = self.type(depth + 1)
        if self.eat("]"):
            raise Refused(line, f"`[{item.rust()}]` is covered behind a reference alone: write a Vec")
        self.expect(";")
        start = self.place
        self.pass_to("]")
        length = self.shown(start, self.place)
        if not length:
            raise NotRust(line, "expected the length of an array, found `]`")
        self.expect("]")
        digits = LENGTH.fullmatch(length)
        if not digits:
            raise Refused(line, f"an array of `{length}` values is not covered: write how many as a number")
        if len(digits.group(1)) > MOST_DIGITS:
            raise Refused(line, f"an array of `{length}` values is not covered: write a Vec")
        return Type(ARRAY, (item,), count=int(digits.group(1).replace("_", ""), BASES.get(length[:2], 10)))

    def lifetime(self) -> str:
        """A lifetime of what is read, or that of the whole program."""
        token = self.take()
        if token.text not in (*self.lifetimes, STATIC):
            raise Refused(token.line, f"the lifetime `{token.text}` is not declared here: hold the value itself, as String for"
                          " &str")
        return token.text

    def check_begins(self, line: int) -> None:
        """Refuses what begins a type that is not covered."""
        begins, sort = self.next.text, self.next.sort
        if begins in BEGINS:
            raise Refused(line, f"a type that begins with `{begins}` is not covered: {BEGINS[begins]}")
        if begins in ("{", "-", "true", "false") or sort in ("number", "text", "char"):
            raise Refused(line, "values as arguments of a type are not covered: write a type for each that you use")

    def guarded(self, name: str, head: Head, read: Callable[[], None], angles: bool = False) -> bool:
        """Reads a part of a declaration; what is refused in it is kept under its name, and the part is
        passed. Whether it was read."""
        before, start = len(self.refused), self.place
        try:
            read()
        except NotRust:
            raise
        except Refused as refused:
            self.refused.append(refused)
            self.place = start
            self.pass_to(",", angles=angles)
        self.refused += head.refused
        self.notes += head.notes
        for refused in self.refused[before:]:
            refused.inside(name)
        return len(self.refused) == before

    def named(self, one: Named) -> None:
        """Takes the name of a field or a variant; a raw one that is a word of Rust gets a `_`, as Rattle has none."""
        if self.next.text.startswith("r#"):
            one.raw = self.take().text[2:]
            one.name = one.raw
            if one.raw in KEYWORDS:
                one.name += "_"
                self.notes.append((one.line, f"written as `{one.name}`: the name `r#{one.raw}`"))
        else:
            one.name = self.name()

    def field(self, place: Optional[int], into: List[Field]) -> None:
        """A field, by name where it has no place."""
        head = self.head("a field")
        line, visible = self.next.line, self.visibility()
        if {"flatten", "default"} <= set(head.serde) and not {"skip", "skip_deserializing"} & set(head.serde):
            del head.serde["default"]
            head.notes.append((line, "passed over: `default` beside `flatten`, where Serde doesn't read it"))
        into.append(Field(self.next.text if place is None else str(place), line, head.lines, head.serde, visible=visible))

        def read() -> None:
            if place is None:
                self.named(into[-1])
                self.expect(":")
            into[-1].type = self.type()

        self.guarded(into[-1].name, head, read, angles=True)

    def data(self) -> Data:
        """What stands in braces or brackets, or nothing."""
        line, fields = self.next.line, []
        if self.eat("{"):
            style = "Struct"
            self.listed("}", lambda: self.field(None, fields))
        elif self.eat("("):
            self.listed(")", lambda: self.field(len(fields), fields))
            style = "Tuple" if len(fields) > 1 else "Newtype"
        else:
            return Data()
        if not fields:
            raise Refused(line, "what has no fields is covered without brackets alone: delete them, and it is sent as a unit")
        if len(fields) > MOST_FIELDS:
            raise Refused(line, f"more than {MOST_FIELDS} fields are not covered: hold some in a struct of their own")
        return Data(style, fields)

    def variant(self, into: List[Variant]) -> None:
        """A variant of an enum."""
        head = self.head("a variant")
        into.append(Variant(self.next.text, self.next.line, head.lines, head.serde))

        def read() -> None:
            self.named(into[-1])
            into[-1].data = self.data()
            for f in into[-1].data.fields:
                if f.visible:
                    raise NotRust(f.line, f"`{f.visible.strip()}` is not for a field of a variant: delete it")
            if self.next.text == "=":
                start, line = self.place, self.next.line
                self.pass_to(",")
                if self.place == start + 1:
                    raise NotRust(self.next.line, f"expected a value, found `{self.next.text}`")
                self.notes.append((line, f"left out: the discriminant `{into[-1].name} {self.shown(start, self.place)}`"))

        self.guarded(into[-1].name, head, read)

    def item(self, head: Head, visible: str) -> Item:
        """A struct or an enum, from that word on."""
        line, sort = self.next.line, self.take().text
        item = Item(self.next.text, line, head.lines, head.serde, sort=sort, visible=visible, derives=head.derives,
                    defaults="Default" in head.derives)
        start, self.parameters, self.lifetimes = self.place, item.parameters, item.lifetimes
        item.covered = self.guarded(item.name, head, lambda: self.body(item))
        self.parameters, self.lifetimes = [], []
        if not item.covered:
            self.place = start
            self.pass_item()
        return item

    def body(self, item: Item) -> None:
        """The name of a struct or an enum, and what it holds."""
        line = self.next.line
        item.name = self.name()
        if item.sort == "union":
            raise Refused(line, "a union is not covered: write an enum")
        if self.eat("<"):
            self.listed(">", lambda: self.parameter(item))
        self.bounds("{", ";")
        if item.sort == "struct":
            item.data = self.data()
            if not item.data.named:
                self.bounds(";")
                self.expect(";")
            if "transparent" in item.serde:
                self.transparent(item.data)
            return
        self.expect("{")
        self.listed("}", lambda: self.variant(item.variants))
        if not item.variants:
            raise Refused(line, "an enum of no variants is not covered, as no value of it is sent or read: delete it")
        if len(item.variants) > MOST_VARIANTS:
            raise Refused(line, f"more than {MOST_VARIANTS} variants are not covered: hold a text or a number")

    def transparent(self, data: Data) -> None:
        """Passes over what Serde does in the fields of a transparent struct: other names, and a PhantomData."""
        for f in data.fields:
            if f.type.name.split("::")[-1] == "PhantomData":
                f.serde.setdefault("skip", "")
            for key in [key for key in ("rename", "alias") if key in f.serde]:
                del f.serde[key]
                self.notes.append((f.line, f"passed over: `{key}` in a `transparent` struct, where Serde doesn't read it"))

    def parameter(self, item: Item) -> None:
        """A type parameter; its bounds are left out, as each impl has those that it needs."""
        start, line = self.place, self.next.line
        if self.next.sort == "lifetime":
            item.lifetimes.append(self.take().text)
            if self.eat(":"):
                self.pass_to(",", ">")
            return
        if self.next.text == "const":
            raise Refused(line, "a parameter that is a value is not covered: write a type for each that you use")
        name = self.name()
        if name in item.parameters:
            raise NotRust(line, f"two parameters are called `{name}`")
        item.parameters.append(name)
        if self.eat(":"):
            self.pass_to(",", ">", "=", angles=True)
            self.note_bounds(start, self.place)
        if self.next.text == "=":
            self.refused.append(Refused(line, f"a default of a parameter is not covered: delete that of `{name}`, and write it"
                                        " where you use the type"))
            self.pass_to(",", ">", angles=True)

    def bounds(self, *ends: str) -> None:
        """What `where` says up to one of these signs, which is left out."""
        start = self.place
        if self.eat("where"):
            self.pass_to(*ends)
            self.note_bounds(start, self.place)

    def note_bounds(self, start: int, end: int) -> None:
        """Notes that bounds are left out, which are shown from their start to a place."""
        end -= self.tokens[end - 1].text == ","
        self.notes.append((self.tokens[start].line, f"left out: `{self.shown(start, end)}`, as each impl has the bounds that"
                           " it needs"))

    def pass_item(self, braces: bool = True) -> None:
        """Passes an item up to its end: a `;`, or what stands in braces, where its sort may end so."""
        depth = 0
        while not self.eat(";"):
            if self.next.sort == "end" or self.next.text in BEGIN_ITEMS:
                raise NotRust(self.next.line, f"expected {'`{` or ' * braces}`;`, found `{self.next.text}`")
            depth += {"<": 1, ">": -1}.get(self.next.text, 0)
            last = braces and self.next.text == "{" and depth <= 0
            self.pass_one()
            if last:
                break
