"""Where the own types of a file are declared, and which types are covered."""
from collections import Counter
from dataclasses import replace
from typing import Callable, Dict, Iterable, Iterator, List, Optional, Set, Tuple

from .attributes import SERDE
from .declarations import Conversion, Field, Item, Named, Refused
from .files import File
from .named import NAMED, PRELUDE
from .parser import DEEPEST, MOST_FIELDS
from .rests import check_rests
from .spread import is_inlined, why_unspread
from .types import (ADDRESSES, ARGUMENTS, ARRAY, ELSEWHERE, FLOATS, HASHED, HOLDERS, IN_ORDER, LEAVES, MOST_IN_ARRAY, MOST_IN_TUPLE, NUMBERS,
                    PHANTOM, STATIC, LawsOf, Type, snake)
from .unique import fresh
from .words import SEEN, TAKEN, WORDS

STANDARD = {"std", "core", "alloc"}
# crates of this repository whose types have impls in another module than they are declared in, so that no path leads to their laws
LIBRARIES = {"serde_content", "content_tree", "content_ser", "content_de"}
# where the standard library has the types that are covered
MODULES = {**{name: ["primitive"] for name in LEAVES}, "String": ["string"], "Option": ["option"], "Vec": ["vec"],
           "Box": ["boxed"], "Rc": ["rc"], "Arc": ["sync"], "BoxedStr": [], "PathBuf": ["path"], "Duration": ["time"],
           **dict.fromkeys(ADDRESSES, ["net"]),
           **{name: ["collections", f"collections::{module}"] for name, module in (
               ("BTreeMap", "btree_map"), ("BTreeSet", "btree_set"), ("HashMap", "hash_map"), ("HashSet", "hash_set"),
               ("VecDeque", "vec_deque"))}}
# types of which it is known what to write instead
NOT_COVERED = {
    **dict.fromkeys(FLOATS, "floats are not covered: hold a whole number of a smaller unit, or a String"),
    "LinkedList": "a LinkedList is not covered: hold a VecDeque",
    "BinaryHeap": "a BinaryHeap is not covered: hold a Vec",
    "str": "`str` is covered in `Box<str>` and `&'a str` alone: hold a String",
    "Cow": "a Cow is not covered: hold a String or a Vec",
    "Result": "a Result is not covered: hold an enum of both",
    "PhantomData": "a PhantomData is covered where it is neither sent nor read: write `#[serde(skip)]` above it",
    "SystemTime": "a SystemTime is not covered: hold a struct of `secs_since_epoch: u64` and `nanos_since_epoch: u32`, as Serde"
                  " sends it",
    **{name: f"a {name} is not covered: hold its text as a String" for name in ("SocketAddr", "SocketAddrV4", "SocketAddrV6")},
    **{name: f"a {name} is not covered: hold a struct of its ends" for name in ("Range", "RangeInclusive", "RangeFrom", "RangeTo")},
    **{name: f"a {name} is not covered: hold the value in it" for name in (
        "Cell", "RefCell", "OnceCell", "Mutex", "RwLock", "Wrapping", "Saturating", "Reverse", "NonZero")},
}
MOST_PARTS = 500
MOST_WRITTEN_OUT = 200
DEEPEST_FLATTENED = 16
# Rattle takes types of up to 64 levels, of which what is sent and read takes some
DEEPEST_HELD = 56


def extent(t: Type) -> Tuple[int, int]:
    """How many types a type is made of, and in how many levels."""
    inside = [extent(a) for a in t.arguments]
    return 1 + sum(parts for parts, _ in inside), 1 + max((levels for _, levels in inside), default=0)


def placed(item: Item) -> Iterator[Tuple[str, Field]]:
    """The fields of an item, each with its path."""
    for v in item.variants:
        for f in v.data.fields:
            yield f"{item.name}.{v.name}.{f.name}", f
    for f in item.data.fields:
        yield f"{item.name}.{f.name}", f


def placed_in(item: Item) -> Iterator[Tuple]:
    """The same, each with the variant around it, if there is one."""
    for v in item.variants:
        yield from ((f"{item.name}.{v.name}.{f.name}", f, v) for f in v.data.fields)
    yield from ((f"{item.name}.{f.name}", f) for f in item.data.fields)


def check_leaves(item: Item) -> Iterator[Refused]:
    """Refuses fields of one name beside each other where some are flattened, and too many of them."""
    leaves = [f for f in item.data.leaves() if not f.rest]
    names = [Counter(names).items() for names in ([f.wire for f in leaves if f.sent], [f.known for f in leaves if f.read])]
    for name in dict.fromkeys(name for counts in names for name, count in counts if count > 1):
        yield Refused(item.line, f"two fields are called `{name}`: give one another name by `rename`", item.name)
    if len(leaves) > MOST_FIELDS:
        yield Refused(item.line, f"more than {MOST_FIELDS} fields are not covered: hold some in a struct that is not flattened",
                      item.name)


def from_crate(path: List[str], here: List[str]) -> List[str]:
    """A path that may begin with `crate`, `self` or `super`, as it is from the crate on, from the module here."""
    found = here
    for word in path:
        found = ["crate"] if word == "crate" else found[:-1] if word == "super" else found + [word] * (word != "self")
    return found


def rings(held: Dict[str, List[str]]) -> Iterator[List[str]]:
    """Those of these names that lead to each other, of those that lead back to themselves: first in the order in which
    all that they lead to is seen, and then from the last of them on against it."""
    seen, finished = set(), []
    for first in held:
        stack = [] if first in seen else [(first, iter(held[first]))]
        seen.add(first)
        while stack:
            new = next((name for name in stack[-1][1] if name not in seen), None)
            if new:
                seen.add(new)
                stack.append((new, iter(held[new])))
            else:
                finished.append(stack.pop()[0])
    holders: Dict[str, List[str]] = {name: [] for name in held}
    for name, parts in held.items():
        for part in parts:
            holders[part].append(name)
    taken: Set[str] = set()
    for first in reversed(finished):
        ring, new = [], [] if first in taken else [first]
        while new:
            name = new.pop()
            if name not in taken:
                taken.add(name)
                ring.append(name)
                new += holders[name]
        if len(ring) > 1 or (ring and first in held[first]):
            yield ring


def needed(item: Item, f: Field, *around: Named) -> Set[str]:
    """The traits that the type of a field has to derive for the impls of what holds it, where no function of the user's does
    what they do; its variant is around the field."""
    used = {trait for trait in item.ways(f, *around) if not f.function(trait.lower())}
    return used | ({"PartialEq", "Eq"} if item.derives_all() and used == SERDE else set())


class Plain(ValueError):
    """That a type of this file derives neither of Serde's traits: what it says where the type is only named is `named`."""

    def __init__(self, name: str, why: str):
        super().__init__(f"`{name}` {why}: derive what is derived here, or move it to a file that has its impls")
        self.named = (f"`{name}` {why}, so that the module doesn't have it: move it to another file, and name it by its path, as"
                      f" `crate::other::{name}`, or import it by `use`")


class Homes:
    """Finds where the own types of a file are declared, and refuses types that are not covered."""

    def __init__(self, crate: str, module: str, file: File, laws_of: Callable[[Item, Type], LawsOf]):
        self.crate, self.file, self.items = crate, file, {item.name: item for item in file.items}
        self.module, self.laws_of = module.split("::"), laws_of
        self.here = self.specs(crate, self.module)
        self.used: Set[str] = set()
        self.looked_up: Set[str] = set()
        self.said: Dict[str, str] = {}  # what contracts call each module of definitions of the user's by
        self.aliases: Dict[str, Type] = {}
        self.opened: Set[str] = set()
        self.levels: Dict[str, int] = {}
        self.sizes: Dict[Type, int] = {}
        self.declared: Dict[str, Tuple[str, str]] = {}
        self.told = {refused.where for refused in file.refused}
        for item in file.items:
            self.called(item.name, self.here, item.name)

    @staticmethod
    def specs(crate: str, modules: List[str]) -> str:
        """The path of a module's specifications, with a place for the sort of them."""
        return ".".join([f"Rattle.{crate}.specs.{{}}"] + [m for m in modules if m])

    def refuse(self, refused: Refused) -> None:
        """Keeps a refusal; the item is not written."""
        self.items[refused.where.split(".")[0]].covered = False
        self.file.refused.append(refused)
        self.told.add(refused.where)

    def keep(self, each: Iterable[Refused]) -> None:
        """Keeps refusals, but those of fields and variants that were refused before."""
        told = {where for where in self.told if "." in where}
        for refused in each:
            if refused.where not in told:
                self.refuse(refused)

    def resolve(self) -> None:
        """Writes out the aliases and the names of std's types in all fields."""
        for item in self.file.items:
            for where, f, *around in placed_in(item):
                traits = needed(item, f, *around)
                try:
                    f.type = self.resolved(f.type, item)
                    if not item.ways(f, *around):
                        f.type = self.marked(f.type)
                except ValueError as reason:
                    plain = isinstance(reason, Plain) and not traits
                    self.refuse(Refused(f.line, reason.named if plain else str(reason), where))
                    f.type = Type("()")
            self.convert(item, lambda one, holder=item: self.resolved(one.type, holder))

    def convert(self, item: Item, settled: Callable[[Conversion], Type]) -> None:
        """Gives the conversions of an item the types that they have by this."""
        for one in item.conversions:
            try:
                one.type = settled(one)
            except ValueError as reason:
                self.refuse(Refused(item.line, f"serde's `{one.key}`: {reason}", item.name))
                one.type = Type("()")

    def resolved(self, t: Type, holder: Item) -> Type:
        """The type with aliases written out and std's names short; a ValueError says why it is not covered."""
        if t.parameter:
            return t
        name = holder.name if t.name == "Self" else self.short(t.name)
        if name in self.file.aliases and not t.arguments:
            return self.alias(name, holder)
        whole = replace(t, name=name, arguments=tuple(self.resolved(a, holder) for a in t.arguments))
        if whole == Type("Box", (Type("str"),)):
            return Type("BoxedStr")
        self.check_arguments(whole)
        parts, levels = extent(whole)
        if parts > MOST_PARTS or levels > DEEPEST:
            raise ValueError(f"a type of more than {DEEPEST} levels or {MOST_PARTS} parts is not covered:"
                             " divide it into structs")
        return whole

    def check_arguments(self, t: Type) -> None:
        """Refuses a type of std's with more or less arguments than it has here, as a ValueError."""
        count, known = len(t.arguments), ARGUMENTS.get(t.name, 0) if t.name not in self.items else 0
        if known > count:
            raise ValueError(f"`{t.written()}` has {count} arguments here, and needs {known}: write what it holds")
        if 0 < known < count:
            more = "hasher" if t.name in HASHED else "allocator"
            raise ValueError(f"`{t.written()}` is not covered, as there is one {more} alone: delete `{t.arguments[known].written()}`")

    def marked(self, t: Type) -> Type:
        """The same type, with its opaque arrays marked, as they have a default of their own."""
        return replace(t, arguments=tuple(map(self.marked, t.arguments)), opaque=t.name == ARRAY and self.is_opaque(t))

    def alias(self, name: str, holder: Item) -> Type:
        """What an alias stands for."""
        if name in self.opened:
            raise ValueError(f"the alias `{name}` stands for itself: write the type that it should stand for")
        if len(self.opened) > DEEPEST:
            raise ValueError(f"more than {DEEPEST} aliases of aliases are not covered: write the type that they stand for")
        if name not in self.aliases:
            self.opened.add(name)
            try:
                self.aliases[name] = self.resolved(self.file.aliases[name], holder)
            finally:
                self.opened.discard(name)
        return self.aliases[name]

    def path(self, name: str) -> List[str]:
        """The whole path of a name, by what the file uses: from `crate` or the name of a crate on, or the name alone,
        where this file or the prelude has it."""
        path = name.split("::")
        for _ in range(DEEPEST):
            before, path = path, self.nearer(path)
            if path == before:
                return path
        raise ValueError(f"`{name}` stands for itself: name the type from `crate` on")

    def nearer(self, path: List[str]) -> List[str]:
        """A path with what the file uses in the place of its first name, or without the way to this module."""
        first, here = path[0], ["crate", *self.module]
        if first in self.file.plain:
            raise Plain(first, self.file.passed[first])
        if first in self.file.passed:
            raise ValueError(f"`{first}` {self.file.passed[first]}")
        if first in self.file.uses:
            self.looked_up.add(first)
            return self.file.uses[first] + path[1:]
        whole = from_crate(path, here) if first in ("self", "super") else path
        if first == "super" and whole[:1] != ["crate"]:
            raise ValueError(f"`{'::'.join(path)}` is outside of this crate: name the type from `crate` on")
        inside = whole[len(here):] if whole[:len(here)] == here else []
        if len(inside) > 1 and inside[0] not in {*self.file.uses, *self.file.passed}:
            raise ValueError(f"`{inside[0]}` is no module that this file has: name the type from `crate` on")
        return inside or whole

    def unused(self) -> Iterator[Tuple[int, str]]:
        """Notes of what a `use` brings and nothing that is written names."""
        named = self.looked_up | self.file.derived
        for line, name, path in self.file.brought:
            if name not in named:
                renamed = f" as {name}" if name != path[-1] else ""
                yield line, f"passed over: `use {'::'.join(path)}{renamed}`"

    def short(self, name: str) -> str:
        """The name by which a type is written: the short one of a type of this file, or of std, where that is covered or
        known not to be; for others what the file uses, or the whole path."""
        path = self.path(name)
        if len(path) == 1:
            return path[0]
        if path[0] in STANDARD:
            known = "::".join(path[1:-1]) in ["primitive", *MODULES.get(path[-1], [])]
            std = "::".join(["std", *path[1:]])
            return path[-1] if known else std if std in NAMED else "::".join(path)
        if name in (*LEAVES, *HOLDERS):
            raise ValueError(f"`{name}` is `{'::'.join(path)}` here, which is not covered: import it by another name")
        return name if name.split("::")[0] in self.file.uses else "::".join(path)

    def parts_of(self, item: Item) -> Iterator[str]:
        """The names of this file's types in an item, and in those that it is read or sent as."""
        for whole in [f.type for f in item.fields()] + [one.type for one in item.conversions]:
            inside = [whole]
            while inside:
                t = inside.pop()
                inside += t.arguments
                if t.name in self.items and not t.parameter:
                    yield t.name

    def ordered(self) -> Iterator[Item]:
        """The items, each after those that it holds, but those through which it contains itself."""
        self.find_cycles()
        begun, done = set(), set()
        for first in self.items.values():
            stack = [] if first.name in begun else [(first, self.parts_of(first))]
            begun.add(first.name)
            while stack:
                item, parts = stack[-1]
                for name in parts:
                    if name not in begun:
                        begun.add(name)
                        stack.append((self.items[name], self.parts_of(self.items[name])))
                        break
                else:
                    done.add(stack.pop()[0].name)
                    yield item

    def find_cycles(self) -> None:
        """Finds of each item the types through which it contains itself, in the order in which contracts know them: enums first,
        each sort by name."""
        held = {item.name: list(self.parts_of(item)) for item in self.file.items}
        for names in rings(held):
            cycle = sorted(map(self.items.get, names), key=lambda item: (not item.variants, item.name))
            for item in cycle:
                item.cycle = cycle

    def settle(self) -> None:
        """Settles the types of all fields."""
        ordered = list(self.ordered())
        known = {id(item) for item in ordered}
        twins = [item for item in self.file.items if id(item) not in known]
        for item in ordered + twins:
            for where, f, *around in placed_in(item):
                try:
                    traits, named = needed(item, f, *around), not item.ways(f, *around)
                    lent = f.type.refers() or any(one != STATIC or not named for one in f.type.borrows())
                    f.type = self.settled(f.type, item, traits, named)
                    if "Deserialize" in item.derives and lent:
                        advice = ("write the parameter alone, as in `PhantomData<T>`" if f.type.name == PHANTOM else
                                  "hold the value itself, as String for &str")
                        raise ValueError(f"what is borrowed is covered where it is only sent: {advice}")
                    hidden = f.type.unseen() if any(v.sent or v.read for v in around) else None
                    if hidden:
                        raise ValueError(f"`{hidden.written()}` is not covered on a skipped field of a variant: hold it in a struct, and"
                                         " that in the variant")
                except ValueError as reason:
                    self.refuse(Refused(f.line, str(reason), where))
                    f.type = Type("()")
            self.convert(item, lambda one, holder=item: self.settled(one.type, holder, {one.trait}, False))
            self.levels[item.name] = 1 + max((self.held(f.type) for f in item.fields()), default=0)
            if self.levels[item.name] > DEEPEST_HELD:
                self.levels[item.name] = 0
                self.refuse(Refused(item.line, f"what holds others in more than {DEEPEST_HELD} levels is not covered: put"
                                    " one into a Box", item.name))
            self.inline(item)

    def held(self, t: Type) -> int:
        """In how many levels a type holds others in itself; what is elsewhere in memory is not in it."""
        if t.name in ELSEWHERE:
            return 1
        return self.levels.get(t.name, 0) + bool(t.arguments) + max(map(self.held, t.arguments), default=0)

    def inline(self, item: Item) -> None:
        """Takes in what is flattened and what stands beside a tag."""
        flattened = [(where, f) for where, f in placed(item) if "flatten" in f.serde]
        for where, f in flattened:
            part = self.inlined(f, where, where, "what is flattened") if is_inlined(f, self.items) else None
            if part:
                f.inside, item.levels = part.data, max(item.levels, part.levels + 1)
            else:
                self.spread(item, f, where)
                if f.read:
                    f.missing = f.made = f.maker = ""
        if item.data.named:
            self.keep(check_rests(item, [one for one in flattened if one[0] not in self.told], self.items))
        if "tag" in item.serde and "content" not in item.serde:
            for v in item.variants:
                if v.data.style == "Newtype" and (v.sent or v.read):
                    where = f"{item.name}.{v.name}"
                    v.beside = self.inlined(v.data.fields[0], f"{where}.0", where, "what stands beside a tag")
        if flattened and item.data.named and not any(where in self.told for where, _ in flattened):
            for refused in check_leaves(item):
                self.refuse(refused)

    def spread(self, item: Item, f: Field, where: str) -> None:
        """Settles how the value of a flattened field is sent that isn't inlined, or refuses it."""
        if where in self.told:
            return
        reason = why_unspread(f.type, self.items) if f.sent and "Serialize" in item.derives else ""
        if f.skips and (f.test or f.tester):
            reason = reason or "is not covered where a function of yours leaves it out: hold an Option"
        if reason:
            self.refuse(Refused(f.line, f"what is flattened {reason}", where))
        f.skips = False  # what is empty sends no entry

    def inlined(self, f: Field, place: str, where: str, what: str) -> Optional[Item]:
        """The struct in a field of this path, whose own fields are sent and read in its place; none where that is refused,
        which is kept for `where`."""
        part, flattens = self.items.get(f.type.name), "flatten" in f.serde
        if place in self.told:
            return None
        if part and part.sort == "struct" and not part.covered:
            self.items[where.split(".")[0]].covered = False
            return None
        if not part or not part.data.named or part.data.closed or part.transparent() or (part.flattens() and not flattens):
            reason = ("is covered where it is a struct of this file with named fields and without `deny_unknown_fields` and"
                      " `flatten`: hold such a struct")
        elif part.conversions:
            reason = part.why_apart()
        elif flattens and any(inside.aliases() for inside in part.data.leaves()):
            reason = "is not covered where a field of it has an `alias`, which Serde doesn't read there: delete that"
        elif part.levels > DEEPEST_FLATTENED:
            reason = f"in more than {DEEPEST_FLATTENED} levels is not covered: name the fields"
        else:
            return part.at(f.type)
        self.refuse(Refused(f.line, f"{what} {reason}", where))
        return None

    def settled(self, t: Type, holder: Item, traits: Set[str], named: bool) -> Type:
        """The type with its home, where it has to derive these for what holds it, or is `named` alone, as nothing sends or reads
        it; a ValueError says why it is not covered."""
        if named and self.is_opaque(t):
            return self.opaque(t, holder)
        if not (t.name in FLOATS and not traits) and not (t.name == "tuple" and named):
            self.check_std(t)
        if t.parameter:
            return replace(t, is_bare=t.name in holder.bare())
        bare = self.bare_places(t)
        arguments = tuple(self.settled(a, holder, set() if i in bare else traits, named or i in bare) for i, a in enumerate(t.arguments))
        if not arguments and (t.name in LEAVES or (t.name in FLOATS and not traits)):
            return Type(t.name, plain=t.name not in ADDRESSES, lifetimes=t.lifetimes)
        if t.name == "tuple":
            return Type(t.name, arguments)
        if len(arguments) == ARGUMENTS.get(t.name):
            if t.count > MOST_IN_ARRAY and traits:
                raise ValueError(f"an array of more than {MOST_IN_ARRAY} values is not covered, as in Serde: hold a Vec")
            if t.name in IN_ORDER | HASHED and not named:
                self.check_key(t.name, arguments[0])
            return Type(t.name, arguments, lifetimes=t.lifetimes, count=t.count)
        of_std = t.name in (*HOLDERS, *LEAVES) or (arguments and self.path(t.name)[0] in STANDARD)
        if of_std or (arguments and t.name not in self.items and len(self.path(t.name)) < 2):
            raise ValueError(f"the type `{t.written()}` is not covered: the types that are stand in docs/OWN_TYPES.md")
        if t.name not in self.items:
            if arguments:
                raise ValueError(f"`{t.written()}` is not covered: a type with arguments is where this file declares it, or std's"
                                 " is: write in another file a struct around it, with its impls by hand, and hold that")
            path = self.path(t.name)
            if traits and path[0] in LIBRARIES:
                raise ValueError(f"`{'::'.join(path)}` is not covered: write in another file a struct around it, with its impls by hand,"
                                 " and hold that")
            return replace(self.own(t.name), lifetimes=t.lifetimes)
        item = self.items[t.name]
        whole = replace(self.part(t, holder, traits), arguments=arguments,
                        laws_of=(lambda one: self.laws_of(item, one)) if arguments and not item.cycle else None)
        if self.size(whole) > MOST_WRITTEN_OUT:
            raise ValueError(f"a type with parameters that is made of more than {MOST_WRITTEN_OUT} types is not covered:"
                             " divide it")
        return whole

    def bare_places(self, t: Type) -> Tuple[int, ...]:
        """The places of a type's arguments that stand for parameters without bounds."""
        item = self.items.get(t.name)
        return item.places_of(item.bare()) if item else ()

    def is_opaque(self, t: Type) -> bool:
        """Whether a type is not covered but where the module needs its name alone: a long array, one of what is not covered, one
        of std's that Rattle's has too, or one of another file with arguments."""
        if t.name == ARRAY:
            return not self.covers(t)
        if t.parameter or t.name in (*self.items, *LEAVES, *FLOATS, *HOLDERS, "tuple"):
            return False
        path = self.path(t.name)
        if self.of_std(t.name):
            return True
        known = next((one for one in sorted(NAMED) if one.endswith(f"::{t.name}")), "")
        if len(path) < 2 and (known or t.name not in NOT_COVERED):
            raise ValueError(f"the type `{t.name}` is not known here: name it by its path, as `{known or f'crate::other::{t.name}'}`,"
                             " or import it by `use`")
        if len(path) < 2 or (path[0] in STANDARD and path[-1] in NOT_COVERED):
            return False
        if path[0] in STANDARD:
            raise ValueError(f"the type `{'::'.join(path)}` is not covered, as Rattle's std has none: hold a type of your own of"
                             " another file")
        return bool(t.arguments or t.lifetimes)

    def of_std(self, name: str) -> str:
        """The path of a type of std's that Rattle's has too, or nothing."""
        path = "::".join(self.path(name))
        path = PRELUDE.get(path, path)
        return path if path in NAMED else ""

    def covers(self, t: Type) -> bool:
        """Whether a type is covered where it is sent and read, as far as its names and counts say."""
        if t.lifetimes or t.name in FLOATS or t.count > MOST_IN_ARRAY or (t.name == "tuple" and len(t.arguments) > MOST_IN_TUPLE):
            return False
        if t.parameter or t.name in (*self.items, *LEAVES, *HOLDERS, "tuple"):
            return all(map(self.covers, t.arguments))
        path = self.path(t.name)
        return len(path) > 1 and path[0] not in STANDARD and not t.arguments

    def opaque(self, t: Type, holder: Item) -> Type:
        """Such a type; a ValueError says why the module can't name it."""
        name = t.name if t.name == ARRAY else self.of_std(t.name) or t.name
        if name not in (ARRAY, *NAMED):
            self.importable(name)
        return replace(t, name=name, arguments=tuple(self.settled(a, holder, set(), True) for a in t.arguments), plain=True, opaque=True)

    def check_std(self, t: Type) -> None:
        """Refuses a type of std's of which it is known what to write instead, as a ValueError; one of the user's may have its
        name."""
        if t.name == "tuple" and len(t.arguments) > MOST_IN_TUPLE:
            raise ValueError(f"a tuple of more than {MOST_IN_TUPLE} values is not covered: hold a struct of them")
        last = t.name.split("::")[-1]
        if last in NOT_COVERED and not t.parameter and t.name not in self.items:
            path = self.path(t.name)
            if len(path) < 2 or path[0] in STANDARD:
                raise ValueError(NOT_COVERED[last])

    def size(self, t: Type) -> int:
        """Of how many types' laws those of a type are made; those of other own types have names."""
        if t not in self.sizes:
            inside = [f.type for f in self.items[t.name].at(t).fields()] if t.laws_of else t.arguments
            self.sizes[t] = 1 + sum(map(self.size, inside))
        return self.sizes[t]

    def part(self, t: Type, holder: Item, traits: Set[str]) -> Type:
        """An own type of this file, but for its arguments; a ValueError says why what holds it is not covered."""
        name, part = t.name, self.items[t.name]
        if len(t.arguments) != len(part.parameters):
            raise ValueError(f"`{name}` has {len(t.arguments)} arguments here, and its parameters are:"
                             f" {', '.join(part.parameters) or 'none'}")
        if part in holder.cycle:
            return Type(name, home=self.here, declared=name, called=self.called(name, self.here, name), plain=True, astray=True,
                        lost=True, nested=True)
        if len(t.lifetimes) != len(part.lifetimes):
            raise ValueError(f"`{name}` has {len(t.lifetimes)} lifetimes here, and is declared with {len(part.lifetimes)}")
        if any(a.borrows() for a in t.arguments):
            raise ValueError(f"`{t.written()}` is not covered: what is borrowed is no argument of a type of this file")
        lacking = traits - part.traits()
        if not part.covered:
            return Type(name, home=self.here, declared=name, called=snake(name))
        astray = part.derives_all() and not part.comes_back()
        if lacking:
            raise ValueError(f"`{name}` does not derive {', '.join(sorted(lacking))}, as what holds it does: derive that too")
        law = ("records", "map_takes" if part.flattens() else "struct_takes")
        called = self.called(name, self.here, name)
        return Type(name, home=self.here, declared=name, called=called, plain=not part.asked(), astray=astray,
                    lost=not part.comes_back_from_cbor(), null=part.may_be_null(), nulls=part.places_of(part.null_by()),
                    optional=part.places_of(part.optionals()), inside=part.places_of(part.sized_by()), lifetimes=t.lifetimes,
                    record=law if part.data.named and not part.transparent() else None)

    def own(self, name: str) -> Type:
        """An own type of another file; a ValueError says why it is not covered."""
        path = self.importable(name)
        if path[-1] in (*WORDS, *SEEN):
            raise ValueError(f"the name `{path[-1]}` is one that contracts use themselves: declare that type by another name")
        home = self.specs(self.crate if path[0] == "crate" else path[0], path[1:-1])
        return Type(name, home=home, declared=path[-1], called=self.called(name, home, path[-1]))

    def importable(self, name: str) -> List[str]:
        """The path of a type of another file, which the module then names; a ValueError says why it can't."""
        path = self.path(name)
        if path[0] in STANDARD | {"serde"} and len(path) > 1:
            raise ValueError(f"the type `{'::'.join(path)}` is not covered: hold what it is made of, as a number or"
                             " a String")
        if len(path) < 2:
            raise ValueError(f"the type `{name}` is not covered: declare it in this file, or name it by its full path")
        if path[0] in (*self.items, *LEAVES):
            raise ValueError(f"a type that begins with `{path[0]}::` is not covered: write the type itself")
        raw = [part for part in path if part.startswith("r#")]
        if raw:
            raise ValueError(f"the name `{raw[0]}` is not covered: give it a plain one")
        first = name.split("::")[0]
        if first in TAKEN:
            raise ValueError(f"the name `{first}` is one that the module uses itself: import that type by another name")
        self.used.add(first)
        return path

    def called(self, name: str, home: str, declared: str) -> str:
        """What contracts call an own type by: as it is declared, but where that is the name of another, which one of this
        file always has, as it is named here."""
        own, word = (home, declared), snake(declared)
        if self.declared.get(word, own) != own:
            named = "_".join(map(snake, name.split("::")[-2:]))
            word = fresh(named, "_type", lambda one: one == snake(declared) or self.declared.get(one, own) != own)
        self.declared[word] = own
        return word

    def check_key(self, holder: str, key: Type) -> None:
        """Refuses a type that no key of this map or set has, as a ValueError."""
        mine = self.items.get(key.name)
        hashed, pairs = holder in HASHED, ARGUMENTS[holder] == 2
        what, instead = (f"a map with keys of type `{key.written()}`", "Vec of pairs") if pairs else (f"a set of `{key.written()}`", "Vec")
        if key.parameter or (key.home and key.arguments):
            known = "equality" if hashed else "order"
            raise ValueError(f"{what} is not covered, as their {known} is not known: hold a {instead}")
        needed = {"Eq", "Hash"} if hashed else {"PartialOrd", "Ord"}
        if not (key.home or key.name in NUMBERS or key.name in ("String", "char", "PathBuf")):
            raise ValueError(f"{what} is not covered: hold a {instead}, or put the {'key' if pairs else 'item'} into"
                             f" a struct that derives {'Hash' if hashed else 'Ord'}")
        if mine and mine.covered and not needed <= set(mine.derives):
            raise ValueError(f"`{key.name}` does not derive {' and '.join(sorted(needed, reverse=not hashed))}, as the"
                             f" {'keys of a map' if pairs else 'items of a set'} do: derive them too")
