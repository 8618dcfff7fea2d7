"""The cases: types, flags and trees, all made from a seed. A quarter of the trees are whole values of the type, as they
are sent, or with structs as maps, entries in another order, numbers of another kind or no field where one may be missing.
The others are damaged in one to three places."""
import random
import string
from ipaddress import IPv4Address, IPv6Address

from shapes import ADDRESSES, ARRAY, CONVERTED, OCTETS, RULES, alone, kind_of, own
from structs import spliced
from trees import EMPTY, KINDS, NONE, UNIT, bounds, fits

FLAGS = ["-", "c", "h", "hc"]
LETTERS = string.ascii_letters + string.digits + ' "'
pick, chance = random.choice, random.random


def some(make, most=3):
    """A short list of what `make` gives."""
    return tuple(make() for _ in range(pick(range(most))))


def text():
    """A short text, often of one character."""
    return "".join(pick(LETTERS) for _ in range(pick([0, 1, 1, 2, 5])))


def number(kind):
    """A number of a kind: small, or near the bounds of some kind."""
    least, greatest = bounds(kind)
    return "num", kind, min(max(pick([0, 1, 2, 7, *bounds(pick(KINDS))]) + pick([-1, 0, 0, 1]), least), greatest)


def address(name):
    """The text of an IP address, often with zeros in it."""
    if name == "Ipv4Addr" or (name == "IpAddr" and chance() < 0.5):
        return "str", str(IPv4Address(random.getrandbits(32)))
    found = IPv6Address(random.getrandbits(128) & pick([-1, 0xFFFF << 96 | 0xFFFF, 0xFFFF_FFFF]))
    return "str", pick([str(found), found.exploded, found.exploded.upper()])


def names_of(item):
    """The names that are sent of a type, of its variants and fields, and one that none has."""
    named = [item, *item.variants, *(field for field in item.fields() if field.wire)]
    tags = [item.serde[key] for key in ("tag", "content") if key in item.serde]
    aliases = [alias for one in [*item.variants, *item.fields()] for alias in one.aliases()]
    return [*(name for one in named for name in dict.fromkeys([one.wire, one.known])), *tags, *aliases, "zz"]


def within(kind):
    """The names of the types in a type, itself among them."""
    return [own(kind), *(name for argument in kind.arguments for name in within(argument))]


class Maker:
    """Makes values of types."""

    def __init__(self, shapes):
        self.shapes = shapes
        self.names = sorted({name for item in shapes.values() for name in names_of(item)})
        self.near = {item.name: self.names_near(item) for item in alone(shapes)}

    def names_near(self, item):
        """The names that are sent of a type and of those that it holds."""
        held = [self.shapes[name] for field in item.fields() for name in within(field.type) if name in self.shapes]
        return [name for near in [item, *held] for name in names_of(near)]

    def value(self, kind):
        """A value of a type, as it is sent."""
        name = kind.name
        if name in RULES:
            return self.value(RULES[name][0])
        if name in KINDS:
            return number(name)
        if name in ADDRESSES and chance() < 0.5:
            return address(name)
        if name in OCTETS:
            return self.value(OCTETS[name])
        inside = kind.arguments
        makers = {
            "bool": lambda: ("bool", chance() < 0.5), "char": lambda: ("char", pick(LETTERS)), "()": lambda: UNIT,
            "String": lambda: ("str", text()), "Box": lambda: self.value(inside[0]),
            "Option": lambda: NONE if chance() < 0.3 else ("some", self.value(inside[0])),
            "Vec": lambda: ("seq", some(lambda: self.value(inside[0]), 4)),
            "tuple": lambda: ("tuple", tuple(map(self.value, inside))),
            ARRAY: lambda: ("tuple", tuple(map(self.value, inside * kind.count))),
            "BTreeMap": lambda: ("map", some(lambda: (self.value(inside[0]), self.value(inside[1])))),
        }
        return makers[name]() if name in makers else self.own(self.shapes[own(kind)])

    def own(self, item):
        """A value of a type of one's own."""
        if item.name in CONVERTED:
            return self.value(CONVERTED[item.name][0])
        if item.transparent():
            return self.value(kind_of(item.field_read()))
        if not item.variants:
            if item.flattens():
                return "map", self.entries(item.data)
            return "struct", item.wire, self.data(item.data)
        index = pick(range(len(item.variants)))
        variant = item.variants[index]
        if "untagged" in item.serde:
            return self.value(variant.held())
        if "tag" not in item.serde:
            held = self.data(variant.data) if variant.read else ("NewType", number("u8"))
            return "enum", item.wire, index, variant.known, held
        holder, fields = self.tagged(item, variant)
        return "struct", holder, ("Fields", ((item.serde["tag"], ("str", variant.wire)), *fields))

    def tagged(self, item, variant):
        """The name of the struct that a variant with a tag is sent as, and its other fields; at times a variant without
        value has a content."""
        if variant.data.style == "Unit" and "content" in item.serde and chance() < 0.3:
            return item.wire, ((item.serde["content"], pick([UNIT, NONE, number("u8"), ("str", text())])),)
        if not variant.read:
            return item.wire, ()
        if "content" in item.serde and variant.data.style != "Unit":
            return item.wire, ((item.serde["content"], self.content(variant)),)
        if variant.data.style in ("Unit", "Struct"):
            return item.wire, self.fields(variant.data)
        inner = self.shapes[own(variant.data.fields[0].type)]
        return inner.wire, self.fields(inner.data)

    def content(self, variant):
        """The content of a variant."""
        sort, held = self.data(variant.data)
        return held if sort == "NewType" else ("tuple", held) if sort == "Tuple" else ("struct", variant.wire, (sort, held))

    def data(self, data):
        """What a struct or a variant holds."""
        if data.style == "Unit":
            return ("Unit",)
        if data.style == "Newtype":
            return "NewType", self.value(kind_of(data.fields[0]))
        if data.style == "Tuple":
            return "Tuple", tuple(self.value(kind_of(field)) for field in data.fields if field.read)
        return "Fields", self.fields(data)

    def fields(self, data):
        """Fields by name."""
        return tuple(entry for field in data.fields for entry in self.field(field))

    def entries(self, data):
        """The entries of a struct with flattened fields, those of others in their places."""
        return tuple(entry for field in data.fields for entry in (
            spliced(self.value(field.type)) if "flatten" in field.serde else
            tuple((("str", name), value) for name, value in self.field(field))))

    def field(self, field):
        """A field with its value; none where it may be missing, or is left out, at times."""
        value = self.value(kind_of(field)) if field.read else UNIT
        is_out = (field.missing or (field.skips and value in EMPTY)) and chance() < 0.3 or not (field.read or chance() < 0.2)
        name = pick([field.known, *field.aliases()]) if chance() < 0.5 else field.known
        return () if is_out else ((name, value),)


# What trees hold, as a list of trees and a way to put others in their places.


def inside(tree):
    """The trees in a tree, and what makes it anew of others in their places."""
    sort, *parts = tree
    if sort == "some":
        return [parts[0]], lambda new: ("some", new[0])
    if sort in ("seq", "tuple"):
        return list(parts[0]), lambda new: (sort, tuple(new))
    if sort == "map":
        return [part for pair in parts[0] for part in pair], lambda new: ("map", tuple(zip(new[::2], new[1::2])))
    if sort in ("struct", "enum"):
        held, make = inside_data(parts[-1])
        return held, lambda new: (*tree[:-1], make(new))
    return [], lambda new: tree


def inside_data(data):
    """The same of what a struct or a variant holds."""
    sort, *parts = data
    if sort == "NewType":
        return [parts[0]], lambda new: ("NewType", new[0])
    if sort == "Tuple":
        return list(parts[0]), lambda new: ("Tuple", tuple(new))
    if sort == "Fields":
        return [value for _, value in parts[0]], lambda new: (
            "Fields", tuple((name, value) for (name, _), value in zip(parts[0], new)))
    return [], lambda new: data


def everywhere(tree, change):
    """The tree with this change made at each node, from within."""
    held, make = inside(tree)
    return change(make([everywhere(part, change) for part in held]))


def somewhere(tree, change):
    """The tree with this change made at one node."""
    held, make = inside(tree)
    if not held or chance() < 0.3:
        return change(tree)
    place = pick(range(len(held)))
    return make([somewhere(part, change) if at == place else part for at, part in enumerate(held)])


# Other forms of trees.


def plainer(tree):
    """A struct as a map, a variant as a text or a map, as formats like JSON have them."""
    if tree[0] == "struct":
        return plain_data(tree[2])
    if tree[0] == "enum":
        name = ("str", tree[3])
        return name if tree[4] == ("Unit",) else ("map", ((name, plain_data(tree[4])),))
    return ("seq", tree[1]) if tree[0] == "tuple" else tree[1] if tree[0] == "some" else UNIT if tree == NONE else tree


def plain_data(data):
    """What a struct or a variant holds, without a name."""
    if data[0] == "Unit":
        return UNIT
    if data[0] == "NewType":
        return data[1]
    return ("seq", data[1]) if data[0] == "Tuple" else ("map", tuple((("str", name), held) for name, held in data[1]))


def shuffled(tree):
    """The entries of a struct or a map in another order."""
    if tree[0] == "map":
        return "map", tuple(random.sample(tree[1], len(tree[1])))
    if tree[0] == "struct" and tree[2][0] == "Fields":
        return "struct", tree[1], ("Fields", tuple(random.sample(tree[2][1], len(tree[2][1]))))
    return tree


def recounted(tree):
    """A number of another kind that has it."""
    if tree[0] != "num":
        return tree
    return "num", pick([kind for kind in KINDS if fits(tree[2], kind)]), tree[2]


class Damage:
    """Changes nodes of trees of a type, oftenest with its own names."""

    def __init__(self, maker, item):
        self.maker = maker
        self.near = maker.near[item.name]

    def node(self, tree):
        """Another node."""
        ways = [self.other, plainer, lambda tree: ("some", tree),
                lambda tree: ("struct", self.name(), ("NewType", tree))]
        if tree[0] in ("seq", "tuple", "map"):
            ways += [self.listed] * 6 + [self.resorted] * 2
        if tree[0] in ("struct", "enum"):
            ways += [self.held] * 6 + [plainer, self.resorted, self.renamed, self.renamed]
        if tree[0] == "enum":
            ways += [lambda tree: ("str", tree[3])] * 2
        if tree[0] == "map" and tree[1]:
            ways += [self.keyed] * 4
        ways += {"num": [self.counted] * 6, "str": [self.spelled] * 6, "char": [lambda tree: ("str", tree[1])] * 2,
                 "()": [lambda _: pick([("map", ()), ("seq", ()), NONE])] * 2}.get(tree[0], [])
        return pick(ways)(tree)

    def name(self):
        """A name that some type has, or none has."""
        return pick(self.near if chance() < 0.8 else self.maker.names)

    def variant(self, name):
        """A variant of this name, if a type has it."""
        return "enum", "kind", 0, name if name in self.maker.names else self.name(), ("Unit",)

    def other(self, _):
        """Another tree."""
        leaf = pick([UNIT, NONE, number(pick(KINDS)), ("bool", True), ("char", "q"), ("str", text()),
                     ("str", self.name()), ("bytes", (97,)), ("bytes", (255, 0)), ("seq", ()), ("map", ()),
                     ("struct", "Marker", ("Unit",)), self.variant("zz")])
        return leaf if chance() < 0.7 else self.maker.own(pick(list(self.maker.shapes.values())))

    def listed(self, tree):
        """Items or pairs dropped, doubled, moved or added."""
        extra = self.other(None)
        if tree[0] == "map":
            key = pick([("str", self.name()), ("str", self.name()), self.other(None)])
            extra = (key, extra)
        return tree[0], moved(tree[1], extra)

    def held(self, tree):
        """The same of what a struct or a variant holds."""
        sort, *parts = tree[-1]
        if sort == "Tuple":
            return *tree[:-1], (sort, moved(parts[0], self.other(None)))
        if sort == "Fields":
            return *tree[:-1], (sort, moved(parts[0], (self.name(), self.other(None))))
        return *tree[:-1], pick([("Unit",), ("NewType", self.other(None)), ("Tuple", ()), ("Fields", ())])

    def resorted(self, tree):
        """The same items or entries in a node of another sort."""
        sort, *parts = tree
        if sort in ("seq", "tuple"):
            return pick([("tuple", parts[0]), ("seq", parts[0]), ("struct", self.name(), ("Tuple", parts[0]))])
        if sort == "map":
            fields = tuple((key[1] if key[-1] in self.maker.names else self.name(), value) for key, value in parts[0])
            return pick([("struct", self.name(), ("Fields", fields)), ("seq", tuple(value for _, value in parts[0]))])
        held = inside_data(parts[-1])[0]
        return pick([("seq", tuple(held)), ("tuple", tuple(held)), ("struct", self.name(), parts[-1]),
                     ("enum", self.name(), 0, self.name(), parts[-1])])

    def renamed(self, tree):
        """Another name of a struct, a variant or a field."""
        if tree[-1][0] == "Fields" and tree[-1][1] and chance() < 0.7:
            place = pick(range(len(tree[-1][1])))
            fields = list(tree[-1][1])
            fields[place] = (self.name(), fields[place][1])
            return *tree[:-1], ("Fields", tuple(fields))
        if tree[0] == "enum":
            return tree[0], tree[1], pick([0, 1, 2, 7]), self.name(), tree[4]
        return "struct", self.name(), tree[2]

    def keyed(self, tree):
        """Another key of a pair: another name, an index, bytes or a variant of this name."""
        place = pick(range(len(tree[1])))
        key, held = tree[1][place]
        name = key[1] if key[0] == "str" else self.name()
        new = pick([("str", self.name()), ("num", pick(["u8", "u64", "u8", "i32"]), pick([0, 1, 2, 3])),
                    ("bytes", tuple(name.encode())), self.variant(name), self.other(None)])
        return "map", (*tree[1][:place], (new, held), *tree[1][place + 1:])

    def counted(self, tree):
        """A number of another kind or value."""
        kind = pick(KINDS)
        least, greatest = bounds(kind)
        return pick([number(kind), number(tree[1]), ("num", kind, min(max(tree[2], least), greatest))])

    def spelled(self, tree):
        """Another text, or something like it."""
        return pick([("str", self.name()), ("str", text()), ("bytes", tuple(tree[1].encode())),
                     ("char", (tree[1] + "q")[0]), ("num", pick(["u8", "u64", "u16"]), pick([0, 1, 9])),
                     self.variant(tree[1]), ("map", ((tree, pick([UNIT, ("map", ())])),))])


def moved(items, extra):
    """Items with one dropped, doubled, moved or added."""
    items = list(items)
    place = pick(range(len(items) + 1))
    at = items[place:place + 1]
    return tuple(pick([items[:place] + items[place + 1:], items[:place] + at + items[place:], items + at, at + items,
                       items[:place] + [extra] + items[place:], random.sample(items, len(items))]))


def weight(item):
    """How often a type is drawn: by its size, and more often where a tag names the variant."""
    return min(len(item.fields()) + len(item.variants) + 1, 8) * (3 if "tag" in item.serde else 1)


def made(shapes, seed, count):
    """The cases: the name of a type, flags and a tree."""
    random.seed(seed)
    maker = Maker(shapes)
    items = alone(shapes)
    for item in random.choices(items, map(weight, items), k=count):
        tree, damage = maker.own(item), Damage(maker, item)
        for change in (plainer, shuffled, recounted):
            tree = everywhere(tree, change) if chance() < 0.3 else tree
        for _ in range(pick([0, 0, 1, 1, 1, 2, 2, 3])):
            tree = somewhere(tree, damage.node)
        yield item.name, pick(FLAGS), tree
