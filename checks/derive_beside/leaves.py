"""How values of one node and their holders are read: by Serde over serde-content, and with each line of
docs/DIFFERENCES.md that is `on` as it says of ours."""
from ipaddress import IPv4Address, IPv6Address, ip_address

from lines import FORGETS, ALIKE, PEOPLE, REFUSES, TEXTS
from shapes import ADDRESSES, ARRAY, OCTETS, RULES, own
from source import Refused, counted, found, seen, unexpected
from trees import KINDS, NONE, UNIT, fits

WIDEST = ("i128", "u128")
PARSED = {"IpAddr": ip_address, "Ipv4Addr": IPv4Address, "Ipv6Addr": IPv6Address}
SECOND = 10 ** 9  # in nanoseconds


class Leaves:
    """Reads types; a value is the tree that it is sent as."""

    def __init__(self, shapes, on):
        self.shapes = shapes
        self.on = on

    def read(self, kind, source):
        """The value of a type."""
        name = kind.name
        if name in RULES:
            inside, sent_again = RULES[name]
            return sent_again(self.read(inside, source))
        if name in KINDS:
            return self.number(name, source)
        if name in ADDRESSES:
            return self.address(name, source)
        known = {"Duration": self.duration, "bool": self.flag, "char": self.letter, "String": self.text, "()": self.unit}
        if name in known:
            return known[name](source)
        holders = {"Option": self.option, "Box": lambda inner, source: self.read(inner[0], source), "Vec": self.items,
                   "BTreeMap": self.table, "tuple": self.tuple,
                   ARRAY: lambda inner, source: self.tuple(inner * kind.count, source, "an array of length")}
        if name in holders:
            return holders[name](kind.arguments, source)
        return self.item(self.shapes[own(kind)], source)

    def wrong(self, source, expected, expecting):
        """The refusal of another sort: what serde-content expected, and what Serde's visitor did."""
        if source.buffer and TEXTS not in self.on:
            return Refused(f"invalid type: {unexpected(source.tree)}, expected {expecting}")
        return Refused(f"failed to deserialize; expected {expected}, found {found(source.tree)}")

    def seen(self, source):
        """The tree; in a buffer as Serde keeps it there."""
        return seen(source.tree) if source.buffer and FORGETS not in self.on else source.tree

    def number(self, kind, source):
        """A number of this kind."""
        sort, *parts = source.tree
        if source.buffer and kind in WIDEST and REFUSES not in self.on:
            raise Refused(f"{kind} is not supported")
        coerces = source.coerces or source.buffer
        if sort == "num" and (parts[0] == kind or (coerces and fits(parts[1], kind))):
            return "num", kind, parts[1]
        if sort == "num" and source.buffer and TEXTS not in self.on:
            raise Refused(f"invalid value: {unexpected(source.tree)}, expected {kind}")
        article = "an" if kind[1:] == "8" else "a"
        sign = "signed" if kind[0] == "i" else "unsigned"
        raise self.wrong(source, f"{article} {kind[1:]}-bit {sign} integer", kind)

    def flag(self, source):
        """A boolean."""
        if source.tree[0] == "bool":
            return source.tree
        raise self.wrong(source, "a boolean", "a boolean")

    def letter(self, source):
        """A character."""
        if source.tree[0] == "char":
            return source.tree
        if source.buffer and seen(source.tree)[0] == "str" and ALIKE not in self.on:
            text = source.tree[1]
            if len(text) == 1:
                return "char", text
            if TEXTS not in self.on:
                raise Refused(f"invalid value: {unexpected(source.tree)}, expected a character")
        raise self.wrong(source, "a single character", "a character")

    def text(self, source):
        """A text."""
        if source.tree[0] in ("str", "name"):
            return "str", source.tree[1]
        if source.buffer and source.tree[0] == "bytes" and ALIKE not in self.on:
            return "str", self.decoded(source)
        raise self.wrong(source, "a string", "a string")

    def decoded(self, source):
        """The text of bytes."""
        try:
            return bytes(source.tree[1]).decode()
        except UnicodeDecodeError:
            raise Refused("invalid value: byte array, expected a string") from None

    def unit(self, source):
        """The unit."""
        tree = self.seen(source)
        if tree == UNIT or (source.buffer == "moved" and tree == ("map", ()) and ALIKE not in self.on):
            return UNIT
        raise self.wrong(source, "a unit", "unit")

    def duration(self, source):
        """A duration, whose nanoseconds are carried."""
        sort, name, (style, fields) = self.item(self.shapes["Duration"], source)
        seconds, rest = (value[2] for _, value in fields)
        if seconds + rest // SECOND >= 2 ** 64:
            raise Refused("overflow deserializing Duration")
        carried = ("secs", ("num", "u64", seconds + rest // SECOND)), ("nanos", ("num", "u32", rest % SECOND))
        return sort, name, (style, carried)

    def address(self, name, source):
        """An IP address: a text where that is human readable, else octets, or a variant that holds them."""
        if not (source.human or (source.buffer and PEOPLE not in self.on)):
            return self.read(OCTETS[name], source) if name in OCTETS else self.item(self.shapes[name], source)
        if source.tree[0] not in ("str", "name"):
            raise self.wrong(source, "a string", f"{ADDRESSES[name]} address")
        try:
            found = PARSED[name](source.tree[1])
        except ValueError:
            raise Refused(f"invalid {ADDRESSES[name]} address syntax") from None
        octets = "tuple", tuple(("num", "u8", octet) for octet in found.packed)
        return octets if name in OCTETS else ("enum", name, int(found.version == 6), f"V{found.version}", ("NewType", octets))

    def option(self, arguments, source):
        """Nothing or one value."""
        if source.tree == NONE or (source.buffer and self.seen(source) == UNIT):
            return NONE
        held = source.of(source.tree[1]) if source.tree[0] == "some" else source
        return "some", self.read(arguments[0], held)

    def items(self, arguments, source):
        """A sequence."""
        tree = self.seen(source)
        if tree[0] != "seq":
            raise self.wrong(source, "a sequence", "a sequence")
        return "seq", tuple(self.read(arguments[0], source.of(item)) for item in tree[1])

    def tuple(self, arguments, source, what="a tuple of size"):
        """A tuple or an array, of which Serde's visitor expects what is said here, and so many values."""
        tree, count = self.seen(source), len(arguments)
        if tree[0] not in ("seq", "tuple"):
            raise self.wrong(source, f"a tuple with {count} elements", f"{what} {count}")
        return "tuple", self.parts(arguments, source, tree[1], f"{what} {count}")

    def parts(self, kinds, source, items, expecting, too_many=None):
        """Values by place, out of these items."""
        values, count = [], len(kinds)
        for kind, item in zip(kinds, items):
            values.append(self.read(kind, source.of(item)))
        if len(items) < count:
            raise Refused(f"too few elements: expected {count}, found {len(items)}" if TEXTS in self.on else
                          f"invalid length {len(items)}, expected {expecting}")
        self.end(source, len(items), count, too_many)
        return tuple(values)

    def end(self, source, length, count, too_many=None):
        """Refuses what is left of a sequence in a buffer."""
        if source.buffer and length > count:
            raise Refused(f"too many elements: expected {count}" if TEXTS in self.on else
                          f"invalid length {length}, expected {too_many or counted(count) + ' in sequence'}")

    def table(self, arguments, source):
        """A map, in the order of its keys; of equal ones the last wins."""
        tree = self.seen(source)
        if tree[0] != "map":
            raise self.wrong(source, "a map", "a map")
        pairs = {}
        for key, value in tree[1]:
            read = self.read(arguments[0], source.of(key))
            pairs[read] = self.read(arguments[1], source.of(value))
        return "map", tuple(sorted(pairs.items(), key=lambda pair: order(pair[0])))

    def check_buffer(self, tree, expecting="any value"):
        """Refuses what Serde's buffer doesn't take."""
        sort, *parts = seen(tree)
        if sort == "enum" and REFUSES not in self.on:
            raise Refused("untagged and internally tagged enums do not support enum input")
        if sort == "num" and parts[0] in WIDEST and REFUSES not in self.on:
            raise Refused(f"invalid type: {unexpected(tree)}, expected {expecting}")
        if sort in ("some", "newtype"):
            self.check_buffer(parts[0])
        for inside in parts[0] if sort in ("seq", "map") else ():
            for part in inside if sort == "map" else (inside,):
                self.check_buffer(part)


def order(key):
    """What keys are sorted by: numbers by value, texts by their bytes."""
    if key[0] == "struct":
        return order(key[2][1])
    return key[-1].encode() if isinstance(key[-1], str) else key[-1]
