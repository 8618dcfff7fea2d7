"""Random values as CBOR, what cbor_cli must print of each, and how its answers differ.

values.py make SEED COUNT FOLDER: writes FOLDER/input, a line of hexadecimal digits for each value, and FOLDER/wanted.
values.py compare FOLDER: compares FOLDER/answers with FOLDER/wanted, and ends with status 1 where a line differs.

Random trees of Serde's data model as serialiser calls, and what CBOR must be written of each:

values.py make_trees SEED COUNT FOLDER: writes FOLDER/calls, the lines of calls of each tree, with an empty line behind
some trees, where a refusal ends; and FOLDER/trees, a line for each tree: its bytes and its calls, parted by tabs.
values.py compare_trees FOLDER: compares the bytes in FOLDER/written with FOLDER/trees, and ends with status 1 where
those of a tree differ.

cbor2 writes all bytes that are wanted. Since Python's maps hold no equal keys, nor lists and maps as keys, the maps
and structs of trees are `Pairs`, of which cbor2 is told to write a map's head and then each key and value.
"""

import itertools
import random
import sys

import cbor2

ESCAPES = {'"': '\\"', "\\": "\\\\", "\t": "\\t", "\n": "\\n", "\r": "\\r", "\0": "\\0"}

# What lines of calls may name, and the words of calls that begin a tree.
NAMES = ["Foo", "Bar", "Baz", "Point", "bar", "baz", "x", "y"]
KINDS = [f"{sign}{size}" for sign in "iu" for size in (8, 16, 32, 64, 128)]
PLAIN = ["bool", "number", "number", "number", "char", "str", "str", "bytes", "unit", "none"]
EMPTY = ["unit_struct", "unit_variant"]
AROUND = ["some", "newtype_struct", "newtype_variant"]
ORDERED = ["seq", "tuple", "tuple_struct", "tuple_variant"]
KEYED = ["map", "map", "struct", "struct_variant"]
# What cbor_cli answers to an empty line.
NO_BYTES = "refused at byte 0: the bytes end inside an item"


def text(chance):
    """A text of characters of each length in UTF-8."""
    ranges = [(0, 0x7F), (0x20, 0x7E), (0x80, 0x7FF), (0x800, 0xD7FF), (0xE000, 0xFFFF), (0x10000, 0x10FFFF)]
    length = chance.choice([0, 1, 2, 5, 8] if chance.random() < 0.95 else [23, 24, 30, 300])
    return "".join(chr(chance.randint(*chance.choice(ranges))) for _ in range(length))


def number(chance):
    """A number of at most 128 bits, as often as not near a bound."""
    negative = chance.random() < 0.5
    limit = 1 << (127 if negative else 128)
    bound = 1 << chance.choice([0, 3, 5, 8, 16, 31, 32, 63, 64, 65, 100, 127, 128])
    size = chance.choice([chance.randrange(bound), bound + chance.randint(-2, 1)])
    size = max(0, min(size, limit - 1))
    return -1 - size if negative else size


def leaf(chance):
    kind = chance.randrange(5)
    if kind == 0:
        return number(chance)
    if kind == 1:
        return text(chance)
    if kind == 2:
        return chance.randbytes(chance.choice([0, 1, 2, 9] if chance.random() < 0.95 else [23, 24, 255, 256, 400]))
    return chance.choice([None, False, True]) if kind == 3 else chance.randrange(100)


def key(chance):
    """A key: Python takes True and 1 for one key, so none is a boolean."""
    return chance.choice([number, text])(chance) if chance.random() < 0.9 else (number(chance), text(chance))


def value(chance, depth):
    if depth == 0 or chance.random() < 0.4:
        return leaf(chance)
    length = chance.choice([0, 1, 2, 3] if depth > 1 else [0, 1, 8, 24])
    if chance.random() < 0.5:
        return [value(chance, depth - 1) for _ in range(length)]
    return {key(chance): value(chance, depth - 1) for _ in range(length)}


def head(chance, major, argument):
    """A head of any length that has room."""
    sizes = [s for s in (1, 2, 4, 8) if argument < 1 << 8 * s]
    if argument < 24 and chance.random() < 0.5:
        return bytes([major << 5 | argument])
    size = chance.choice(sizes)
    return bytes([major << 5 | {1: 24, 2: 25, 4: 26, 8: 27}[size]]) + argument.to_bytes(size, "big")


def string(chance, major, content):
    """Content in one piece, or in chunks."""
    if chance.random() < 0.7:
        joined = content if major == 2 else content.encode()
        return head(chance, major, len(joined)) + joined
    cut = chance.randint(0, len(content))
    pieces = [p if major == 2 else p.encode() for p in (content[:cut], content[cut:])]
    return bytes([major << 5 | 31]) + b"".join(head(chance, major, len(p)) + p for p in pieces) + b"\xff"


def coded(chance, item):
    """Any bytes that code the item: longer heads than need be, lengths that aren't said."""
    if item is None or isinstance(item, bool):
        return cbor2.dumps(item)
    if isinstance(item, int):
        size, negative = (item, 0) if item >= 0 else (-1 - item, 1)
        if size < 1 << 64 and chance.random() < 0.8:
            return head(chance, negative, size)
        digits = size.to_bytes(16, "big").lstrip(b"\0").rjust(chance.randint(0, 18), b"\0")
        return head(chance, 6, 2 + negative) + string(chance, 2, digits)
    if isinstance(item, bytes):
        return string(chance, 2, item)
    if isinstance(item, str):
        return string(chance, 3, item)
    if isinstance(item, dict):
        major, parts = 5, [coded(chance, part) for pair in item.items() for part in pair]
    else:
        major, parts = 4, [coded(chance, part) for part in item]
    if chance.random() < 0.5:
        return head(chance, major, len(item)) + b"".join(parts)
    return bytes([major << 5 | 31]) + b"".join(parts) + b"\xff"


def printed(item):
    """What the item prints as a value."""
    if item is None or isinstance(item, bool):
        return str(item) if item is None else str(item).lower()
    if isinstance(item, int):
        if item >= 0:
            return f"{item}u64" if item < 1 << 64 else f"{item}u128"
        return f"{item}i64" if item >= -(1 << 63) else f"{item}i128"
    if isinstance(item, bytes):
        return "&[" + ", ".join(str(byte) for byte in item) + "]"
    if isinstance(item, str):
        return '"' + "".join(
            ESCAPES.get(c) or (f"\\u{{{ord(c):x}}}" if ord(c) < 32 or ord(c) == 127 else c) for c in item
        ) + '"'
    if isinstance(item, dict):
        return "{ " + ", ".join(f"{printed(k)}: {printed(v)}" for k, v in item.items()) + " }"
    return "[" + ", ".join(printed(part) for part in item) + "]"


def make(seed, count, folder):
    chance = random.Random(seed)
    with open(f"{folder}/input", "w") as given, open(f"{folder}/wanted", "w", encoding="utf-8") as wanted:
        for place in range(count):
            item = value(chance, 3)
            shortest = cbor2.dumps(item)
            data = shortest if place % 2 == 0 else coded(chance, item)
            assert cbor2.loads(data) == cbor2.loads(shortest), data.hex()
            given.write(data.hex() + "\n")
            wanted.write(f"{printed(item)}\t{shortest.hex()}\n")


def compare(folder):
    lines = [open(f"{folder}/{name}", encoding="utf-8").read().split("\n") for name in ("input", "wanted", "answers")]
    if len(lines[1]) != len(lines[2]):
        sys.exit(f"{len(lines[2]) - 1} answers to {len(lines[1]) - 1} lines")
    differ = [row for row in zip(*lines) if row[1] != row[2]]
    for given, wanted, answer in differ[:10]:
        print(f"{given[:200]}: got {answer[:200]}, wanted {wanted[:200]}")
    print(f"{len(lines[1]) - 1} values, {len(differ)} differ")
    sys.exit(1 if differ else 0)


class Pairs:
    """A map of any keys, equal ones too."""

    def __init__(self, pairs):
        self.pairs = pairs


def write_pairs(encoder, item):
    """Lets cbor2 write what it doesn't know: a map, which is of major type 5."""
    encoder.encode_length(5, len(item.pairs))
    for pair in item.pairs:
        for part in pair:
            encoder.encode(part)


def plain(chance, word):
    """A call that is a tree by itself and names nothing, and its item. Texts are of what a line may hold."""
    if word == "bool":
        item = chance.random() < 0.5
        return f"bool {str(item).lower()}", item
    if word == "number":
        kind = chance.choice(KINDS)
        size = int(kind[1:])
        low, high = (0, (1 << size) - 1) if kind[0] == "u" else (-(1 << size - 1), (1 << size - 1) - 1)
        item = max(low, min(number(chance), high))
        return f"{kind} {item}", item
    if word in ("unit", "none"):
        return word, None
    length = chance.choice([0, 1, 2, 9] if chance.random() < 0.95 else [23, 24, 255, 256, 400])
    if word == "bytes":
        item = chance.randbytes(length)
        return f"bytes {item.hex()}", item
    item = "".join(chr(chance.randint(32, 126)) for _ in range(1 if word == "char" else length))
    return f"{word} {item}", item


def ordered(chance, word, depth, count):
    """The calls behind one that opens values by place, and their items."""
    calls, items = [], []
    for _ in range(count):
        inner, item = tree(chance, depth)
        calls += ["tuple_field" if "_" in word else "element", *inner]
        items.append(item)
    return calls, items


def fields(chance, depth, count):
    """The calls behind one that opens fields, and their map."""
    calls, pairs = [], []
    for _ in range(count):
        name = chance.choice(NAMES)
        inner, item = tree(chance, depth)
        calls += [f"field {name}", *inner]
        pairs.append((name, item))
    return calls, Pairs(pairs)


def entries(chance, depth, count):
    """The calls behind one that opens a map, and the map. Some keys get no value, which is null then, and some two,
    of which the last counts; a value before all keys is dropped."""
    ways = [["entry"], ["key", "value"]] * 8 + [["key"], ["value"]]
    calls, pairs = [], []
    for word in itertools.chain(*chance.choices(ways, k=count)):
        calls.append(word)
        parts = []
        for _ in range(2 if word == "entry" else 1):
            inner, item = tree(chance, depth)
            calls += inner
            parts.append(item)
        if word != "value":
            pairs.append(parts if word == "entry" else [*parts, None])
        elif pairs:
            pairs[-1][1] = parts[0]
    return calls, Pairs(pairs)


def tree(chance, depth):
    """The calls of a random tree of at most this depth, and its item."""
    is_leaf = depth == 1 or chance.random() < 0.3
    word = chance.choice(PLAIN + EMPTY if is_leaf else AROUND + ORDERED + KEYED)
    if word in PLAIN:
        call, item = plain(chance, word)
        return [call], item
    variant = chance.choice(NAMES)
    opening = [word]
    if word.endswith("struct"):
        opening.append(chance.choice(NAMES))
    elif word.endswith("variant"):
        index = chance.choice([0, 1, chance.getrandbits(32), (1 << 32) - 1])
        opening += [chance.choice(NAMES), str(index), variant]
    if word in EMPTY:
        return [" ".join(opening)], variant if word == "unit_variant" else None
    if word in AROUND:
        calls, item = tree(chance, depth - 1)
    else:
        wide = chance.random() < 0.02
        count = chance.choice([23, 24, 255, 256] if wide else [0, 1, 2, 3])
        within = 1 if wide else depth - 1
        if word in ORDERED:
            calls, item = ordered(chance, word, within, count)
        elif word == "map":
            calls, item = entries(chance, within, count)
        else:
            calls, item = fields(chance, within, count)
        calls.append("end")
        # A length counts for nothing, and need not be said of a sequence and a map.
        if word not in ("seq", "map") or chance.random() < 0.7:
            wrong = chance.choice([0, 1, chance.getrandbits(64), (1 << 64) - 1])
            opening.append(str(count if chance.random() < 0.8 else wrong))
    return [" ".join(opening), *calls], {variant: item} if word.endswith("variant") else item


def make_trees(seed, count, folder):
    chance = random.Random(seed)
    words = set()
    with open(f"{folder}/calls", "w") as given, open(f"{folder}/trees", "w") as trees:
        for _ in range(count):
            calls, item = tree(chance, 6)
            words.update(call.split(" ")[0] for call in calls)
            given.write("\n".join(calls) + "\n")
            trees.write("\t".join([cbor2.dumps(item, default=write_pairs).hex(), *calls]) + "\n")
            if chance.random() < 0.3:
                given.write("\n")
                trees.write("\n")
    # Each of the 26 calls stands in some tree, that of numbers by its ten words.
    assert len(words) == 35, words


def groups(lines):
    """The lines up to each empty one."""
    return [list(group) for empty, group in itertools.groupby(lines, lambda line: line == "") if not empty]


def compare_trees(folder):
    with open(f"{folder}/trees", encoding="ascii") as lines:
        wanted = groups(lines.read().split("\n"))
    with open(f"{folder}/written", encoding="utf-8") as lines:
        written = groups("" if line == NO_BYTES else line for line in lines.read().split("\n"))
    if len(wanted) != len(written):
        sys.exit(f"answers to {len(written)} groups of trees, not to {len(wanted)}")
    # A refusal keeps back what stands behind it in its group, and no more.
    rows = [row for pair in zip(wanted, written) for row in itertools.zip_longest(*pair, fillvalue="nothing")]
    rows = [(line.split("\t"), answer.split("\t")[-1]) for line, answer in rows]
    differ = [(line, answer) for line, answer in rows if line[0] != answer]
    for (digits, *calls), answer in differ[:10]:
        print(f"{', '.join(calls)[:200]}: got {answer[:200]}, wanted {digits[:200]}")
    print(f"{len(rows)} trees of calls, {len(differ)} differ")
    sys.exit(1 if differ else 0)


if __name__ == "__main__":
    if sys.argv[1] == "make":
        make(int(sys.argv[2]), int(sys.argv[3]), sys.argv[4])
    elif sys.argv[1] == "make_trees":
        make_trees(int(sys.argv[2]), int(sys.argv[3]), sys.argv[4])
    elif sys.argv[1] == "compare_trees":
        compare_trees(sys.argv[2])
    else:
        compare(sys.argv[2])
