"""cases.py SEED CALLS READS: prints random cases, one a line, each an operation of crates/check_rows and its
arguments. CALLS of them are lists of calls, READS are requests, typed reads and accesses, and half as many as READS are
copies, comparisons, printed images and trees sent to a serialiser. Half of the lists and of the sources are made to be
accepted."""
import random
import sys

NAMES = ["Foo", "Bar", "Baz", "Point", "E", "N", "S", "V", "a", "b", "k", "x", "y", "bar", "baz"]
BITS = [8, 16, 32, 64, 128]
KINDS = [sign + str(bits) for bits in BITS for sign in "iu"]
LETTERS = ("abkxyzFB019 \"';%#{}(),:=-_\t\n\r\0\x01\x1f\x7f\u00a0\u00ad\u00e9\u00df\u0301\u200b\u6f22\ufeff"
           "\U0001f600\U0010ffff")
FLAGS = ["-", "h", "c", "hc"]
HINTS = ["0", "1", "2", "3", "7", "100", "1000"]
HUGE_HINTS = [str(2 ** 60), str(2 ** 63), str(2 ** 64 - 1)]
UNNAMED = ["bool", *KINDS, "char", "str", "string", "bytes", "byte_buf", "option", "unit", "seq", "map",
           "identifier", "any", "ignored_any"]
NAMED = ["unit_struct", "newtype_struct", "struct", "enum"]
TYPES = ["()", "bool", *KINDS, "isize", "usize", "char", "String", "&str", "&[u8]", "Box<u8>", "Option<()>",
         "Option<i16>", "Option<String>", "Option<&str>", "Option<Option<()>>", "Vec<()>", "Vec<bool>", "Vec<u8>",
         "Vec<i16>", "(bool,)", "(u8,)", "(bool, bool)", "(bool, usize)", "(u8, u8)", "(u8, bool)", "(bool, (), u8)",
         "(u8, u8, u8, u8)", "Number", "Value", "Value", "ValueVisitor", "ValueVisitor", "Option<Value>",
         "BTreeMap<String, u8>", "BTreeMap<String, Vec<u8>>", "BTreeMap<u8, bool>", "BTreeMap<u8, u8>",
         "BTreeMap<i8, i8>"]
VARIANTS = {"unit_variant": "Unit", "newtype_deserializer": "NewType", "tuple_variant(2)": "Tuple",
            "struct_variant": "Fields"}
KEYS = ["()", "bool", "u64", "i128", "String"]
ENTRIES = ["(), u8", "bool, u8", "String, bool", "String, u8"]
MAP_STEPS = (["size_hint"] * 3 + ["next_entry_deserializers"] * 4 + [f"next_key<{key}>" for key in KEYS]
             + ["next_value<bool>", "next_value<u8>"] * 2 + [f"next_entry<{entry}>" for entry in ENTRIES])

pick = random.choice
chance = random.random


def some(make, most=4):
    """A short list of what `make` gives."""
    return [make() for _ in range(pick(range(most)))]


# Trees.


def text():
    """A short text."""
    return "".join(some(lambda: pick(LETTERS), 6))


def quoted(content, quote):
    """A text or a character in quotes, as crates/check_rows reads it."""
    return quote + "".join(escaped(letter, quote) for letter in content) + quote


def escaped(letter, quote):
    """A letter in these quotes."""
    if letter == "\\" or letter == quote == '"':
        return "\\" + letter
    return letter if " " <= letter <= "~" else f"\\u{{{ord(letter):x}}}"


def letter():
    """A letter, or a backslash."""
    return pick(LETTERS + "\\")


def string(content=None):
    """A tree of a text, borrowed or owned."""
    content = text() + pick(["", "", "\\"]) if content is None else content
    return pick("bo") + quoted(content, '"')


def octets():
    """A tree of bytes, borrowed or owned."""
    return pick("bo") + "[" + ", ".join(some(lambda: str(pick([0, 1, 127, 128, 255])), 5)) + "]"


def bounds(kind):
    """The least and the greatest number of a kind."""
    bits = int(kind[1:])
    return (0, 2 ** bits - 1) if kind[0] == "u" else (-(2 ** (bits - 1)), 2 ** (bits - 1) - 1)


def number(kind=None):
    """A tree of a number: small, or near the bounds of some kind."""
    kind = kind or pick(KINDS)
    least, greatest = bounds(kind)
    near = pick([0, 7, *bounds(pick(KINDS)), least, greatest]) + pick([-1, 0, 0, 1])
    return str(min(max(near, least), greatest)) + kind


def name(owned=0.2):
    """A name of a struct, a variant or a field: static, or by this chance owned."""
    return "o" + quoted(pick([text(), pick(NAMES)]), '"') if chance() < owned else "s" + quoted(pick(NAMES), '"')


def data(depth, sort=None):
    """What a struct or a variant holds."""
    sort = sort or pick(["Unit", "NewType", "Tuple", "Fields"])
    if sort == "Unit":
        return sort
    if sort == "NewType":
        return f"NewType({tree(depth - 1)})"
    if sort == "Tuple":
        return "Tuple[" + ", ".join(some(lambda: tree(depth - 1))) + "]"
    return "Fields{" + ", ".join(some(lambda: f"{name()}: {tree(depth - 1)}", 5)) + "}"


def struct(depth, sort=None):
    """A tree of a struct."""
    return f"Struct({name()}, {data(depth, sort)})"


def variant(depth, sort=None):
    """A tree of a variant of an enum."""
    return f"Enum({name()}, {pick([0, 1, 7, 2 ** 31, 2 ** 32 - 1])}, {name()}, {data(depth, sort)})"


def listed(word, depth):
    """A tree of a sequence or a tuple."""
    return word + "[" + ", ".join(some(lambda: tree(depth - 1))) + "]"


def pairs(depth):
    """A tree of a map, of which some keys are equal."""
    return "Map{" + ", ".join(some(lambda: f"{key(depth)} => {tree(depth - 1)}")) + "}"


def key(depth):
    """A key of a map: a text that others may be too, any text or any tree."""
    return pick([string(pick(["a", "b"])), string(), tree(depth - 1)])


def leaf():
    """A tree with none inside."""
    return pick([lambda: "()", lambda: pick(["true", "false"]), number, number, lambda: quoted(letter(), "'"), string,
                 string, octets, lambda: "None", lambda: struct(0, "Unit"), lambda: variant(0, "Unit")])()


def tree(depth=5):
    """A random tree, at most this deep."""
    if depth <= 1 or chance() < 0.35:
        return leaf()
    return pick([lambda: listed("Seq", depth), lambda: listed("Tuple", depth), lambda: pairs(depth),
                 lambda: f"Some({tree(depth - 1)})", lambda: struct(depth), lambda: variant(depth)])()


# Sources that a request or a type accepts.


def identifier():
    """The name of a variant with its index."""
    return f"id({name(0.5)}, {pick([0, 1, 5, 2 ** 32 - 1])})"


def entry(sort=None):
    """A tree of a map with one entry that can be read as a variant."""
    held = {"Tuple": lambda: listed("Seq", 3), "Fields": lambda: pairs(3)}.get(sort, lambda: tree(3))
    return f"Map{{{string(pick(NAMES))} => {held()}}}"


def counted(kind):
    """A number of this kind, or one of any that may be coerced, oftener a wide one."""
    return number(kind) if chance() < 0.5 else number(pick([*KINDS, *KINDS[-4:]]))


def wanted(request):
    """A tree that a request accepts, as a rule."""
    if request in KINDS:
        return counted(request)
    makers = {
        "bool": lambda: pick(["true", "false"]), "char": lambda: quoted(letter(), "'"), "unit": lambda: "()",
        "str": string, "string": string, "identifier": lambda: pick([string(), variant(3)]),
        "bytes": octets, "byte_buf": octets, "option": lambda: pick(["None", f"Some({tree(3)})", tree(3)]),
        "unit_struct": lambda: pick(["()", struct(2, "Unit")]), "newtype_struct": lambda: struct(4, "NewType"),
        "seq": lambda: listed("Seq", 4), "tuple": lambda: listed(pick(["Tuple", "Seq"]), 4),
        "tuple_struct": lambda: pick([listed("Seq", 4), struct(4, "Tuple")]), "map": lambda: pairs(4),
        "struct": lambda: pick([pairs(4), struct(4, "Fields")]), "enum": lambda: pick([variant(4), string(), entry()]),
    }
    return makers.get(request, tree)()


def parts(inside):
    """The types that commas part, but for those in brackets."""
    found, depth = [""], 0
    for character in inside:
        depth += (character in "(<") - (character in ")>")
        if character == "," and depth == 0:
            found.append("")
        else:
            found[-1] += character
    return [part.strip() for part in found if part.strip()]


def typed(word):
    """A tree that a type accepts, as a rule."""
    if chance() < 0.06:
        return tree(3)
    if word.startswith("Option<"):
        inner = typed(word[7:-1])
        return pick(["None", f"Some({inner})", inner])
    if word.startswith("Vec<"):
        return "Seq[" + ", ".join(some(lambda: typed(word[4:-1]))) + "]"
    if word.startswith("BTreeMap<"):
        key, value = parts(word[9:-1])
        return "Map{" + ", ".join(some(lambda: f"{typed(key)} => {typed(value)}", 5)) + "}"
    if word.startswith("(") and word != "()":
        return tupled(parts(word[1:-1]))
    return scalar(word.removeprefix("Box<").removesuffix(">"))


def tupled(items):
    """A tuple or a sequence of these types, by chance one too short or too long."""
    made = [typed(item) for item in items]
    made = pick([made, made, made, made[1:], made + [tree(2)]])
    return pick(["Tuple[", "Seq["]) + ", ".join(made) + "]"


def scalar(word):
    """A tree that a type of one node accepts."""
    by_word = {"()": "unit", "isize": "i64", "usize": "u64", "String": "str", "&str": "str", "&[u8]": "bytes"}
    return counted(pick(KINDS)) if word == "Number" else wanted(by_word.get(word, word))


def source(make):
    """What is read: mostly what was made to be accepted or any tree, an identifier by chance."""
    kind = chance()
    return make() if kind < 0.55 else tree() if kind < 0.9 else identifier()


# Cases that read.


def request():
    """A request, with the name and the length that it is told."""
    word = pick(UNNAMED + NAMED * 2 + ["tuple", "tuple_struct"] * 2)
    if word in NAMED:
        return word, f"{word}({pick(NAMES)})"
    if word == "tuple":
        return word, f"tuple({pick([0, 1, 2, 5])})"
    return (word, f"tuple_struct({pick(NAMES)}, 2)") if word == "tuple_struct" else (word, word)


def ask():
    """A request."""
    word, whole = request()
    return "ask", pick(FLAGS), whole, source(lambda: wanted(word))


def opened():
    """What a variant holds, by chance that of whatever is there."""
    word = pick(list(VARIANTS))
    if chance() < 0.2:
        return "enum", pick(FLAGS), "-", word, variant(4, pick([VARIANTS[word], None]))
    inside = pick([lambda: variant(4, VARIANTS[word]), lambda: entry(VARIANTS[word]), lambda: wanted("enum")])
    return "enum", pick(FLAGS), pick(NAMES), word, source(inside)


def read():
    """A typed read."""
    word = pick(TYPES)
    return "read", pick(FLAGS), word, source(lambda: typed(word))


def access():
    """Steps on what a sequence, a map or a struct hands out."""
    word = pick(["seq", "map", "map", "struct", "struct"])
    items = ["size_hint", "next_element<u8>", "next_element<u8>"] if word == "seq" else MAP_STEPS
    steps = "; ".join(pick(items) for _ in range(pick(range(1, 9))))
    inside = pick([lambda: wanted(word), lambda: keyed(word)])
    whole = f"struct({pick(NAMES)})" if word == "struct" else word
    return "access", pick(FLAGS), whole, steps, source(inside)


def keyed(word):
    """What an access of this word hands out, with items of the types that its steps read."""
    if word == "seq":
        return typed("Vec<u8>")
    if word == "map" or chance() < 0.3:
        return "Map{" + ", ".join(some(lambda: f"{typed(pick(KEYS))} => {typed(pick(['u8', 'bool']))}", 5)) + "}"
    fields = some(lambda: f"{name()}: {typed(pick(['u8', 'bool']))}", 5)
    return f"Struct({name()}, Fields{{" + ", ".join(fields) + "})"


# Cases on whole trees.


def expectation():
    """What may be expected."""
    named = ["-", "o" + quoted(pick([text(), *NAMES]), '"')]
    sorts = ["-", "Unit", "NewType", "Tuple", "Struct"]
    words = ["Unit", "Bool", "Char", "String", "StaticStr", "Bytes", "Seq", "Map", "Identifier"]
    return pick([pick(words), pick(KINDS).upper(), f"Tuple({pick([0, 1, 2, 2 ** 64 - 1])})",
                 f"{pick(['Struct', 'Enum'])}({pick(named)}, {pick(sorts)})"])


def pair():
    """Two trees to compare, often alike."""
    one = pick([leaf(), tree(3), tree()])
    old, new = pick([("true", "false"), ("()", "None"), ("Unit)", "Tuple[])"), ("Seq[", "Tuple[")])
    return pick([(one, one), (one, one.replace(old, new)), (one, one.replace(old, new, 1)), (one, tree(3)),
                 (string("a"), string("a"))])


def sent_as():
    """What a tree holds, sent as a type."""
    word = pick(["()", "bool", "char", "String", "&str", pick(KINDS), "Number", "usize", "isize", "Option", "Box", "Vec",
                 "tuple", "BTreeMap"])
    if word in KINDS:
        return word, number(word)
    makers = {
        "String": lambda: "o" + quoted(text(), '"'), "&str": lambda: "b" + quoted(text(), '"'), "Number": number,
        "usize": lambda: number("u64"), "isize": lambda: number("i64"),
        "Option": lambda: pick(["None", f"Some({tree(3)})"]),
        "Box": lambda: pick([struct, variant])(4),
        "tuple": lambda: "Tuple[" + ", ".join(tree(3) for _ in range(pick([1, 2, 3, 4]))) + "]",
    }
    by_word = {"()": "unit", "Vec": "seq", "BTreeMap": "map"}
    return word, makers.get(word, lambda: wanted(by_word.get(word, word)))()


def whole():
    """An operation on whole trees."""
    makers = {
        "canonical": lambda: ("new", tree()), "compare": pair, "compare_images": pair, "compare_expected": lambda: (expectation(), expectation()),
        "order": ordered, "send_as": sent_as, "unexpected": lambda: (tree(3), expectation()),
        "unexpected_part": lambda: (pick([number, lambda: struct(3), lambda: variant(3)])(), expectation()),
    }
    word = pick(["send", "image", "copy", *makers])
    return word, *makers.get(word, lambda: (tree(),))()


def ordered():
    """Two deserializers to compare."""
    one, other = pair()
    return pick(FLAGS), one, pick(FLAGS), other


# Lists of calls.


def coded(content):
    """A text of a call: what may not stand in a row as `%` and two digits."""
    plain = set(range(32, 127)) - set(b"%;")
    return "".join(chr(byte) if byte in plain else f"%{byte:02X}" for byte in content.encode())


def hint():
    """A length: true or false alike, by chance one that no memory can hold."""
    return pick(HUGE_HINTS) if chance() < 0.03 else pick(HINTS)


def named_variant(sort):
    """The call of a variant of a sort, but for its length."""
    return f"{sort}_variant {pick(NAMES)} {pick([0, 1, 7, 2 ** 32 - 1])} {pick(NAMES)}"


def leaf_call():
    """A call that is a tree."""
    made = number()
    kind = made[-4:].lstrip("-0123456789")
    digits = "".join(some(lambda: pick(["00", "7f", "ff"])))
    return pick(["unit", "none", f"bool {pick(['true', 'false'])}", f"{kind} {made.removesuffix(kind)}",
                 f"char {coded(letter())}", f"str {coded(text())}", f"bytes {digits}", f"unit_struct {pick(NAMES)}",
                 named_variant("unit")])


def spelled(depth):
    """Calls that spell a tree, at most this deep."""
    if depth <= 1 or chance() < 0.3:
        return [leaf_call()]
    return pick([wrapped, series, mapped, mapped, recorded])(depth)


def wrapped(depth):
    """Calls of a tree around another."""
    return [pick(["some", f"newtype_struct {pick(NAMES)}", named_variant("newtype")]), *spelled(depth - 1)]


def closed(opening, item):
    """Calls of a compound whose items `item` spells."""
    return [opening, *(call for calls in some(item) for call in calls), "end"]


def series(depth):
    """Calls of items by position."""
    if chance() < 0.5:
        opening = pick(["seq", f"seq {hint()}", f"tuple {hint()}"])
        return closed(opening, lambda: ["element", *spelled(depth - 1)])
    opening = pick([f"tuple_struct {pick(NAMES)} {hint()}", f"{named_variant('tuple')} {hint()}"])
    return closed(opening, lambda: [crossed("tuple_field"), *spelled(depth - 1)])


def recorded(depth):
    """Calls of fields."""
    opening = pick([f"struct {pick(NAMES)} {hint()}", f"{named_variant('struct')} {hint()}"])
    return closed(opening, lambda: [crossed(f"field {pick(NAMES)}"), *spelled(depth - 1)])


def crossed(call):
    """The call that announces a field, by chance that of the other trait."""
    return call if chance() < 0.98 else pick(["tuple_field", f"field {pick(NAMES)}"])


def mapped(depth):
    """Calls of a map, its items in any order."""
    return closed(pick(["map", f"map {hint()}"]), lambda: map_item(depth - 1))


def map_item(depth):
    """Calls of a key, a value or an entry."""
    if chance() < 0.3:
        return ["entry", *spelled(depth), *spelled(depth)]
    return [pick(["key", "value"]), *spelled(depth)]


def damaged(calls):
    """The calls with one step changed."""
    place = pick(range(len(calls) + 1))
    words = ["end", "some", "seq", "map", "element", "tuple_field", "key", "value", "entry", "field x"]
    other = [pick([leaf_call(), *words])]
    before, at, after = calls[:place], calls[place:place + 1], calls[place + 1:]
    return pick([before, before + after, before + at + at + after, before + other + after, before + other + at + after,
                 before + after[:1] + at + after[1:]])


def calls():
    """A list of calls, half of them one step from a whole one."""
    made = spelled(pick(range(1, 6)))
    return "calls", "; ".join(damaged(made) if chance() < 0.5 else made)


def main():
    """Prints the cases."""
    seed, lists, reads = map(int, sys.argv[1:])
    random.seed(seed)
    reading = [ask, ask, opened, read, read, access]
    for makers, count in (([calls], lists), (reading, reads), ([whole], reads // 2)):
        for _ in range(count):
            print("\t".join(pick(makers)()))


main()
