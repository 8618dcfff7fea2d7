"""Trees as tuples that begin with their sort, and how rows and errors write them.

("()",), ("bool", flag), ("num", kind, n), ("char", letter), ("str", text), ("bytes", octets), ("seq", items),
("tuple", items), ("map", pairs), ("none",), ("some", tree), ("struct", name, data), ("enum", name, index, variant,
data), where data is ("Unit",), ("NewType", tree), ("Tuple", items) or ("Fields", pairs of a name and a tree)."""

BITS = [8, 16, 32, 64, 128]
KINDS = [sign + str(bits) for bits in BITS for sign in "iu"]
UNIT, NONE = ("()",), ("none",)
EMPTY = (NONE, ("str", ""), ("seq", ()), ("map", ()))


def bounds(kind):
    """The least and the greatest number of a kind."""
    bits = int(kind[1:])
    return (0, 2 ** bits - 1) if kind[0] == "u" else (-(2 ** (bits - 1)), 2 ** (bits - 1) - 1)


def fits(n, kind):
    """Whether a number is one of this kind."""
    least, greatest = bounds(kind)
    return least <= n <= greatest


def tagged(name, variant, tag, *fields):
    """A variant that is sent as a struct of this name, whose first field names it."""
    return "struct", name, ("Fields", ((tag, ("str", variant.wire)), *fields))


def quoted(text):
    """A text in quotes, as rows and errors have it."""
    return '"' + text.replace("\\", "\\\\").replace('"', '\\"') + '"'


def row(tree):
    """A tree as a row has it, its texts and bytes owned."""
    sort, *parts = tree
    if sort == "struct":
        return f"Struct(s{quoted(parts[0])}, {row_data(parts[1])})"
    if sort == "enum":
        name, index, variant, data = parts
        return f"Enum(s{quoted(name)}, {index}, s{quoted(variant)}, {row_data(data)})"
    return {
        "()": lambda: "()", "none": lambda: "None", "bool": lambda flag: str(flag).lower(),
        "num": lambda kind, n: f"{n}{kind}", "char": lambda letter: f"'{letter}'",
        "str": lambda text: "o" + quoted(text), "bytes": lambda octets: f"o{list(octets)}",
        "some": lambda held: f"Some({row(held)})", "seq": lambda items: f"Seq[{listed(items, row)}]",
        "tuple": lambda items: f"Tuple[{listed(items, row)}]",
        "map": lambda pairs: f"Map{{{listed(pairs, lambda pair: f'{row(pair[0])} => {row(pair[1])}')}}}",
    }[sort](*parts)


def row_data(data):
    """What a struct or a variant holds."""
    sort, *parts = data
    if sort == "Unit":
        return sort
    if sort == "NewType":
        return f"NewType({row(parts[0])})"
    if sort == "Tuple":
        return f"Tuple[{listed(parts[0], row)}]"
    return f"Fields{{{listed(parts[0], lambda field: f's{quoted(field[0])}: {row(field[1])}')}}}"


def listed(items, write):
    """Items with commas between them."""
    return ", ".join(map(write, items))


def image(tree):
    """A tree as the errors of serde-content print it."""
    sort, *parts = tree
    if sort == "struct":
        return parts[0] + image_data(parts[1])
    if sort == "enum":
        return f"{parts[0]}::{parts[2]}{image_data(parts[3])}"
    return {
        "()": lambda: "()", "none": lambda: "None", "bool": lambda flag: str(flag).lower(),
        "num": lambda kind, n: f"{n}{kind}", "char": lambda letter: f"'{letter}'", "str": quoted,
        "bytes": lambda octets: f"&{list(octets)}", "some": lambda held: f"Some({image(held)})",
        "seq": lambda items: f"[{listed(items, image)}]", "tuple": lambda items: f"({listed(items, image)})",
        "map": lambda pairs: f"{{ {listed(pairs, lambda pair: f'{image(pair[0])}: {image(pair[1])}')} }}",
    }[sort](*parts)


def image_data(data):
    """What a struct or a variant holds, after its name."""
    sort, *parts = data
    if sort == "Unit":
        return ""
    if sort == "NewType":
        return f"({image(parts[0])})"
    if sort == "Tuple":
        return f"({listed(parts[0], image)})"
    return f" {{ {listed(parts[0], lambda field: f'{field[0]}: {image(field[1])}')} }}"


def printed(text):
    """A text of an error as rows have it."""
    return "".join(chr(byte) if 32 <= byte < 127 and byte != 37 else f"%{byte:02X}" for byte in text.encode())
