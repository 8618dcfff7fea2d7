#!/usr/bin/env python3
"""trees.py make SEED COUNT ROOM | compare ROOM | beside ROOM: the work of checks/json.sh.

A tree is a tuple of its kind and what it holds. `make` writes each as words of a line into ROOM/lines, and into ROOM/wanted
its text on one line, its text on several, and a line of two dashes. Texts, numbers and literals are what `json.dumps`
writes; json has no objects with equal keys and no trees, so arrays and objects are laid out here, by the rules of
`json.dumps(indent=2)`, but that what is empty stays on its line.
"""

import json
import random
import sys

TEXTS = ["", "a", "é", '"', "\\", "/", "\0", "\b", "\t", "\n", "\x0b", "\f", "\r", "\x1f", "\x7f", "\u2028", "名", "😀", "x" * 20]
BITS = [8, 16, 32, 64, 128]


class BadKey(Exception):
    """What a key is that can't be one."""


def some_text():
    return "".join(random.choice(TEXTS) for _ in range(random.randrange(4)))


def some_number():
    bits, signed = random.choice(BITS), random.random() < 0.5
    least, most = (-(2 ** (bits - 1)), 2 ** (bits - 1) - 1) if signed else (0, 2**bits - 1)
    number = random.choice([least, most, 0, random.randint(least, most), random.randint(max(least, -128), 127)])
    return "number", f"{'i' if signed else 'u'}{bits}", number


def some_parts(depth):
    return [some_tree(depth - 1) for _ in range(random.randrange(4))]


def some_data(depth):
    kind = random.choice(["none", "one", "many", "named"])
    if kind == "one":
        return kind, some_tree(depth - 1)
    if kind == "many":
        return kind, some_parts(depth)
    if kind == "named":
        return kind, [(some_text(), part) for part in some_parts(depth)]
    return (kind,)


def some_key(depth):
    """A tree; mostly one that can be a key."""
    while True:
        tree = some_tree(min(depth, 1))
        try:
            key_of(tree)
            return tree
        except BadKey:
            if random.random() < 0.1:
                return tree


def some_tree(depth):
    kinds = ["unit", "true", "false", "number", "character", "text", "text", "bytes", "absent"]
    if depth > 0:
        kinds += ["seq", "seq", "tuple", "map", "map", "map", "present", "struct", "variant", "variant"]
    kind = random.choice(kinds)
    if kind == "number":
        return some_number()
    if kind == "character":
        return kind, random.choice([it for it in TEXTS if len(it) == 1])
    if kind == "text":
        return kind, some_text()
    if kind == "bytes":
        return kind, bytes(random.randrange(256) for _ in range(random.randrange(4)))
    if kind in ("seq", "tuple"):
        return kind, some_parts(depth)
    if kind == "map":
        return kind, [(some_key(depth - 1), part) for part in some_parts(depth)]
    if kind == "present":
        return kind, some_tree(depth - 1)
    if kind == "struct":
        return kind, some_data(depth)
    if kind == "variant":
        return kind, some_text(), some_data(depth)
    return (kind,)


def hexed(content):
    return f"x{content.hex()}"


def listed(parts):
    """How many there are, and the words of each."""
    parts = list(parts)
    return [str(len(parts)), *(word for part in parts for word in part)]


def words_of(tree):
    """The words of a tree, or of what a struct or a variant holds."""
    kind = tree[0]
    if kind == "number":
        return [kind, tree[1], str(tree[2])]
    if kind == "character":
        return [kind, str(ord(tree[1]))]
    if kind == "text":
        return [kind, hexed(tree[1].encode())]
    if kind == "bytes":
        return [kind, hexed(tree[1])]
    if kind in ("seq", "tuple", "many"):
        return [kind, *listed(words_of(part) for part in tree[1])]
    if kind == "map":
        return [kind, *listed(words_of(key) + words_of(part) for key, part in tree[1])]
    if kind == "named":
        return [kind, *listed([hexed(name.encode()), *words_of(part)] for name, part in tree[1])]
    if kind in ("present", "struct", "one"):
        return [kind, *words_of(tree[1])]
    if kind == "variant":
        return [kind, hexed(tree[1].encode()), *words_of(tree[2])]
    return [kind]


def key_of(tree):
    """The text of a key, by the rules of serde_json's serialiser of keys."""
    kind = tree[0]
    if kind in ("text", "character"):
        return tree[1]
    if kind in ("true", "false"):
        return kind
    if kind == "number":
        return str(tree[2])
    if kind == "present" or (kind == "struct" and tree[1][0] == "one"):
        return key_of(tree[1] if kind == "present" else tree[1][1])
    if kind == "variant" and tree[2][0] == "none":
        return tree[1]
    names = {"unit": "a unit", "bytes": "bytes", "seq": "a sequence", "map": "a map", "absent": "none", "struct": "a struct"}
    raise BadKey({**names, "variant": "a variant with data", "tuple": "a tuple"}[kind])


def enclosed(brackets, parts, level):
    """Parts between brackets, on one line where there is no level."""
    if not parts:
        return brackets
    inner, outer = ("", "") if level is None else ("\n" + "  " * (level + 1), "\n" + "  " * level)
    return brackets[0] + inner + ("," + inner).join(parts) + outer + brackets[1]


def text_of(tree, level):
    """Its JSON: on one line where there is no level."""
    kind, deeper = tree[0], None if level is None else level + 1
    if kind in ("unit", "absent", "none"):
        return "null"
    if kind in ("true", "false"):
        return kind
    if kind == "number":
        return json.dumps(tree[2])
    if kind in ("text", "character"):
        return json.dumps(tree[1], ensure_ascii=False)
    if kind == "bytes":
        return enclosed("[]", [json.dumps(byte) for byte in tree[1]], level)
    if kind in ("seq", "tuple", "many"):
        return enclosed("[]", [text_of(part, deeper) for part in tree[1]], level)
    if kind in ("present", "struct", "one"):
        return text_of(tree[1], level)
    colon = ":" if level is None else ": "
    if kind == "map":
        pairs = [(key, part) for key, part in tree[1]]
    elif kind == "named":
        pairs = [(("text", name), part) for name, part in tree[1]]
    elif tree[2][0] == "none":
        return json.dumps(tree[1], ensure_ascii=False)
    else:
        pairs = [(("text", tree[1]), tree[2])]
    members = [json.dumps(key_of(key), ensure_ascii=False) + colon + text_of(part, deeper) for key, part in pairs]
    return enclosed("{}", members, level)


def make(seed, count, room):
    random.seed(int(seed))
    with open(f"{room}/lines", "w", encoding="utf-8") as lines, open(f"{room}/wanted", "w", encoding="utf-8") as wanted:
        for _ in range(int(count)):
            tree = some_tree(random.randrange(5))
            lines.write(" ".join(words_of(tree)) + "\n")
            try:
                texts = [text_of(tree, None), text_of(tree, 0)]
            except BadKey as error:
                texts = [f"a key of a map is {error}"] * 2
            wanted.write("\n".join([*texts, "--", ""]))


def compare(room):
    with open(f"{room}/here", encoding="utf-8") as here, open(f"{room}/wanted", encoding="utf-8") as wanted:
        answers, due = here.read().split("\n--\n"), wanted.read().split("\n--\n")
    wrong = [pair for pair in zip(answers, due) if pair[0] != pair[1]]
    refused = sum(it.startswith("a key of a map is ") for it in due)
    print(f"of {len(due) - 1} trees {len(due) - 1 - len(wrong)} have the same texts, {refused} of them a refused key")
    for answer, text in wrong[:10]:
        print(f"wanted: {text}\nhere:   {answer}")
    sys.exit(1 if wrong or len(answers) != len(due) else 0)


def beside(room):
    """Compares what serde_json writes, in ROOM/beside, with the texts wanted; which key it refuses doesn't count."""
    with open(f"{room}/beside", encoding="utf-8") as theirs, open(f"{room}/wanted", encoding="utf-8") as wanted:
        answers, due = theirs.read().split("\n--\n"), wanted.read().split("\n--\n")
    due = ["refused\nrefused" if it.startswith("a key of a map is ") else it for it in due]
    wrong = [pair for pair in zip(answers, due) if pair[0] != pair[1]]
    refused = sum(answer.startswith("refused") for answer, _ in wrong)
    print(f"serde_json: of {len(due) - 1} trees {len(due) - 1 - len(wrong)} have the same texts; it refuses {refused} more")
    for answer, text in wrong[:10]:
        print(f"wanted: {text}\ntheirs: {answer}")
    sys.exit(1 if wrong or len(answers) != len(due) else 0)


{"make": make, "compare": compare, "beside": beside}[sys.argv[1]](*sys.argv[2:])
