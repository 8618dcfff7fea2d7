#!/usr/bin/env python3
"""texts.py make SEED COUNT ROOM | compare ROOM: the work of checks/json.sh for texts that are decoded.

`make` writes texts into ROOM/texts, each as hexadecimal digits after an x: random values in JSON with random blanks and
escapes, and each of them damaged. `compare` reads the answers in ROOM/read. Whether a text is right and which value it is,
`json.loads` says; the first byte with which no text begins, an automaton that takes one byte at a time.
"""

import json
import random
import sys

LEAVES = [None, True, False, 0, -1, 2**63, 2**64 - 1, 2**64, -(2**63), -(2**63) - 1, 2**128 - 1, -(2**127), 2**128, -(2**127) - 1]
TEXTS = ["", 'a"b', "\\", "é", "😀", "\0\x1f\x7f", "xxxx", "𝄞", "/"]
PIECES = ['"', "\\", "\\u", "d83d", "\\ud83d", "\\ude00", "{", "}", "[", "]", ",", ":", "0", "-", ".", "e", "1", " ", "null", "t", "\0", "\\/", "+"]
PIECES = [it.encode() for it in PIECES] + [b"\xc3", b"\xa9", b"\xf0\x9f"]
SPANS = [(0xC2, 0xDF, 1, 0x80, 0xBF), (0xE0, 0xE0, 2, 0xA0, 0xBF), (0xE1, 0xEC, 2, 0x80, 0xBF), (0xED, 0xED, 2, 0x80, 0x9F)]
SPANS += [(0xEE, 0xEF, 2, 0x80, 0xBF), (0xF0, 0xF0, 3, 0x90, 0xBF), (0xF1, 0xF3, 3, 0x80, 0xBF), (0xF4, 0xF4, 3, 0x80, 0x8F)]
AFTER = "the text ends inside a value"


class Pairs(list):
    """An object: its pairs in order."""


def some_value(depth):
    kind = random.random()
    if depth == 0 or kind < 0.45:
        return random.choice([*LEAVES, *TEXTS, random.randint(-300, 300), random.randint(-(2**127), 2**128)])
    if kind < 0.72:
        return [some_value(depth - 1) for _ in range(random.randrange(4))]
    return Pairs((random.choice(TEXTS), some_value(depth - 1)) for _ in range(random.randrange(4)))


def blanks():
    return random.choice(["", "", " ", "\n", "\t", "\r", " \n"])


def text_of(value):
    if isinstance(value, Pairs):
        parts = [text_of(key) + blanks() + ":" + blanks() + text_of(part) for key, part in value]
        return "{" + blanks() + (blanks() + "," + blanks()).join(parts) + blanks() + "}"
    if isinstance(value, list):
        return "[" + blanks() + (blanks() + "," + blanks()).join(map(text_of, value)) + blanks() + "]"
    return json.dumps(value, ensure_ascii=random.random() < 0.6)


def damaged(text):
    text = bytearray(text)
    for _ in range(random.randrange(1, 3)):
        at, kind = random.randrange(len(text) + 1), random.randrange(4)
        if kind == 0:
            del text[at : at + random.randrange(1, 3)]
        elif kind == 1:
            text[at:at] = random.choice(PIECES)
        elif kind == 2 and at < len(text):
            text[at] = random.randrange(256)
        else:
            del text[at:]
    return bytes(text)


def fits(value):
    """Whether a value has no half of a surrogate pair and no number past 128 bits."""
    if isinstance(value, Pairs):
        return all(fits(key) and fits(part) for key, part in value)
    if isinstance(value, list):
        return all(map(fits, value))
    if isinstance(value, str):
        return not any(0xD800 <= ord(it) < 0xE000 for it in value)
    return isinstance(value, bool) or not isinstance(value, int) or -(2**127) <= value < 2**128


def refuse(_):
    raise ValueError


def read(text):
    """Whether the bytes are right, and their value."""
    try:
        value = json.loads(text.decode(), object_pairs_hook=Pairs, parse_float=refuse, parse_constant=refuse)
    except ValueError:
        return False, None
    return not text.startswith(b"\xef\xbb\xbf") and fits(value), value


class Automaton:
    """What is due, innermost last, and where inside a word, a number or a text the bytes so far end."""

    def __init__(self):
        self.due, self.inside = ["value"], None

    def takes(self, byte):
        """Whether some text begins with the bytes so far and this one."""
        if self.inside is None:
            return self.takes_outside(byte)
        kind, *held = self.inside
        return getattr(self, f"takes_{kind}")(byte, *held)

    def takes_outside(self, byte):
        if byte in b" \t\r\n":
            return True
        top = self.due.pop() if self.due else None
        if top in ("value", "item") and not (top == "item" and byte == ord("]")):
            return self.begins_value(byte)
        if top in ("key", "member") and byte == ord('"'):
            self.due += ["value", "colon"]
            self.inside = ("text", 0, 0, 0)
            return True
        if top in ("item", "member"):
            return self.due.pop() and byte == ord("]" if top == "item" else "}")
        if top in ("]", "}") and byte == ord(","):
            self.due += [top, "value" if top == "]" else "key"]
            return True
        return top is not None and (byte == ord(":") if top == "colon" else top in ("]", "}") and byte == ord(top))

    def begins_value(self, byte):
        if byte == ord("["):
            self.due += ["]", "item"]
        elif byte == ord("{"):
            self.due += ["}", "member"]
        elif byte == ord('"'):
            self.inside = ("text", 0, 0, 0)
        elif byte in b"-0123456789":
            self.inside = ("number", chr(byte))
        elif byte in b"tfn":
            self.inside = ("word", {"t": b"rue", "f": b"alse", "n": b"ull"}[chr(byte)])
        else:
            return False
        return True

    def takes_word(self, byte, left):
        self.inside = ("word", left[1:]) if left[1:] else None
        return byte == left[0]

    def takes_number(self, byte, digits):
        if byte in b"0123456789":
            self.inside = ("number", digits + chr(byte))
            return digits not in ("0", "-0") and -(2**127) <= int(digits + chr(byte)) < 2**128
        self.inside = None
        return digits != "-" and byte not in b".eE" and self.takes_outside(byte)

    def takes_text(self, byte, lacking, least, most):
        if lacking:
            self.inside = ("text", lacking - 1, 0x80, 0xBF)
            return least <= byte <= most
        if byte == ord('"'):
            self.inside = None
        elif byte == ord("\\"):
            self.inside = ("escape",)
        elif byte >= 0x80:
            for first, last, count, low, high in SPANS:
                if first <= byte <= last:
                    self.inside = ("text", count, low, high)
                    return True
            return False
        return byte >= 0x20

    def takes_escape(self, byte):
        self.inside = ("digits", "", False) if byte == ord("u") else ("text", 0, 0, 0)
        return byte in b'"\\/bfnrtu'

    def takes_digits(self, byte, digits, is_second):
        digits += chr(byte).lower()
        if digits[-1] not in "0123456789abcdef" or (is_second and digits[0] != "d"):
            return False
        if len(digits) == 2 and digits[0] == "d" and (digits[1] in "cdef") != is_second:
            return False
        if len(digits) < 4:
            self.inside = ("digits", digits, is_second)
        else:
            self.inside = ("half", b"\\u") if not is_second and "d800" <= digits < "dc00" else ("text", 0, 0, 0)
        return True

    def takes_half(self, byte, left):
        self.inside = ("half", left[1:]) if left[1:] else ("digits", "", True)
        return byte == left[0]


def place(text):
    """Where the first byte is with which no text begins, or the length."""
    automaton = Automaton()
    for at, byte in enumerate(text):
        if not automaton.takes(byte):
            return at
    return len(text)


def make(seed, count, room):
    random.seed(int(seed))
    with open(f"{room}/texts", "w", encoding="ascii") as texts:
        for _ in range(int(count) // 2):
            text = (blanks() + text_of(some_value(3)) + blanks()).encode("utf-8", "surrogatepass")
            texts.write(f"x{text.hex()}\nx{damaged(text).hex()}\n")


def is_right(text, answer):
    """Whether the answer is that of json and of the automaton."""
    right, value = read(text)
    if right or answer.startswith("ok "):
        return right and answer.startswith("ok ") and json.loads(answer[3:], object_pairs_hook=Pairs) == value
    at, fault = answer.removeprefix("refused at byte ").split(": ")
    return int(at) == place(text) and (int(at) == len(text)) == (fault == AFTER)


def compare(room):
    with open(f"{room}/texts", encoding="ascii") as texts, open(f"{room}/read", encoding="utf-8") as answers:
        pairs = [(bytes.fromhex(text[1:]), answer.rstrip("\n")) for text, answer in zip(texts, answers)]
    wrong = [it for it in pairs if not is_right(*it)]
    print(f"of {len(pairs)} texts {len(pairs) - len(wrong)} have the same answer, {sum(a.startswith('ok ') for _, a in pairs)} of them a value")
    for text, answer in wrong[:10]:
        print(f"{text}: {answer}, place {place(text)}")
    sys.exit(1 if wrong or not pairs else 0)


{"make": make, "compare": compare}[sys.argv[1]](*sys.argv[2:])
