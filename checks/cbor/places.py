"""Damaged values and random bytes, where and why cbor_cli must refuse them, and how its answers differ.

places.py make SEED COUNT FOLDER: writes FOLDER/damaged, as many lines of hexadecimal digits: lines of FOLDER/input
with bytes cut, changed or put in between, and bytes of which many begin something.
places.py compare FOLDER: compares FOLDER/refusals with the places and faults, and ends with status 1 where one differs.

The place of bytes that aren't accepted is the length of the longest of their beginnings that some bytes can follow
that make one accepted. The fault is the first that the byte at the place has, in the order of `content_cbor::Fault`.
What is accepted is what `content_cbor::decode` reads, and the depth that of `cbor_cli`; the scanner here is made from
RFC 8949 and the Unicode standard's table 3-7.
"""

import random
import sys

DEPTH = 128
# Heads of each kind, the ends of ranges in texts, and what numbers under a tag are made of.
TELLING = bytes.fromhex(
    "000102181b1f20404142504f58595b5f60616264787f808198999fa0a1b8bfc0c1c2c3c4d8d9dbe0e1edeff0f3f4f5f6f7f8f9ff8fa09fbf"
)

TAIL = (0x80, 0xBF)
UTF8 = {lead: [] for lead in range(0x80)}  # lead byte -> ranges of the bytes that follow (Unicode, table 3-7)
UTF8.update({lead: [TAIL] * (1 + (lead >= 0xE0) + (lead >= 0xF0)) for lead in range(0xC2, 0xF5)})
UTF8[0xE0], UTF8[0xED] = [(0xA0, 0xBF), TAIL], [(0x80, 0x9F), TAIL]
UTF8[0xF0], UTF8[0xF4] = [(0x90, 0xBF), TAIL, TAIL], [(0x80, 0x8F), TAIL, TAIL]


ENDED = "the bytes end inside an item"
TRAILING = "bytes after the item"
RESERVED = "no first byte of an item"
BREAK = "a break out of place"
CHUNK = "an item that is no chunk"
KIND = "an item of a wrong kind"
FLOAT = "a float"
SIMPLE = "an unknown simple value"
TAG = "an unknown tag"
DEEP = "items nest too deep"
WIDE = "a number past 128 bits"
NO_UTF8 = "a text that is no UTF-8"


class Refused(Exception):
    """args are the place, the index of the first byte that leaves nothing viable, or the end; and the fault."""


def any_item(major, info, deep):
    """The fault of the first byte of an item, if it has one."""
    if major == 7 and info not in (20, 21, 22):
        return FLOAT if 25 <= info <= 27 else SIMPLE
    if major == 6 and info < 24 and info not in (2, 3):
        return TAG
    return DEEP if deep else None


class Scanner:
    """Invariant: data[:pos] is viable. Each step moves pos over viable bytes or raises Refused(pos)."""

    def __init__(self, data, limit):
        self.data, self.limit, self.pos = data, limit, 0

    def need(self, viable, fault):
        if not viable:
            raise Refused(self.pos, fault)

    def step(self, viable, fault):
        self.need(viable, fault)
        self.pos += 1

    def peek(self):
        self.need(self.pos < len(self.data), ENDED)
        return self.data[self.pos]

    def first(self, fault):
        """The major type and the five low bits of a first byte. fault(major, info): what is wrong with it here?"""
        major, info = self.peek() >> 5, self.peek() & 31
        self.need(info < 28 or info == 31 and major not in (0, 1, 6), RESERVED)
        self.need(self.peek() != 0xFF, BREAK)
        wrong = fault(major, info)
        self.need(wrong is None, wrong)
        return major, info

    def head(self, fault, fits=lambda low, high: True):
        """Pass a head, return its argument. fits(low, high): would some argument in low..high do? It is asked
        anew at each byte, with the range that the bytes up to and with this one leave open."""
        info = self.peek() & 31
        width, low = (0, info) if info < 24 else (1 << (info - 24), 0)
        self.step(fits(low, low + (1 << 8 * width) - 1), fault)
        for shift in range(8 * width - 8, -1, -8):
            low += self.peek() << shift
            self.step(fits(low, low + (1 << shift) - 1), fault)
        return low

    def string(self, content, fits=lambda low, high: True):
        """A string, definite or in chunks; content(n) passes n bytes of content."""
        whole = self.peek() >> 5
        if self.peek() & 31 != 31:
            return content(self.head(WIDE, fits))
        self.pos += 1
        while self.peek() != 0xFF:
            self.first(lambda major, info: None if major == whole and info < 28 else CHUNK)
            content(self.head(WIDE, fits))
        self.pos += 1

    def opaque(self, n):
        if n > len(self.data) - self.pos:
            raise Refused(len(self.data), ENDED)
        self.pos += n

    def text(self, n):
        end = self.pos + n
        while self.pos < end:
            trail = UTF8.get(self.peek())
            self.step(trail is not None and self.pos + 1 + len(trail) <= end, NO_UTF8)
            for low, high in trail:
                self.step(low <= self.peek() <= high, NO_UTF8)

    def number(self, bound):
        """The byte string under a tag. Its least continuation is all zeros, so what is open is viable while
        value * 256^(the digits that must still come) stays below the bound."""
        value = 0

        def room(more):
            return value == 0 or (more <= 16 and value << 8 * more < bound)

        def digits(n):
            nonlocal value
            for more in range(n - 1, -1, -1):
                value = value * 256 + self.peek()
                self.step(room(more), WIDE)

        self.first(lambda major, info: None if major == 2 else KIND)
        self.string(digits, lambda low, high: room(low))

    def item(self, depth):
        major, info = self.first(lambda major, info: any_item(major, info, depth > self.limit))
        if major <= 1 or major == 7:
            self.head(None)
        elif major <= 3:
            self.string(self.opaque if major == 2 else self.text)
        elif major == 6:
            tag = self.head(TAG, lambda low, high: low <= 3 and high >= 2)
            self.number(1 << (128 if tag == 2 else 127))
        elif info == 31:  # an array or a map up to its break
            self.pos += 1
            while self.peek() != 0xFF:
                for _ in range(major - 3):
                    self.item(depth + 1)
            self.pos += 1
        else:  # at the limit of depth only an empty one is possible
            count = self.head(DEEP, lambda low, high: low == 0 or depth < self.limit)
            for _ in range(count * (major - 3)):
                self.item(depth + 1)


def refusal(data):
    """The place where the bytes are refused and the fault, or None where they are accepted."""
    scanner = Scanner(data, DEPTH)
    try:
        scanner.item(1)
    except Refused as refused:
        return refused.args
    return None if scanner.pos == len(data) else (scanner.pos, TRAILING)


def damaged(chance, data):
    """The bytes with a few cut off, changed, left out or put in between."""
    data = bytearray(data)
    for _ in range(chance.choice([1, 1, 1, 2, 3])):
        at = chance.randrange(len(data) + 1)
        kind = chance.randrange(4)
        if kind == 0:
            del data[at:]
        elif kind == 1:
            data[at : at + 1] = bytes([chance.choice([chance.randrange(256), chance.choice(TELLING)])])
        elif kind == 2:
            del data[at : at + chance.randint(1, 3)]
        else:
            data[at:at] = chance.choices(TELLING, k=chance.randint(1, 3))
    return bytes(data)


def make(seed, count, folder):
    chance = random.Random(seed)
    with open(f"{folder}/input", encoding="ascii") as lines:
        whole = [bytes.fromhex(line) for line in lines]
    with open(f"{folder}/damaged", "w", encoding="ascii") as lines:
        for number in range(count):
            if number % 2 == 0:
                data = damaged(chance, chance.choice(whole))
            else:
                data = bytes(chance.choices(TELLING, k=chance.randint(1, 24)))
            print(data.hex(), file=lines)


def compare(folder):
    with open(f"{folder}/damaged", encoding="ascii") as lines:
        inputs = [bytes.fromhex(line) for line in lines]
    with open(f"{folder}/refusals", encoding="utf-8") as lines:
        answers = lines.read().split("\n")[:-1]
    differ = refused = 0
    if len(answers) != len(inputs):
        sys.exit(f"{len(answers)} answers to {len(inputs)} lines")
    for data, answer in zip(inputs, answers):
        told = refusal(data)
        wanted = None if told is None else f"refused at byte {told[0]}: {told[1]}"
        refused += wanted is not None
        if (answer if answer.startswith("refused at ") else None) != wanted:
            differ += 1
            print(f"{data.hex()}: {answer[:80]}, not {wanted or 'accepted'}")
    print(f"{len(inputs)} damaged or random, {refused} of them refused: {differ} differ")
    sys.exit(differ > 0)


if sys.argv[1] == "make":
    make(int(sys.argv[2]), int(sys.argv[3]), sys.argv[4])
else:
    compare(sys.argv[2])
