"""judge.py rows PAGE ROOM: writes the rows that crates/check_rows is asked to agree with to ROOM/rows/, from the cases
in ROOM/cases and the Rust crate's answers to them in ROOM/answers. Each answer goes through the rules below. A rule
stands for one line of PAGE, docs/DIFFERENCES.md: it makes of the crate's answer the one that is ours by that line.
Lists of calls that Serde's traits can't make are no comparisons, since the crate has no answer to them. Ours must be a
refusal at the call with which the traits can't go on.
judge.py count ROOM: counts the rows that agree, by line, and those that differ by ROOM/said, what check_rows said, and
ends with status 1 where there are any."""
import re
import sys
from pathlib import Path

sys.dont_write_bytecode = True

from verdicts import NO_ANSWER, check_page, count, lines_of, write_rows  # noqa: E402

SERDE_TEXTS = {
    r"invalid length (\d+), expected a tuple of size (\d+)": r"too few elements: expected \2, found \1",
    r"invalid type: string .*, expected a borrowed string": "expected a borrowed string",
    "invalid type: byte array, expected a borrowed byte array": "expected borrowed bytes",
    "invalid type: .*, expected a number": "expected a number",
}


class Case:
    """A case, the crate's answer, and what it answers without the oddity that the case meets, if it meets one."""

    def __init__(self, case, answer):
        self.operation, *self.arguments = case.split("\t")
        self.answer, _, self.instead = answer.partition("\t")


def hint(case):
    """A hint that no memory can hold."""
    return case.instead if case.answer == "panicked: capacity overflow" else None


def has_no_answer(case):
    """Calls that Serde's traits can't make, or can't make in a value that the crate doesn't look at."""
    return case.operation == "calls" and case.answer.endswith(("impossible", "unseen"))


def ignored(case):
    """A field of the other trait, whose value is ignored."""
    return case.instead if case.answer.startswith("ignored ") else None


def variant_of_text(case):
    """A tuple variant or one with fields, requested of a text."""
    wanted = {"tuple_variant(2)": "a tuple", "struct_variant": "an object-like"}
    if case.operation != "enum" or case.arguments[2] not in wanted:
        return None
    return case.answer.replace("expected a newtype enum", f"expected {wanted[case.arguments[2]]} enum")


def lent_bytes(case):
    """The bytes of an owned name."""
    return re.sub(r"\blent\[", "o[", case.answer) if case.operation == "ask" else None


def coercing_name(case):
    """The flags of an identifier that comes out of what coerces."""
    if case.operation in ("ask", "access") and "c" in case.arguments[0]:
        return re.sub(r"\bh:id\(", "hc:id(", case.answer)
    return None


def variant_as_value(case):
    """A variant of an enum that is read as a `Value`."""
    return case.instead if case.answer == "refused invalid type: enum, expected any value" else None


def letters_past_ascii(case):
    """Characters past ASCII that an image escapes."""
    if case.operation in ("image", "unexpected", "unexpected_part"):
        return unescaped(case.answer)
    return re.sub(r"(refused|; stop) .*?(?=; ok |; refused |$)", lambda found: unescaped(found[0]), case.answer)


def unescaped(text):
    """The text with each character past ASCII as itself, its bytes as `%` and two digits."""
    return re.sub(r"\\\\|\\u\{([0-9a-f]+)\}", letter_of, text)


def letter_of(found):
    """The bytes of an escaped character past ASCII; any other as it is escaped."""
    letter = chr(int(found[1], 16)) if found[1] else ""
    return found[0] if letter <= "\x7f" else "".join(f"%{byte:02X}" for byte in letter.encode())


def serde_text(case):
    """Serde's own texts."""
    for theirs, ours in SERDE_TEXTS.items():
        if found := re.fullmatch(f"refused {theirs}", case.answer):
            return "refused " + found.expand(ours)
    return None


# The start of a line of docs/DIFFERENCES.md, and what it makes of an answer.
RULES = {
    "a length hint reserves memory, and can panic": hint,
    "`serialize_field` of the wrong compound serialiser ignores the value": ignored,
    "`tuple_variant` and `struct_variant` of a text say that a newtype was expected": variant_of_text,
    "the bytes of an identifier with an owned name are borrowed": lent_bytes,
    "an identifier has no flag `coerce_numbers`": coercing_name,
    "`ValueVisitor` refuses enums": variant_as_value,
    "an error escapes some characters outside ASCII": letters_past_ascii,
    "errors of Serde's own have Serde's texts": serde_text,
}


def judged(case):
    """Our answer, and the lines by which it isn't the crate's."""
    if has_no_answer(case):
        return case.instead, [NO_ANSWER]
    starts = []
    for start, rule in RULES.items():
        answer = rule(case)
        if answer is not None and answer != case.answer:
            case.answer = answer
            starts.append(start)
    return case.answer, starts


def main():
    """Writes the rows, or counts."""
    words = sys.argv[1:]
    if words[0] == "count":
        return count(Path(words[1]), RULES)
    page, room = words[1], Path(words[2])
    check_page(page, RULES)
    answers = zip(lines_of(room / "cases"), lines_of(room / "answers"), strict=True)
    write_rows(room, lines_of(room / "cases"), (judged(Case(case, answer)) for case, answer in answers))
    return 0


sys.exit(main())
