"""Pieces of text that the impls are made of."""
import re
from typing import List

from .types import LT_DE, READ, Type, angled, bounded, snake
from .words import ALIASES, RESERVED, WORDS


SERIALIZE = "fn serialize<S: Serializer>(&self, alloc: Global, serializer: &mut S) -> Result<()>"
DESERIALIZE = "fn deserialize<'n: 'de>(alloc: Global, from: Deserializer<'de, 'n>) -> Result<{}>"
KNOWN = "fn known(&self)"
ABSENT = "fn absent(alloc: Global) -> {}"


def codes(name: str) -> str:
    return f'(codes "{name}")'


def filled(line: str, width: int = 84) -> str:
    """The line, broken within this width at the last blank that stands in the fewest brackets."""
    if len(line) <= width:
        return line
    depth, place, lowest = 0, 0, 0
    for found in re.finditer(r'(?:name )?"[^"]*"|⟦[^⟧]*⟧|[({[]|[)}\]]| ', line):
        if found.start() > width:
            break
        depth += (found.group() in "({[") - (found.group() in ")}]")
        if found.group() == " " and found.start() > width // 3 and (not place or depth <= lowest):
            place, lowest = found.start(), depth
    return f"{line[:place]}\n{filled(line[place + 1:], width)}" if place else line


def ghost(name: str, term: str) -> str:
    return "\n".join(filled(line) for line in f"ghost {name} = {{ {term} }};".split("\n"))


def ghost_type(name: str, of: str) -> str:
    """The declaration of a ghost member of a trait."""
    return "\n".join(filled(line) for line in f"ghost {name}: {{ {of} }};".split("\n"))


REFUSED_NULL = "record { of_null = λ b e. absurd (cc e) }"


def clause(word: str, fact: str) -> str:
    return "\n".join(filled(line) for line in f"{word} {{ {fact} }}".split("\n")) + "\n"


def function(signature: str, *lines: str) -> str:
    """A function; an allocator that it doesn't use is named so."""
    body = "\n".join(lines)
    return f"{signature if 'alloc' in body else signature.replace('alloc', '_alloc')} {{\n{body}\n}}"


def fields_reader(name: str, result: Type, refusal: str, gives: str, lines: List[str], by_name: bool = True) -> str:
    """A function that reads fields by name or by place, under a contract of what it refuses and may give."""
    about, source, of, left = (("the fields, in any order", "fields", "FieldsByName", "fields_left") if by_name else
                               ("the values", "parts", "serde_content::de::Seq", "seq_view"))
    given = angled(LT_DE, f"'n: {LT_DE}", *bounded(result.parameters(), READ, bare=result.bare()))
    signature = f"fn {name}{given}(alloc: Global, {source}: {of}<'de, 'n>) -> Result<{result.rust()}>"
    reads = clause("ensures", f"Reads ({refusal}\n({left} {source}.entry))\n(λ z. {gives}\n({left} {source}.entry)) result")
    body = "\n".join(lines)
    return f"/// Reads {about}.\n{signature}\n{reads}{{\n{body}\n}}\n"


def arm(pattern: str, lines: List[str]) -> str:
    """An arm of a match: in braces, but where it is one value that is short."""
    text = f"{pattern} => {''.join(lines)},"
    if len(lines) == 1 and ";" not in text and len(text) <= 88:
        return text
    return f"{pattern} => {{\n" + "\n".join(lines) + "\n}"


def elim(lines: List[str]) -> str:
    return "elim [\n" + "".join(f"| {line}\n" for line in lines) + "]"


def bracketed(term: str) -> str:
    """The term in brackets, where it is more than a word."""
    return f"({term})" if " " in term else term


def bare(term: str) -> str:
    """A term without the brackets around it, if it has some."""
    term = term.strip()
    return term[1:-1] if term.startswith("(") else term


def facts(count: int, such: str) -> List[str]:
    """So many facts, out of all together."""
    return [f"{such}{'.1' * place}.0" for place in range(count)]


def all_hold(known: List[str]) -> str:
    """That all tests hold, as a derived `==` makes them, from what is known of each."""
    first, *others = known
    return f"both_hold {bracketed(first)} {bracketed(all_hold(others))}" if others else first


def together(values: List[str]) -> str:
    """All values of a variant as one."""
    return f"({', '.join(values)})" if len(values) > 1 else "".join(values) or "tt"


BOUND = set("b cc d e f fits free fs g given h it l law m n o one only p people q r readable real refl result s same search t"
            " there tt v whole x y z absurd grind".split())


def alias(name: str) -> str:
    """What the cases of an enum are called, apart from the other names of contracts."""
    short = snake(name)
    return f"the_{short}" if short in BOUND | RESERVED or short in WORDS or short in ALIASES else short
