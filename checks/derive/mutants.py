"""Gives tools/derive declarations of which tokens are dropped, doubled and swapped: mutants.py TOP [SEED].

Each mutant must be taken, refused or found no Rust within a second of the processor, and what isn't taken must name a
line of it. Some of those that are taken, and the declarations of taken.rs, are modules of a crate, which must pass
`rt try`."""
import random
import re
import signal
import sys
import traceback
from collections import Counter, defaultdict
from itertools import islice, zip_longest
from pathlib import Path
from typing import Dict, Iterator, List

top = Path(sys.argv[1])
sys.dont_write_bytecode = True
sys.path.insert(0, str(top / "tools"))

from serde_derive.declarations import Refusals  # noqa: E402
from serde_derive.module import module  # noqa: E402
from trial import complete, refused  # noqa: E402

COUNT, TRIED = 5000, 40
OUTCOMES = {1: "no Rust", 2: "refused"}
MORE = ["(", ")", "{", "}", "[", "]", "<", ">", ",", ";", "::", "#", "!", "'", '"', "r#", "/*", "*/", "///", "pub", "in", "self",
        "Self", "crate", "use", "enum", "struct", "type", "impl", "fn", "where", "=", "é", "\t", "\0", "1.0", "'a", "'b'", "b'",
        "data", "result", "A", "x", "serde", "default", "flatten", "untagged", 'tag = "x"', "Option<", "#[cfg(x)]"]
NAMES = """data result record alloc fields a x A B Data Order Place Two S T1 P Call Error String Vec Option Box BTreeMap u8 i8 i128
bool char Self match Match the_x Same default flatten tag content rename Default Copy Hash Eq serde derive pub r#type""".split()


class Slow(Exception):
    """A mutant took more than a second."""


def sources() -> List[List[str]]:
    """The tokens of each block of declarations, blanks among them."""
    texts = [path.read_text(encoding="utf-8") for path in sorted((top / "crates").glob("check_*/*.rs"))]
    for path in sorted((top / "checks" / "derive").glob("*.rs")):
        texts += path.read_text(encoding="utf-8").split("\n\n")
    return [re.findall(r"\s+|\w+|.", text) for text in texts]


def mutant(tokens: List[str], chance: random.Random) -> str:
    """The tokens with one to three of them changed, mostly one; a name is mostly changed for another."""
    tokens = tokens[:]
    for _ in range(chance.choice((1, 1, 1, 2, 3))):
        one, other = (chance.choice([place for place, token in enumerate(tokens) if not token.isspace()]) for _ in "12")
        change = chance.randrange(6)
        if change == 0:
            tokens[one] = ""
        elif change == 1:
            tokens.insert(one, tokens[other])
        elif change == 2:
            tokens[one], tokens[other] = tokens[other], tokens[one]
        elif change == 3:
            tokens.insert(one, chance.choice(MORE))
        else:
            names = [place for place, token in enumerate(tokens) if token.isidentifier()]
            tokens[chance.choice(names or [one])] = chance.choice(NAMES)
    return "".join(tokens)


def outcome(source: str) -> str:
    """How a mutant ends; what should not be begins with `fault`."""
    signal.setitimer(signal.ITIMER_PROF, 1)
    try:
        module(source, "types.rs", "a", "types", True, [])
        return "taken"
    except Refusals as refusals:
        last = source.count("\n") + 1
        if all(1 <= refused.line <= last and refused.reason for refused in refusals.each):
            return OUTCOMES[refusals.status]
        return f"fault: {refusals.each[0].line} is no line, or without a reason"
    except Slow:
        return "fault: more than a second"
    except Exception:
        return f"fault: {traceback.format_exc()}"
    finally:
        signal.setitimer(signal.ITIMER_PROF, 0)


def late(*_: object) -> None:
    raise Slow


def in_turn(taken: Dict[int, List[str]]) -> Iterator[str]:
    """The mutants that are taken, one of each block in turn."""
    return (source for each in zip_longest(*taken.values()) for source in each if source)


def tried(taken: Dict[int, List[str]]) -> bool:
    """Has `rt try` compile the declarations of taken.rs and some mutants as one crate, and prints those that it
    refuses; whether it refuses any."""
    declared = (top / "checks" / "derive" / "taken.rs").read_text(encoding="utf-8").split("\n\n")[1:]
    changed = list(islice(complete(in_turn(taken)), TRIED))
    modules = {f"m{place}": source for place, source in enumerate([*complete(declared), *changed])}
    answer = refused(top, modules)
    for name, source in modules.items():
        if f"src/{name}.rt:" in answer:
            print(f"{name}.rs:\n{source}")
    print(answer.strip() or f"derive: {len(modules) - len(changed)} declarations and {len(changed)} mutants pass `rt try`")
    return bool(answer)


def main() -> int:
    chance = random.Random(int(sys.argv[2]) if len(sys.argv) > 2 else 1)
    ends, whole, taken = Counter(), sources(), defaultdict(list)
    signal.signal(signal.SIGPROF, late)
    for _ in range(COUNT):
        block = chance.randrange(len(whole))
        source = mutant(whole[block], chance)
        end = outcome(source)
        ends[end[:5] if end.startswith("fault") else end] += 1
        if end.startswith("fault"):
            print(f"{end}\n{source}\n")
        elif end == "taken":
            taken[block].append(source)
    print("derive: " + ", ".join(f"{number} mutants {end}" for end, number in sorted(ends.items())))
    return 1 if tried(taken) or ends["fault"] else 0


if __name__ == "__main__":
    sys.exit(main())
