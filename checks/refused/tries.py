"""Runs programs with each allocation, read and write refused in turn, and counts the bytes that
they ask for: see checks/refused_memory.sh."""

import itertools
import os
import re
import subprocess
import sys
import tempfile
from concurrent.futures import ThreadPoolExecutor
from typing import NamedTuple

sys.dont_write_bytecode = True
from stored import stored  # noqa: E402

top, room, folder = sys.argv[1:]
here = f"{top}/checks/refused"
PROGRAMS = ("content_cli", "check_memory", "check_rows", "cbor_cli")
# the operations that read: of their rows, the request or the type is of the sort too
READS = (b"access", b"ask", b"enum", b"into", b"order", b"read", b"round_trip")
AGREES = (b"1 rows agree, 0 differ\n", 0)
OUT_OF_MEMORY = (b"out of memory\n", 3)
# the programs that read and write by content_lines
BY_LINES = ("content_cli", "cbor_cli", "cbor_cli --pretty")
READ_FAILED = (b"read failed\n", 4)
# what the other programs answer to a read or a write that failed
PORT_FAILED = (b"a read or a write failed\n", 4)
# of how many items an input is on which the bytes asked for are held against a bound
COUNTS = (1, 30, 1000)
reports = itertools.count()


class Ran(NamedTuple):
    """What a run printed and its status, and its counts, as the shim reports them."""

    answer: tuple
    allocations: int
    reads: int
    writes: int
    left: int
    asked: int
    most: int


class Case(NamedTuple):
    """A program with its arguments, an input, and the answer that is wanted with ample memory."""

    program: str
    text: bytes
    wanted: tuple


class Sort(NamedTuple):
    """An operation on an input of any length, and how many bytes it may ask for: a constant, and
    so many for each item."""

    program: str
    constant: str
    each: str
    text: str
    answer: str


def path_of(program):
    """Where a program stands."""
    return f"{folder}/{program}" if folder else f"{top}/crates/{program}/out/{program}"


def run(program, text, **environment):
    """A run of a program, with its arguments behind its name. Of one that was stopped the blocks
    left are -1: it left no report."""
    program, *words = program.split()
    report = f"{room}/report{next(reports)}"
    where = {"LD_PRELOAD": f"{room}/shim.so", "REPORT": report}
    where |= {name: str(value) for name, value in environment.items()}
    # a file, of which each read gives as much as it asks for: of a pipe the reads would vary
    with tempfile.TemporaryFile(dir=room) as file:
        file.write(text)
        file.seek(0)
        how = {"stdin": file, "capture_output": True, "env": where, "timeout": 60}
        try:
            ran = subprocess.run([path_of(program), *words], **how)
            answer = ran.stdout, ran.returncode
        except subprocess.TimeoutExpired:
            answer = b"", "none in 60 seconds"
    if not os.path.exists(report):
        return Ran(answer, 0, 0, 0, -1, 0, 0)
    with open(report, encoding="ascii") as file:
        counts = [int(word) for word in file.read().split()]
    os.remove(report)
    return Ran(answer, *counts)


def told(answer, start):
    """An answer in a message; a long text from this place on."""
    out, status = answer
    shown = out if len(out) <= 300 else out[start:][:300]
    return f"{shown.decode(errors='replace')!r} with status {status}"


def faults(how, ran, *wanted):
    """What is wrong with a run, which may end in one of these answers. Long texts are told from a
    little before the place where they differ."""
    if ran.answer not in wanted:
        same = os.path.commonprefix([ran.answer[0], wanted[0][0]])
        got, *rest = (told(answer, max(0, len(same) - 100)) for answer in (ran.answer, *wanted))
        yield f"{how}: got {got}, wanted {' or '.join(rest)}"
    if ran.left != 0:
        yield f"{how}: {ran.left} blocks left"


def tried(case):
    """A case, how many runs it took, and what is wrong with them."""
    program, text, wanted = case
    ample = run(program, text)
    wrong = [*faults("with ample memory", ample, wanted)]
    if ample.allocations == 0:
        wrong.append("asks for no memory")
    tries = [({kind: 1}, [wanted]) for kind in ("SHORT_READS", "SHORT_WRITES")]
    for at in range(1, ample.allocations + 1):
        tries.append(({"REFUSE_ALLOCATION": at}, [wanted, OUT_OF_MEMORY]))
        # with no memory at all there is no answer
        tries.append(({"REFUSE_ALLOCATIONS": at}, [wanted, OUT_OF_MEMORY][at == 1 :]))
    for at in range(1, ample.reads + 1):
        failed = READ_FAILED if program in BY_LINES else PORT_FAILED
        tries.append(({"FAIL_READ": at}, [failed]))
    for refused, answers in tries:
        how = " ".join(f"{name}={at}" for name, at in refused.items())
        wrong += faults(how, run(program, text, **refused), *answers)
    failures = [{"FAIL_WRITE": at} for at in range(1, ample.writes + 1)]
    failures += [{"FAIL_READ": at, "FAIL_WRITE": 1} for at in range(1, ample.reads + 1)]
    for failed in failures:
        ran = run(program, text, **failed)
        # nothing is said of what went out
        answer = ran.answer[0], 5 if program in BY_LINES else 4
        wrong += faults(" ".join(f"{name}={at}" for name, at in failed.items()), ran, answer)
    return case, 1 + len(tries) + len(failures), wrong


def contents(path):
    """The bytes of a file."""
    with open(path, "rb") as file:
        return file.read()


def some_rows():
    """Some rows of each sort, none of them long."""
    sorts = {}
    for row in contents(f"{top}/crates/check_rows/stdin").splitlines():
        fields = row.split(b"\t")
        if len(row) < 300 and b"<<" not in row:
            sort = (fields[0], fields[2] if fields[0] in READS else b"")
            sorts.setdefault(sort, []).append(row)
    for sort, rows in sorts.items():
        count = min(len(rows), 4 if sort[1] else 20)
        yield from (rows[len(rows) * place // count] for place in range(count))


def short_lines():
    """The short lines of bytes of the program that prints what CBOR codes, each with its answer.
    They stand before its calls, the first of which has a space."""
    texts = [contents(f"{top}/crates/cbor_cli/{name}") for name in ("stdin", "stdout")]
    pairs = zip(*(text.splitlines() for text in texts))
    for line, answer in itertools.takewhile(lambda pair: b" " not in pair[0], pairs):
        if len(line) < 60:
            yield line, answer


def stored_cases(program, name):
    """A program with each input of a file and its answer."""
    for it in stored(f"{here}/{name}"):
        yield Case(program, it.text, (it.answer, it.status))


def cases():
    """Each program with each small input: that of the rows has one row a run, some of each sort
    and two that differ; that of CBOR one line, or the calls of one tree."""
    yield from stored_cases("content_cli", "lines")
    yield Case("check_memory", b"", (contents(f"{top}/crates/check_memory/stdout"), 0))
    for row in some_rows():
        yield Case("check_rows", row + b"\n", AGREES)
    differs = b"line 1: copy: got None; None, wanted (); ()\n0 rows agree, 1 differ\n", 1
    yield Case("check_rows", b"copy\tNone\t(); ()\n", differs)
    differs = b"line 1: read: got ok None, wanted ok ()\n0 rows agree, 1 differ\n", 1
    yield Case("check_rows", b"read\t-\tValue\tNone\tok ()\n", differs)
    for line, answer in short_lines():
        yield Case("cbor_cli", line + b"\n", (answer + b"\n", 0))
    yield from stored_cases("cbor_cli", "calls")
    yield from stored_cases("cbor_cli --pretty", "pretty")


def usages():
    """What is wrong with runs that read nothing and take no memory, and how many they are: with an
    argument that isn't known nothing goes to the standard output; the text of the help stands in
    the program's README.md, where checks/pages.sh compares it."""
    tries = [(words, 2) for words in ("--prety", "--pretty 00", "-h", "--" + 99 * "p")]
    tries += [(words, 0) for words in ("--help", "--pretty --help")]
    wrong = []
    for words, status in tries:
        ran = run(f"cbor_cli {words}", b"00\n")
        counts = ran.allocations, ran.reads, ran.left
        if (ran.answer[1], ran.answer[0] == b"") != (status, status == 2) or any(counts):
            wrong.append(f"{words}: got {told(ran.answer, 0)} and counts {counts}")
        failed = run(f"cbor_cli {words}", b"00\n", FAIL_WRITE=1)
        wrong += faults(f"{words}, FAIL_WRITE=1", failed, (b"", 5))
    return 2 * len(tries), wrong


def table(name):
    """The lines of a table, each as its fields."""
    for line in contents(f"{here}/{name}").decode().splitlines():
        if not line.startswith("#"):
            yield line.split("\t")


def forms():
    """All kinds of node of the table of trees, in each of their forms; `lying` are the calls with a
    million as each hint and length."""
    trees, owned, printed, calls, plain = zip(*table("trees"))
    joined = {"trees": trees, "owned": owned, "printed": printed, "plain": plain}
    made = {name: ", ".join(items) for name, items in joined.items()}
    elements = "; ".join(f"element; {call}" for call in calls)
    lying = re.sub(r"(seq|map|tuple|struct Foo|variant Foo 7 Bar) \d+", r"\1 1000000", elements)
    return made | {"elements": elements, "lying": lying}


def head_of(major, count):
    """The shortest head in CBOR of a major type and a number below 2^16, in digits."""
    if count < 24:
        return f"{32 * major + count:02x}"
    return f"{32 * major + 24:02x}{count:02x}" if count < 256 else f"{32 * major + 25:02x}{count:04x}"


def written_out(pattern, count):
    """The text that a pattern of the table of bounds stands for: `\\t` is a tab, `\\n` a new line,
    `*(item|between)*` so many items, `#` in one its number from 1000; `$count` is how many they are,
    `$trees` and the like all kinds of node in that form, and `$length` how many kinds so many items
    have; `$array`, `$map` and `$text` are the heads in CBOR of so many items."""

    def items(found):
        item, between = found.groups()
        return between.join(item.replace("#", str(1000 + place)) for place in range(count))

    names = FORMS | {"count": str(count), "length": str(count * KINDS)}
    names |= {"array": head_of(4, count), "map": head_of(5, count), "text": head_of(3, count)}
    spaced = pattern.replace(r"\t", "\t").replace(r"\n", "\n")
    text = re.sub(r"\$(\w+)", lambda found: names[found[1]], spaced)
    return re.sub(r"\*\((.*?)\|(.*?)\)\*", items, text, flags=re.S)


def sort_case(sort, count):
    """An operation on an input of so many items."""
    text = written_out(sort.text, count)
    answer = written_out(sort.answer, count)
    if sort.program == "check_rows":
        return Case(sort.program, f"{text}\t{answer}\n".encode(), AGREES)
    lines = text.replace("; ", "\n")
    return Case(sort.program, f"{lines}\n".encode(), (f"{answer}\n".encode(), 0))


def weighed(pair):
    """An operation, a count of items, the run, and what is wrong with it."""
    sort, count = pair
    case = sort_case(sort, count)
    ran = run(case.program, case.text)
    wrong = [*faults("with ample memory", ran, case.wanted)]
    bound = int(sort.constant) + int(sort.each) * count
    if ran.asked > bound:
        wrong.append(f"got {ran.asked} bytes asked for, wanted at most {bound}")
    return sort, count, ran, wrong


def tell(what, wrong):
    """Tells what is wrong with the runs on an input; gives how much."""
    for line in wrong[:5]:
        print(f"{what}: {line}")
    return len(wrong)


missing = [path_of(program) for program in PROGRAMS if not os.access(path_of(program), os.X_OK)]
if missing:
    sys.exit(f"no program at {', '.join(missing)}: `rt ci` builds them")
FORMS = forms()
KINDS = len([*table("trees")])
SORTS = [Sort(*fields) for fields in table("bounds")]
total = failed = 0
with ThreadPoolExecutor(os.cpu_count()) as pool:
    for case, runs, wrong in pool.map(tried, cases()):
        total += runs
        failed += tell(f"{case.program}, {case.text[:80].decode()!r}", wrong)
    for sort, count, ran, wrong in pool.map(weighed, itertools.product(SORTS, COUNTS)):
        what = f"{sort.program}, {sort.text[:80]!r}, {count} items"
        total += 1
        failed += tell(what, wrong)
        if "SHOW" in os.environ:
            print(f"{what}: asks for {ran.asked} bytes, {ran.most} in use at the most")
runs, wrong = usages()
total += runs
failed += tell("cbor_cli", wrong)
print(f"{total} runs, {failed} wrong")
sys.exit(1 if failed else 0)
