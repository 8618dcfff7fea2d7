"""Rows with their wanted answers, and what our program says of them. A row falls under the lines of docs/DIFFERENCES.md
by which its wanted answer isn't the Rust crate's; a line is known by its start."""
import re
import sys
from collections import Counter
from pathlib import Path

ROWS_A_FILE = 2500
# In the place of a line: the Rust crate has no answer to the case.
NO_ANSWER = "no answer"


def check_page(page, starts):
    """Ends where the page has no line with one of these starts."""
    lines = Path(page).read_text().splitlines()
    gone = [start for start in starts if not any(line.startswith(f"| {start} |") for line in lines)]
    if gone:
        sys.exit("\n".join(f"{page} has no line on: {start}" for start in gone))


def lines_of(path):
    """The lines of a file."""
    return Path(path).read_text().split("\n")[:-1]


def write_rows(room, cases, judged):
    """Writes to ROOM/rows/ each case with its wanted answer, and to ROOM/named the lines that it falls under."""
    rows, named = [], []
    for case, (wanted, starts) in zip(cases, judged, strict=True):
        rows.append(f"{case}\t{wanted}\n")
        named.append("\t".join(starts) + "\n")
    (room / "rows").mkdir(exist_ok=True)
    for start in range(0, len(rows), ROWS_A_FILE):
        (room / "rows" / f"{start:07}").write_text("".join(rows[start:start + ROWS_A_FILE]))
    (room / "named").write_text("".join(named))


def differing(room):
    """What our program said in ROOM/said of each row that it doesn't agree with, by the row's number."""
    said, start = {}, 0
    for line in lines_of(room / "said"):
        if line.startswith("== "):
            start = int(line.split()[1])
        elif found := re.match(r"line (\d+): (.*)", line):
            said[start + int(found[1]) - 1] = found[2]
    return said


def agreeing(room):
    """How many rows our program says that it agrees with."""
    return sum(int(count) for count in re.findall(r"(?m)^(\d+) rows agree", (room / "said").read_text()))


def count(room, starts):
    """Prints how many cases have the same answer, fall under each line, or differ, and the first ten of these: the
    status, 1 where there are any. Cases to which the Rust crate has no answer are told apart."""
    named, said, cases = lines_of(room / "named"), differing(room), lines_of(room / "cases")
    judged_rows = agreeing(room) + len(said)
    if judged_rows != len(cases):
        sys.exit(f"{judged_rows} rows of {len(cases)} were judged")
    agreed = [starts for place, starts in enumerate(named) if place not in said]
    under = Counter(start for starts in agreed for start in starts.split("\t"))
    unanswered = named.count(NO_ANSWER)
    compared = len(cases) - unanswered
    print(f"{compared} cases: {under['']} have the same answer, {len(said)} differ in what no line names")
    for start in starts:
        print(f"{under[start]:7} differ as the line says: {start}")
    if unanswered:
        print(f"besides, {unanswered} cases to which the crate has no answer: Serde's traits can't make the calls")
    for place in sorted(said)[:10]:
        print(f"\n{cases[place]}\n{said[place]}")
    return 1 if said else 0
